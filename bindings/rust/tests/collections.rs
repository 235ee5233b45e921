//! Collections whose allocator is a tenant's heap.
#![feature(allocator_api, btreemap_alloc)]
use partmem::{Config, Error, Heap, Machine, Tenant};
use std::collections::{BTreeMap, VecDeque};

/// Returns how many boxes a vector gets before the heap refuses memory.
fn fill(heap: &Heap<'_>) -> usize {
    let mut boxes = Vec::new_in(heap);
    while boxes.try_reserve(1).is_ok() {
        match Box::try_new_in([boxes.len(); 9], heap) {
            Ok(value) => boxes.push(value),
            Err(_) => break,
        }
    }
    assert!(boxes.iter().enumerate().all(|(at, value)| **value == [at; 9]));
    boxes.len()
}

#[test]
fn two_tenants_have_the_same_and_one_is_reset() -> Result<(), Error> {
    let mut machine = Machine::boot(Config { order: 4, superblocks: 32, tenants: 2 })?;
    let (administrator, mut clients) = machine.split();
    let (mut first, second) = (clients.next().unwrap(), clients.next().unwrap());
    for _ in 0..16 {
        administrator.grant(first.number())?;
        administrator.grant(second.number())?;
    }
    let heap = second.heap()?;
    let count = fill(&heap);
    assert!(count > 4000);
    let mut kept = Vec::new_in(&heap);
    kept.extend(0..1000u16);
    assert_eq!(fill(&first.heap()?), count);
    std::mem::forget(Box::new_in([0u8; 60_000], &first.heap()?));
    administrator.reset(&mut first)?;
    assert!(kept.iter().copied().eq(0..1000));
    kept.truncate(10);
    kept.shrink_to_fit();
    assert_eq!((kept.capacity(), kept[9]), (10, 9));
    Ok(())
}

#[test]
fn maps_and_queues_work_and_free_all_that_they_had() -> Result<(), Error> {
    let mut machine = Machine::boot(Config { order: 6, superblocks: 16, tenants: 1 })?;
    for _ in 0..16 {
        machine.grant(Tenant(0))?;
    }
    let client = machine.client(Tenant(0))?;
    let heap = client.heap()?;
    let (mut map, mut queue) = (BTreeMap::new_in(&heap), VecDeque::new_in(&heap));
    for number in 0..20_000u32 {
        map.insert(number.wrapping_mul(2_654_435_761), number);
        queue.push_back(number);
        if number % 3 == 0 {
            assert_eq!(queue.pop_front(), Some(number / 3));
        }
    }
    assert!(map.iter().all(|(key, number)| *key == number.wrapping_mul(2_654_435_761)) && map.len() == 20_000);
    drop((map, queue));
    client.reap()?;
    assert_eq!(client.report()?.live, 0);
    #[repr(align(1024))]
    struct Wide(u8);
    let mut wide = Vec::new_in(&heap);
    (0..100).for_each(|number| wide.push(Wide(number)));
    assert!(wide.iter().zip(0..).all(|(it, number)| it as *const Wide as usize % 1024 == 0 && it.0 == number));
    let nothing: Vec<(), &Heap<'_>> = Vec::new_in(&heap);
    assert_eq!(nothing.len(), 0);
    Ok(())
}
