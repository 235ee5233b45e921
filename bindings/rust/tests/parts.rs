//! Tests of a machine's parts: clients, typed values, heaps, and memory of the caller.
use partmem::{typed, Administrator, Boxed, Client, Config, Error, Heap, Machine, Memory, Refusal, StaticMemory, Tenant};
use std::cell::Cell;
use std::mem::{align_of, forget, size_of, MaybeUninit};
use std::panic::{catch_unwind, AssertUnwindSafe};
use std::ptr;

const CONFIG: Config = Config { order: 3, superblocks: 16, tenants: 3 };

fn grant(administrator: Administrator<'_>, client: &Client<'_>, slots: u32) {
    for _ in 0..slots {
        administrator.grant(client.number()).unwrap();
    }
}

/// Runs some work with the administrator and two clients, after each client was granted `slots` slots.
fn with_two<R>(slots: u32, work: impl FnOnce(Administrator<'_>, Client<'_>, Client<'_>) -> R) -> R {
    let mut machine = Machine::boot(CONFIG).unwrap();
    let (administrator, mut clients) = machine.split();
    let (first, second) = (clients.next().unwrap(), clients.next().unwrap());
    grant(administrator, &first, slots);
    grant(administrator, &second, slots);
    work(administrator, first, second)
}

/// A value whose drop adds 1 to a counter.
#[derive(Debug)]
struct Counted<'c>(&'c Cell<u32>);

impl Drop for Counted<'_> {
    fn drop(&mut self) {
        self.0.set(self.0.get() + 1);
    }
}

#[test]
fn a_reset_and_a_move_need_only_their_own_client() {
    with_two(1, |administrator, mut first, mut second| {
        let (mut lost, mut kept) = (first.alloc(0).unwrap(), second.alloc(0).unwrap());
        first.lend_mut(&mut lost).unwrap().fill(1);
        let bytes = second.lend_mut(&mut kept).unwrap();
        bytes.fill(2);
        let moved = administrator.move_slot(&mut first, 0).unwrap();
        assert_eq!((moved.slot, moved.superblock), (0, 2));
        assert!(first.lend(&lost).unwrap().iter().all(|byte| *byte == 1));
        administrator.reset(&mut first).unwrap();
        assert_eq!(first.lend(&lost), Err(Error::Stale));
        assert_eq!(first.report().unwrap().frames, 0);
        assert!(bytes.iter().all(|byte| *byte == 2));
        assert_eq!(second.lend_at(kept.place(), 4096).unwrap()[4095], 2);
        second.free(kept).unwrap();
    });
}

#[test]
fn a_client_refuses_what_is_another_ones() {
    with_two(2, |administrator, first, second| {
        let (mut block, mut cache) = (first.alloc(0).unwrap(), first.make_cache(64, 8, b"a").unwrap());
        let object = first.take(&cache).unwrap();
        assert_eq!(second.lend(&block), Err(Error::Stale));
        assert_eq!(second.lend_mut(&mut block), Err(Error::Stale));
        assert_eq!(second.take(&cache).unwrap_err(), Error::Stale);
        assert_eq!(second.destroy_cache(&mut cache), Err(Error::Stale));
        assert_eq!(second.free(block), Err(Error::Stale));
        assert_eq!(second.give(object), Err(Error::Stale));
        assert_eq!(first.report().unwrap().live, 2);
        let mut other = Machine::boot(CONFIG).unwrap();
        let mut stranger = other.client(Tenant(0)).unwrap();
        assert_eq!(administrator.reset(&mut stranger), Err(Error::Stale));
        assert_eq!(administrator.move_slot(&mut stranger, 0), Err(Error::Stale));
        assert_eq!(other.client(Tenant(3)).unwrap_err(), Refusal::NoTenant.into());
        assert_eq!(other.split().1.map(|client| client.number().0).collect::<Vec<_>>(), [0, 1, 2]);
    });
}

#[test]
fn a_typed_value_is_dropped_once_and_its_object_is_given_back() {
    with_two(1, |_, client, _| {
        let ends = Cell::new(0);
        let live = || client.report().unwrap().cache[0].live;
        let cache = client.cache_of::<Counted<'_>>().unwrap();
        let (one, two) = (cache.take(Counted(&ends)).unwrap(), cache.take(Counted(&ends)).unwrap());
        assert_ne!(typed::Object::place(&one), typed::Object::place(&two));
        assert_eq!((live(), ends.get()), (2, 0));
        drop(one);
        assert_eq!((live(), ends.get()), (1, 1));
        let value = typed::Object::into_inner(two);
        assert_eq!((live(), ends.get()), (0, 1));
        drop(value);
        assert_eq!(ends.get(), 2);
        let panics = catch_unwind(AssertUnwindSafe(|| drop(cache.take_with(|| panic!("no value")))));
        assert!(panics.is_err() && live() == 0 && ends.get() == 2);
        drop(cache);
        assert_eq!(client.report().unwrap().caches, 0);
    });
}

#[test]
fn what_finds_no_object_is_not_made_and_refusals_have_their_error() {
    with_two(1, |_, client, other| {
        let (cache, ends) = (client.cache_of::<[u64; 512]>().unwrap(), Cell::new(0));
        let all: Vec<_> = (0..8).map(|number| cache.take([number; 512]).unwrap()).collect();
        assert!(all.iter().zip(0..).all(|(object, number)| **object == [number; 512]));
        assert_eq!(cache.take_with(|| unreachable!()).unwrap_err(), Refusal::NoFrames.into());
        assert_eq!(client.cache_of::<[u8; 4097]>().unwrap_err(), Refusal::BadSize.into());
        let counted = client.cache_of().unwrap();
        assert_eq!(counted.take(Counted(&ends)).unwrap_err(), Refusal::NoFrames.into());
        assert_eq!(ends.get(), 1);
        #[repr(align(512))]
        struct Wide(#[allow(dead_code)] u8);
        assert_eq!(other.cache_of::<Wide>().unwrap_err(), Refusal::BadAlign.into());
        let nothing = other.cache_of::<()>().unwrap();
        assert_eq!((*nothing.take(()).unwrap(), other.report().unwrap().live), ((), 1));
    });
}

#[test]
fn values_lie_at_their_alignment() {
    #[repr(align(256))]
    struct Page([u8; 300]);
    assert_eq!((size_of::<Page>(), align_of::<Page>()), (512, 256));
    with_two(4, |_, client, _| {
        let (cache, heap) = (client.cache_of().unwrap(), client.heap().unwrap());
        let objects: Vec<_> = (0..20).map(|fill| cache.take(Page([fill; 300])).unwrap()).collect();
        let boxes: Vec<_> = (0..20).map(|fill| heap.boxed(Page([fill + 20; 300])).unwrap()).collect();
        for (page, fill) in objects.iter().map(|it| &**it).chain(boxes.iter().map(|it| &**it)).zip(0..) {
            assert!(page as *const Page as usize % 256 == 0 && page.0 == [fill; 300]);
        }
    });
}

/// A node of a linked list in a heap: its number, and the next node.
struct Node<'h>(u32, Option<Boxed<'h, Node<'h>>>);

/// Fills a heap with the nodes of a list, and leaks them. Returns how many there are.
fn fill(heap: &Heap<'_>) -> u32 {
    let (mut list, mut length) = (None, 0);
    while let Ok(node) = heap.boxed_with(|| Node(length, list.take())) {
        (list, length) = (Some(node), length + 1);
    }
    assert_eq!(list.as_ref().map(|node: &Boxed<'_, Node<'_>>| node.0 + 1), Some(length));
    assert!(list.as_ref().map_or(false, |node| node.1.is_some()));
    forget(list);
    length
}

#[test]
fn a_heap_gives_a_tenant_the_same_whatever_the_others_do() {
    let alone = with_two(4, |_, first, _| fill(&first.heap().unwrap()));
    with_two(4, |administrator, first, mut second| {
        let heap = first.heap().unwrap();
        let (kept, freed) = (heap.boxed([7u8; 5000]).unwrap(), heap.boxed(1u128).unwrap());
        assert!(Boxed::place(&kept).0 % 8192 == 0 && Boxed::place(&freed).0 % 16 == 0);
        assert_eq!(Boxed::into_inner(freed), 1);
        for _ in 0..3 {
            assert_eq!(fill(&second.heap().unwrap()), alone);
            assert_eq!(second.heap().unwrap().boxed([0u8; 4096]).unwrap_err(), Error::NoMemory);
            administrator.reset(&mut second).unwrap();
            grant(administrator, &second, 4);
        }
        assert!(kept.iter().all(|byte| *byte == 7));
    });
}

#[test]
fn slices_and_texts_are_copied_into_a_heap() {
    with_two(2, |_, client, _| {
        let heap = client.heap().unwrap();
        let (words, text) = (heap.copied(&[1u64, 2, 3]).unwrap(), heap.text("na\u{ef}ve").unwrap());
        let again = heap.copied(&words[1..]).unwrap();
        assert_eq!((&*words, &*again, &*text), ([1, 2, 3].as_slice(), [2, 3].as_slice(), "na\u{ef}ve"));
        assert_eq!((format!("{words:?} {text}"), Boxed::place(&text).0 % 16), ("[1, 2, 3] na\u{ef}ve".into(), 0));
        let (nothing, empty) = (heap.copied::<u128>(&[]).unwrap(), heap.text("").unwrap());
        assert!(nothing.is_empty() && empty.is_empty());
        assert_eq!(heap.copied(&[0u8; 40_000]).unwrap_err(), Error::NoMemory);
        drop((words, text, again, nothing, empty));
        client.reap().unwrap();
        assert_eq!(client.report().unwrap().live, 0);
    });
}

#[test]
fn guests_have_heaps_of_their_own_in_one_list() {
    with_two(4, |administrator, first, second| {
        let mut guests: Vec<_> = [first, second].into_iter().map(|client| client.into_heap(&[], false).unwrap()).collect();
        let mut counts = Vec::new();
        for round in 0..3 {
            let kept = guests[1].boxed(round).unwrap();
            counts.push(fill(&guests[0]));
            assert_eq!((*kept, guests[1].client().report().unwrap().caches), (round, 1));
            drop(kept);
            let mut client = guests.remove(0).into_client();
            administrator.reset(&mut client).unwrap();
            grant(administrator, &client, 4);
            guests.insert(0, client.into_heap(&[], false).unwrap());
        }
        assert!(counts.iter().all(|count| *count == counts[0]));
    });
}

#[test]
fn a_heap_has_classes_and_runs_of_its_user() {
    with_two(4, |administrator, client, mut other| {
        let value = client.heap_with(&[64, 512], false).unwrap().boxed([1u8; 65]).map(|it| it.len());
        assert_eq!(value, Ok(65));
        assert_eq!(client.report().unwrap().caches, 0);
        for sizes in [[32, 16].as_slice(), &[8], &[4112], &[16; 25]] {
            assert_eq!(client.heap_with(sizes, false).unwrap_err(), Error::BadConfig);
        }
        for _ in 0..40 {
            assert_eq!(client.heap().unwrap().boxed(7).map(|value| *value), Ok(7));
        }
        assert_eq!(client.report().unwrap().caches, 0);
        let large = || MaybeUninit::<[u8; 60_000]>::uninit();
        assert_eq!(client.heap().unwrap().boxed(large()).map(drop), Err(Error::NoMemory));
        client.reap().unwrap();
        for _ in 0..2 {
            let heap = client.heap_with(&[], true).unwrap();
            assert_eq!(client.heap_with(&[], true).unwrap_err(), Error::BadMemory);
            assert_eq!(heap.boxed(large()).map(drop), Ok(()));
        }
        assert_eq!(client.heap_with(&[8], true).unwrap_err(), Error::BadConfig);
        forget(client.heap_with(&[], true).unwrap());
        assert_eq!(client.heap_with(&[], true).unwrap_err(), Error::BadMemory);
        administrator.move_slot(&mut other, 0).unwrap();
        assert_eq!(other.heap_with(&[], true).unwrap_err(), Error::BadMemory);
    });
}

#[test]
fn a_machine_boots_in_memory_of_the_caller() {
    static MEMORY: StaticMemory<{ CONFIG.ram_bytes() }, { CONFIG.table_bytes() }> = StaticMemory::new();
    let memory = MEMORY.take().unwrap();
    let ram = ptr::addr_of!(memory.ram[0]) as usize;
    let mut machine = Machine::boot_in(CONFIG, memory).unwrap();
    assert!(MEMORY.take().is_none());
    machine.grant(Tenant(2)).unwrap();
    machine.grant(Tenant(1)).unwrap();
    let mut block = machine.alloc(Tenant(1), 0).unwrap();
    assert_eq!(machine.lend_mut(&mut block).unwrap().as_ptr() as usize, ram + (4096 << CONFIG.order));
    assert_eq!(machine.client(Tenant(2)).unwrap().report().unwrap().frames, 8);
}

#[test]
fn memory_that_is_too_small_or_not_aligned_is_refused() {
    let leaked = |bytes: usize| Box::leak(vec![MaybeUninit::uninit(); bytes + 4096].into_boxed_slice());
    // Returns bytes that begin at this offset from a multiple of 4096.
    let at = |offset: usize, bytes: usize| {
        let all = leaked(bytes + 4096);
        let start = all.as_ptr().align_offset(4096) + offset;
        &mut all[start..][..bytes]
    };
    let (ram, tables) = (CONFIG.ram_bytes(), CONFIG.table_bytes());
    for (ram, tables) in [(at(0, ram - 1), at(0, tables)), (at(0, ram), at(0, tables - 1)), (at(8, ram), at(0, tables))] {
        assert_eq!(Machine::boot_in(CONFIG, Memory { ram, tables }).unwrap_err(), Error::BadMemory);
    }
    let memory = || Memory { ram: at(0, ram), tables: at(16, tables) };
    let larger = Config { tenants: 256, ..CONFIG };
    assert_eq!(Machine::boot_in(larger, memory()).unwrap_err(), Error::BadConfig);
    assert!(Machine::boot_in(CONFIG, memory()).is_ok());
    let bytes = |bytes: usize| {
        let all = Box::leak(vec![7u8; bytes + 4096].into_boxed_slice());
        let start = all.as_ptr().align_offset(4096);
        &mut all[start..][..bytes]
    };
    let machine = Machine::boot_in(CONFIG, Memory::of_bytes(bytes(ram), bytes(tables))).unwrap();
    machine.grant(Tenant(0)).unwrap();
    assert_eq!(machine.lend(&machine.alloc(Tenant(0), 0).unwrap()).unwrap()[..], [0; 4096]);
}

/// The sum of `PARTMEM_TABLE_BYTES` over machines of each order and each number of superblocks, each rounded up to a multiple of
/// 16. tests/rust/run checks it with the header.
const TABLES_OF_ALL: usize = 3_021_428_295_168;

#[test]
fn tables_have_the_size_of_the_header_and_of_a_machine() {
    let mut sum = 0;
    for order in 3..=10 {
        for superblocks in 1..=4096.min((1 << 20) >> order) {
            for tenants in (1..=64).chain([65, 128, 129, 255]).filter(|tenants| superblocks <= 256 || tenants % 16 == 1) {
                let config = Config { order, superblocks, tenants };
                let of_tenant = 24 + 2 * superblocks as usize;
                sum += config.table_bytes() - 24 - tenants as usize * of_tenant;
            }
        }
    }
    assert_eq!(sum, TABLES_OF_ALL);
}

/// Checks that heaps work in lent memory, of another tenant and of their own, and that nothing else there changes.
#[test]
fn a_heap_may_lie_in_lent_memory() {
    with_two(2, |_, first, second| {
        let heaps = first.cache_of::<Heap<'_>>().unwrap();
        let (other, own) = (heaps.take(second.heap().unwrap()).unwrap(), heaps.take(first.heap().unwrap()).unwrap());
        let block = first.alloc(0).unwrap();
        let kept = first.lend(&block).unwrap().to_vec();
        let values: Vec<_> =
            (0..200u64).map(|value| (other.boxed(value).unwrap(), own.boxed([value; 5]).unwrap())).collect();
        for (value, (one, five)) in (0..).zip(&values) {
            assert_eq!((**one, **five), (value, [value; 5]));
        }
        drop(values);
        assert_eq!(first.lend(&block).unwrap(), kept);
    });
}
