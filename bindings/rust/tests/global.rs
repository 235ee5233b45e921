//! The global allocator of this program is the heap of one tenant. All threads of the tests allocate from it.
use partmem::{Config, Error, Global, LazyHeap, Machine, SpinLock, StaticMemory, Tenant};
use std::alloc::{GlobalAlloc, Layout};
use std::collections::BTreeMap;
use std::thread;

const CONFIG: Config = Config { order: 6, superblocks: 64, tenants: 3 };
const OWN: Tenant = Tenant(1);
static MEMORY: StaticMemory<{ CONFIG.ram_bytes() }, { CONFIG.table_bytes() }> = StaticMemory::new();

fn open() -> Result<(Machine, Tenant), Error> {
    let machine = Machine::boot_in(CONFIG, MEMORY.take().ok_or(Error::NoMemory)?)?;
    for _ in 0..48 {
        machine.grant(OWN)?;
    }
    Ok((machine, OWN))
}

#[global_allocator]
static GLOBAL: Global<SpinLock<LazyHeap>> = Global::new(SpinLock::new(LazyHeap::new(open)));

fn is_own(at: *const u8) -> bool {
    let start = std::ptr::addr_of!(MEMORY) as usize;
    (start..start + std::mem::size_of_val(&MEMORY)).contains(&(at as usize))
}

#[test]
fn collections_of_many_threads_lie_in_the_tenants_memory() {
    let work = |seed: u64| {
        let (mut map, mut random) = (BTreeMap::new(), seed);
        for _ in 0..20_000 {
            random = random.wrapping_mul(6_364_136_223_846_793_005).wrapping_add(1_442_695_040_888_963_407);
            let key = random >> 52;
            if random >> 40 & 3 == 0 {
                map.remove(&key);
            } else {
                let text = map.entry(key).or_insert_with(String::new);
                text.push_str(&key.to_string());
                assert!(is_own(text.as_ptr()));
            }
        }
        assert!(map.iter().all(|(key, text)| text.starts_with(&key.to_string())));
        map.len()
    };
    let counts: Vec<_> = (0..4).map(|seed| thread::spawn(move || work(seed))).map(|it| it.join().unwrap()).collect();
    assert!(is_own(counts.as_ptr().cast()) && counts.iter().all(|count| *count > 1000));
}

/// Superblocks of 32 KiB: the table of a map with 60,000 entries is larger.
const OF_RUNS: Config = Config { order: 3, superblocks: 200, tenants: 1 };
static MEMORY_OF_RUNS: StaticMemory<{ OF_RUNS.ram_bytes() }, { OF_RUNS.table_bytes() }> = StaticMemory::new();
static WITH_RUNS: Global<SpinLock<LazyHeap>> = Global::new(SpinLock::new(LazyHeap::with_runs(open_for_runs)));

fn open_for_runs() -> Result<(Machine, Tenant), Error> {
    let machine = Machine::boot_in(OF_RUNS, MEMORY_OF_RUNS.take().ok_or(Error::NoMemory)?)?;
    for _ in 0..OF_RUNS.superblocks {
        machine.grant(Tenant(0))?;
    }
    Ok((machine, Tenant(0)))
}

#[test]
fn with_runs_a_request_may_be_larger_than_a_superblock() {
    let (large, all) = (Layout::new::<[u8; 2_000_000]>(), Layout::new::<[u8; 200 << 15]>());
    // SAFETY: no layout is empty. Each call with the piece gets the layout that the piece has, and the piece is freed once.
    unsafe {
        let at = WITH_RUNS.alloc_zeroed(large);
        assert!(!at.is_null() && *at.add(1_999_999) == 0);
        at.add(1_999_999).write(7);
        let at = WITH_RUNS.realloc(at, large, 3_000_000);
        assert!(!at.is_null() && *at.add(1_999_999) == 7 && WITH_RUNS.alloc(all).is_null());
        WITH_RUNS.dealloc(at, Layout::new::<[u8; 3_000_000]>());
        let at = WITH_RUNS.alloc(all);
        assert!(!at.is_null() && GLOBAL.alloc(Layout::new::<[u8; 300_000]>()).is_null());
        WITH_RUNS.dealloc(at, all);
    }
}

#[test]
fn requests_are_aligned_and_refused_like_those_of_a_heap() {
    for align in (0..13).map(|power| 1 << power) {
        let layout = |bytes| Layout::from_size_align(bytes, align).unwrap();
        // SAFETY: no layout is empty. Each call with the piece gets the layout that the piece has, and the piece is freed once.
        unsafe {
            let at = GLOBAL.alloc_zeroed(layout(100));
            assert!(!at.is_null() && at as usize % align == 0 && (0..100).all(|byte| *at.add(byte) == 0));
            at.add(99).write(9);
            let at = GLOBAL.realloc(at, layout(100), 9000);
            assert!(!at.is_null() && at as usize % align == 0 && *at.add(99) == 9);
            let at = GLOBAL.realloc(at, layout(9000), 100);
            assert!(*at.add(99) == 9 && GLOBAL.realloc(at, layout(100), 1 << 20).is_null());
            GLOBAL.dealloc(at, layout(100));
        }
    }
    // SAFETY: the size of the layout is not 0.
    assert!(unsafe { GLOBAL.alloc(Layout::from_size_align(1, 8192).unwrap()) }.is_null());
}

#[test]
fn the_other_tenants_can_be_used_beside_it() {
    let numbers = GLOBAL.with_others(|administrator, clients| {
        let mut numbers = [None; 3];
        for (number, mut client) in numbers.iter_mut().zip(clients) {
            administrator.grant(client.number()).unwrap();
            assert_eq!(client.heap().unwrap().boxed([3u8; 3000]).unwrap()[2999], 3);
            administrator.reset(&mut client).unwrap();
            *number = Some(client.number().0);
        }
        numbers
    });
    assert_eq!(numbers, Some([Some(0), Some(2), None]));
}
