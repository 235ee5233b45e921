//! A program that needs only `core` and `alloc`, as a kernel does. All its memory is in a static. The program's own heap is
//! the heap of tenant 0, and another tenant has typed values. Here the C library starts the program, which returns 0 if all was
//! right.
#![no_std]
#![no_main]
extern crate alloc;

use alloc::{collections::BTreeMap, string::String, vec::Vec};
use partmem::{Config, Error, Global, LazyHeap, Machine, SpinLock, StaticMemory, Tenant};

const CONFIG: Config = Config { order: 4, superblocks: 8, tenants: 2 };
const OWN: Tenant = Tenant(0);
static MEMORY: StaticMemory<{ CONFIG.ram_bytes() }, { CONFIG.table_bytes() }> = StaticMemory::new();

fn open() -> Result<(Machine, Tenant), Error> {
    let machine = Machine::boot_in(CONFIG, MEMORY.take().ok_or(Error::NoMemory)?)?;
    for _ in 0..4 {
        machine.grant(OWN)?;
    }
    Ok((machine, OWN))
}

#[global_allocator]
static GLOBAL: Global<SpinLock<LazyHeap>> = Global::new(SpinLock::new(LazyHeap::new(open)));

/// Fills a superblock of another tenant with numbers, and returns how many fit. Returns `None` if the heap could not be opened.
fn count_numbers() -> Option<Result<u64, Error>> {
    GLOBAL.with_others(|administrator, mut clients| {
        let mut client = clients.next().ok_or(Error::Stale)?;
        administrator.grant(client.number())?;
        let numbers = client.cache_of::<u64>()?;
        let mut count = 0;
        while let Ok(number) = numbers.take(count) {
            core::mem::forget(number);
            count += 1;
        }
        drop(numbers);
        administrator.reset(&mut client)?;
        Ok(count)
    })
}

#[no_mangle]
pub extern "C" fn main() -> i32 {
    let words: Vec<String> = "one two three two one two".split(' ').map(String::from).collect();
    let mut counts = BTreeMap::new();
    for word in &words {
        *counts.entry(word.as_str()).or_insert(0) += 1;
    }
    let is_right = counts["two"] == 3 && count_numbers() == Some(Ok(16 * 254)) && count_numbers() == Some(Ok(16 * 254));
    i32::from(!is_right)
}

#[panic_handler]
fn stop(_: &core::panic::PanicInfo<'_>) -> ! {
    loop {}
}

/// What a target with an operating system also needs: `memcpy` and the like come from the C library there, and `alloc` was
/// compiled to unwind, which this program never does.
mod hosted {
    #[link(name = "c")]
    extern "C" {}

    #[no_mangle]
    extern "C" fn rust_eh_personality() {}
}
