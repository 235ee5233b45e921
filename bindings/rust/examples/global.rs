//! The global allocator of this program is the heap of one tenant. The memory of the machine is a static. Another tenant
//! is granted one superblock, and has its own heap there.
use partmem::{Config, Error, Global, LazyHeap, Machine, StaticMemory, Tenant};
use std::collections::BTreeMap;
use std::sync::Mutex;

const CONFIG: Config = Config { order: 6, superblocks: 16, tenants: 2 };
const OWN: Tenant = Tenant(0);
static MEMORY: StaticMemory<{ CONFIG.ram_bytes() }, { CONFIG.table_bytes() }> = StaticMemory::new();

/// Boots the machine in the static, with 2 MiB for the program. This function must not allocate.
fn open() -> Result<(Machine, Tenant), Error> {
    let machine = Machine::boot_in(CONFIG, MEMORY.take().ok_or(Error::NoMemory)?)?;
    for _ in 0..8 {
        machine.grant(OWN)?;
    }
    Ok((machine, OWN))
}

#[global_allocator]
static GLOBAL: Global<Mutex<LazyHeap>> = Global::new(Mutex::new(LazyHeap::new(open)));

fn main() {
    let text = "the quick brown fox jumps over the lazy dog and the quick cat";
    let mut counts = BTreeMap::<String, Vec<usize>>::new();
    for (number, word) in text.split(' ').enumerate() {
        counts.entry(word.to_owned()).or_default().push(number);
    }
    println!("the: {:?}, quick: {:?}, {} words", counts["the"], counts["quick"], counts.len());
    let mut large = Vec::<u8>::new();
    println!("4 MiB: {}", if large.try_reserve(4 << 20).is_err() { "refused" } else { "allocated" });
    let used = GLOBAL.with_others(|administrator, mut clients| {
        let other = clients.next().ok_or(Error::Stale)?;
        administrator.grant(other.number())?;
        let value = other.heap()?.boxed([7u64; 100])?.iter().sum::<u64>();
        Ok::<_, Error>((value, administrator.report(OWN)?.live > 0))
    });
    println!("the other tenant's sum, and whether this one has live frames: {used:?}");
}
