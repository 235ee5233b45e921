//! Lent bytes are used on other threads, without a lock, while the main thread calls the machine. Then threads share
//! the machine behind a lock.
use partmem::{Config, Error, Machine, Tenant};
use std::sync::Mutex;
use std::thread::scope;

fn main() -> Result<(), Error> {
    let machine = Machine::boot(Config { order: 4, superblocks: 4, tenants: 2 })?;
    let client = Tenant(0);
    machine.grant(client)?;
    let mut blocks = (0..4).map(|_| machine.alloc(client, 0)).collect::<Result<Vec<_>, _>>()?;
    scope(|threads| {
        for (fill, block) in (1..).zip(&mut blocks) {
            let bytes = machine.lend_mut(block)?;
            threads.spawn(move || bytes.fill(fill));
            machine.free(machine.alloc(client, 1)?)?;
        }
        Ok::<(), Error>(())
    })?;
    let shared = &Mutex::new(machine);
    scope(|threads| {
        for (fill, block) in (1..).zip(blocks) {
            threads.spawn(move || {
                let machine = shared.lock().unwrap();
                assert_eq!(machine.lend(&block).unwrap()[4095], fill);
                machine.free(block).unwrap();
            });
        }
    });
    println!("{} frames are live", shared.lock().unwrap().report(client)?.live);
    Ok(())
}
