//! Tenants of one machine call at the same time, each on a thread of its own, as in `examples/threads.c`. Two workers need no
//! lock. The third is behind a mutex, since the administrator moves its slot meanwhile. Each gets what it gets alone.
use partmem::{Cache, Config, Error, Machine, Object, Refusal, Worker};
use std::sync::Mutex;
use std::thread::scope;

const CONFIG: Config = Config { order: 3, superblocks: 5, tenants: 4 };
const STEPS: u32 = 5000;

/// What a tenant has, and a checksum of what it got.
struct Work {
    cache: Cache,
    objects: Vec<Object>,
    random: u32,
    sum: u32,
}

impl Work {
    fn new(worker: &Worker<'_>) -> Result<Work, Error> {
        let cache = worker.make_cache(500, 8, b"new")?;
        Ok(Work { cache, objects: Vec::new(), random: worker.number().0, sum: 0 })
    }

    /// Takes an object and fills it, or gives one back.
    fn step(&mut self, worker: &Worker<'_>) -> Result<(), Error> {
        self.random = self.random.wrapping_mul(1_664_525).wrapping_add(1_013_904_223);
        let nth = (self.random >> 16) as usize % 80;
        if nth < self.objects.len() {
            let object = self.objects.swap_remove(nth);
            self.sum = self.sum.wrapping_mul(31).wrapping_add(worker.lend(&object)?[499].into());
            return worker.give(object);
        }
        match worker.take(&self.cache) {
            Ok(mut object) => {
                self.sum = self.sum.wrapping_mul(31).wrapping_add(object.place().0);
                worker.lend_mut(&mut object)?.fill(nth as u8);
                self.objects.push(object);
            }
            Err(error) if error == Refusal::NoFrames.into() => self.sum = self.sum.wrapping_mul(31),
            Err(error) => return Err(error),
        }
        Ok(())
    }
}

fn run(worker: &Worker<'_>) -> Result<u32, Error> {
    let mut work = Work::new(worker)?;
    (0..STEPS).try_for_each(|_| work.step(worker))?;
    Ok(work.sum)
}

fn run_behind(worker: &Mutex<Worker<'_>>) -> Result<u32, Error> {
    let mut work = Work::new(&worker.lock().unwrap())?;
    (0..STEPS).try_for_each(|_| work.step(&worker.lock().unwrap()))?;
    Ok(work.sum)
}

fn run_alone(tenant: usize) -> Result<u32, Error> {
    let mut machine = Machine::boot(CONFIG)?;
    let (mut steward, mut workers) = machine.threads();
    let worker = workers.nth(tenant).unwrap();
    steward.grant(&worker)?;
    run(&worker)
}

fn main() -> Result<(), Error> {
    let mut machine = Machine::boot(CONFIG)?;
    let (mut steward, mut workers) = machine.threads();
    let mut next = || workers.next().unwrap();
    let (ada, bob, eve, mut dan) = (next(), next(), next(), next());
    for worker in [&ada, &bob, &eve] {
        steward.grant(worker)?;
    }
    let eve = Mutex::new(eve);
    let sums = scope(|threads| {
        let threads =
            [threads.spawn(move || run(&ada)), threads.spawn(move || run(&bob)), threads.spawn(|| run_behind(&eve))];
        for _ in 0..STEPS / 10 {
            steward.move_slot(&mut eve.lock().unwrap(), 0)?;
            steward.grant(&dan)?;
            steward.reset(&mut dan)?;
        }
        threads.into_iter().map(|thread| thread.join().unwrap()).collect::<Result<Vec<_>, _>>()
    })?;
    assert_eq!(sums, (0..3).map(run_alone).collect::<Result<Vec<_>, _>>()?);
    println!("{} tenants got side by side what each gets alone", sums.len());
    Ok(())
}
