//! Tests of machines that are divided for threads: tenants call at the same time, beside their administrator.
use partmem::{Block, Cache, Config, Error, Machine, Object, Refusal, Tenant, Worker};
use std::sync::{Barrier, Mutex};
use std::thread::scope;

const TENANTS: usize = 4;
const STEPS: usize = 3000;
const MOST: usize = 60;

/// A tenant's user, with all that it has. What it does follows from its random numbers and from what it got.
struct User {
    random: u64,
    cache: Cache,
    blocks: Vec<Block>,
    objects: Vec<Object>,
    /// A checksum of all places, bytes and refusals that the user has seen, and how many refusals these were.
    seen: u64,
    refused: usize,
}

impl User {
    fn new(worker: &Worker<'_>) -> User {
        let cache = worker.make_cache(400, 8, b"new").unwrap();
        User { random: 7 + u64::from(worker.number().0), cache, blocks: vec![], objects: vec![], seen: 0, refused: 0 }
    }

    fn any(&mut self, below: usize) -> usize {
        self.random = self.random.wrapping_mul(6_364_136_223_846_793_005).wrapping_add(1_442_695_040_888_963_407);
        (self.random >> 33) as usize % below
    }

    fn see(&mut self, number: u64) {
        self.seen = self.seen.wrapping_mul(1_099_511_628_211) ^ number;
    }

    fn see_bytes(&mut self, bytes: &[u8]) {
        bytes.iter().for_each(|byte| self.see((*byte).into()));
    }

    /// Takes an object or allocates a block, and fills it.
    fn take(&mut self, worker: &Worker<'_>, nth: usize) -> Result<(), Error> {
        if nth < 8 {
            let mut block = worker.alloc(nth as u32 % 3)?;
            let (place, bytes) = (block.place(), worker.lend_mut(&mut block)?);
            self.see(place.0.into());
            self.see_bytes(&bytes[..16]);
            bytes.fill(nth as u8);
            self.blocks.push(block);
        } else {
            let mut object = worker.take(&self.cache)?;
            let (place, bytes) = (object.place(), worker.lend_mut(&mut object)?);
            self.see(place.0.into());
            self.see_bytes(bytes);
            bytes.fill(nth as u8);
            self.objects.push(object);
        }
        Ok(())
    }

    /// Frees a block or gives back an object.
    fn give(&mut self, worker: &Worker<'_>, nth: usize) -> Result<(), Error> {
        if nth < self.blocks.len() {
            let block = self.blocks.swap_remove(nth);
            self.see_bytes(&worker.lend(&block)?[..16]);
            worker.free(block)
        } else {
            let object = self.objects.swap_remove(nth - self.blocks.len());
            self.see_bytes(worker.lend(&object)?);
            worker.give(object)
        }
    }

    fn step(&mut self, worker: &Worker<'_>) {
        let (have, nth) = (self.blocks.len() + self.objects.len(), self.any(64));
        let is_full = have > 0 && self.any(MOST) < have;
        let done = if is_full { self.any(have) } else { have };
        let done = if done < have { self.give(worker, done) } else { self.take(worker, nth) };
        if let Err(error) = done {
            assert_eq!(error, Refusal::NoFrames.into());
            self.see(1);
            self.refused += 1;
        }
    }
}

/// Boots a machine for these tenants and one more, who gets nothing.
fn booted(tenants: usize) -> Machine {
    let tenants = tenants as u32 + 1;
    Machine::boot(Config { order: 3, superblocks: tenants + 2, tenants }).unwrap()
}

/// Returns what the user of a tenant sees whose worker is alone on its machine.
fn seen_alone(tenant: usize) -> u64 {
    let mut machine = booted(TENANTS);
    let (mut steward, mut workers) = machine.threads();
    let worker = workers.nth(tenant).unwrap();
    steward.grant(&worker).unwrap();
    let mut user = User::new(&worker);
    (0..STEPS).for_each(|_| user.step(&worker));
    assert!((50..STEPS / 2).contains(&user.refused), "{} refusals", user.refused);
    user.seen
}

/// Tenants call on threads of their own. Meanwhile the administrator moves their slots, and grants to and resets one more tenant.
#[test]
fn tenants_see_the_same_alone_and_side_by_side() {
    let mut machine = booted(TENANTS);
    let (mut steward, workers) = machine.threads();
    let mut workers = workers.collect::<Vec<_>>();
    let mut other = workers.pop().unwrap();
    workers.iter().for_each(|worker| assert!(steward.grant(worker).is_ok()));
    let (workers, start) = (workers.into_iter().map(Mutex::new).collect::<Vec<_>>(), Barrier::new(TENANTS + 1));
    let seen = scope(|threads| {
        let start = &start;
        let users = workers
            .iter()
            .map(|worker| {
                threads.spawn(move || {
                    let mut user = User::new(&worker.lock().unwrap());
                    start.wait();
                    (0..STEPS).for_each(|_| user.step(&worker.lock().unwrap()));
                    user.seen
                })
            })
            .collect::<Vec<_>>();
        start.wait();
        for i in 0..STEPS {
            let _ = steward.move_slot(&mut workers[i % TENANTS].lock().unwrap(), 0);
            if i % 16 == 15 {
                steward.reset(&mut other).unwrap();
            } else if i % 4 == 0 {
                let _ = steward.grant(&other);
            }
        }
        users.into_iter().map(|user| user.join().unwrap()).collect::<Vec<_>>()
    });
    assert_eq!(seen, (0..TENANTS).map(seen_alone).collect::<Vec<_>>());
}

#[test]
fn a_worker_has_the_calls_of_a_client() {
    let mut machine = booted(1);
    let (mut steward, mut workers) = machine.threads();
    let (mut one, mut other) = (workers.next().unwrap(), workers.next().unwrap());
    assert!(workers.next().is_none() && (one.number(), other.number()) == (Tenant(0), Tenant(1)));
    let slot = steward.grant(&one).unwrap();
    let mut block = one.alloc(0).unwrap();
    one.lend_mut(&mut block).unwrap()[0] = 5;
    assert_eq!(other.free(one.alloc(0).unwrap()), Err(Error::Stale));
    assert_eq!(steward.take_back(&one, slot.slot), Err(Refusal::SlotBusy.into()));
    assert_eq!(steward.move_slot(&mut one, 9), Err(Refusal::NoSlot.into()));
    assert_eq!(steward.move_slot(&mut one, slot.slot).unwrap().slot, slot.slot);
    assert_eq!(one.lend(&block).unwrap()[0], 5);
    assert_eq!(one.lend_at(block.place(), 1).unwrap(), [5]);
    assert_eq!(other.lend_at(block.place(), 1), Err(Refusal::OutOfReach.into()));
    {
        let heap = one.heap().unwrap();
        let value = heap.boxed(7).unwrap();
        let more = steward.grant(&one).unwrap();
        assert_eq!((*value, steward.take_back(&one, more.slot)), (7, Ok(())));
    }
    steward.reset(&mut one).unwrap();
    assert_eq!(one.free(block), Err(Error::Stale));
    assert_eq!(one.report().unwrap().frames, 0);
    assert_eq!(format!("{one:?}"), "Worker(0)");
}

#[test]
fn a_steward_refuses_workers_of_another_machine() {
    let (mut machine, mut second) = (booted(1), booted(1));
    let ((mut steward, _), (_, mut workers)) = (machine.threads(), second.threads());
    let mut foreign = workers.next().unwrap();
    assert_eq!(steward.grant(&foreign), Err(Error::Stale));
    assert_eq!(steward.take_back(&foreign, 0), Err(Error::Stale));
    assert_eq!(steward.move_slot(&mut foreign, 0), Err(Error::Stale));
    assert_eq!(steward.reset(&mut foreign), Err(Error::Stale));
    assert_eq!(foreign.report().unwrap().frames, 0);
}
