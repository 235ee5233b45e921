//! Tests of booted machines: results, errors, moves, resets, and many lends at the same time.
use partmem::{Block, Cache, Config, Error, Handle, Machine, Object, Place, Refusal, Tenant};
use std::{sync::Barrier, thread};

const ONE: Tenant = Tenant(0);
const OTHER: Tenant = Tenant(1);

/// Boots a machine, and gives the tenant ONE a slot and a cache. Returns the machine and the cache.
fn booted(superblocks: u32) -> (Machine, Cache) {
    let machine = Machine::boot(Config { order: 3, superblocks, tenants: 3 }).unwrap();
    machine.grant(ONE).unwrap();
    let cache = machine.make_cache(ONE, 96, 32, b"ab").unwrap();
    (machine, cache)
}

#[test]
fn a_block_has_its_bytes_until_it_is_freed() {
    let (machine, _) = booted(4);
    let mut block = machine.alloc(ONE, 1).unwrap();
    let bytes = machine.lend_mut(&mut block).unwrap();
    assert!(bytes.len() == 8192 && bytes.as_ptr() as usize % 4096 == 0);
    bytes[8191] = 7;
    assert_eq!(machine.take_back(ONE, 0), Err(Refusal::SlotBusy.into()));
    machine.free(block).unwrap();
    let block = machine.alloc(ONE, 1).unwrap();
    assert_eq!(machine.lend(&block).unwrap()[8190..], [0, 7]);
    assert_eq!(format!("{block:?}"), "Handle(8192 bytes at place 0 of tenant 0)");
}

#[test]
fn an_object_has_the_pattern_and_then_what_was_in_it() {
    let (machine, cache) = booted(4);
    let mut object = machine.take(&cache).unwrap();
    let (place, bytes) = (object.place(), machine.lend_mut(&mut object).unwrap());
    assert!(*bytes == *b"ab".repeat(48) && bytes.as_ptr() as usize % 32 == 0);
    // A pattern may be lent bytes: it is copied.
    let second = machine.make_cache(ONE, 8, 8, &bytes[..4]).unwrap();
    bytes[95] = b'c';
    assert_eq!(machine.lend(&machine.take(&second).unwrap()), Ok(b"abababab".as_slice()));
    machine.give(object).unwrap();
    let object = machine.take(&cache).unwrap();
    assert_eq!((object.place(), machine.lend(&object).unwrap()[95]), (place, b'c'));
}

#[test]
fn a_release_frees_blocks_and_objects() {
    let (machine, cache) = booted(4);
    let (block, object) = (machine.alloc(ONE, 1).unwrap(), machine.take(&cache).unwrap());
    let places = (block.place(), object.place());
    machine.release(block).unwrap();
    machine.release(object).unwrap();
    let (block, object) = (machine.alloc(ONE, 1).unwrap(), machine.take(&cache).unwrap());
    assert_eq!((block.place(), object.place()), places);
    let (other, _) = booted(4);
    assert_eq!(other.release(block), Err(Error::Stale));
}

#[test]
fn mistakes_and_refusals_have_their_error() {
    let refused = [(2, 1, 1), (11, 1, 1), (3, 0, 1), (3, 4097, 1), (9, 2049, 1), (10, 1025, 1), (3, 1, 0), (3, 1, 256)];
    for (order, superblocks, tenants) in refused.into_iter().chain([(u32::MAX, 1, 1), (3, 1, u32::MAX)]) {
        assert_eq!(Machine::boot(Config { order, superblocks, tenants }).unwrap_err(), Error::BadConfig);
    }
    let (mut machine, mut cache) = booted(4);
    assert_eq!(machine.grant(Tenant(3)), Err(Refusal::NoTenant.into()));
    assert_eq!(machine.make_cache(ONE, 8, 12, b"a").unwrap_err(), Refusal::BadAlign.into());
    assert_eq!(machine.make_cache(ONE, 8, 8, b"").unwrap_err(), Error::BadPattern);
    assert_eq!(machine.make_cache(ONE, 8, 8, &[0; 17]).unwrap_err(), Error::BadPattern);
    assert_eq!(machine.move_slot(ONE, 1), Err(Refusal::NoSlot.into()));
    let object = machine.take(&cache).unwrap();
    assert_eq!(machine.destroy_cache(&mut cache), Err(Refusal::CacheInUse.into()));
    machine.give(object).unwrap();
    assert_eq!(machine.reap(ONE), Ok(1));
    machine.destroy_cache(&mut cache).unwrap();
    assert_eq!(machine.take(&cache).unwrap_err(), Error::Stale);
}

#[test]
fn handles_are_stale_after_a_reset_and_on_another_machine() {
    let ((mut machine, cache), (other, _)) = (booted(4), booted(4));
    let mut object = machine.take(&cache).unwrap();
    assert_eq!(other.lend(&object), Err(Error::Stale));
    assert_eq!(other.take(&cache).unwrap_err(), Error::Stale);
    machine.reset(ONE).unwrap();
    assert_eq!(machine.take(&cache).unwrap_err(), Error::Stale);
    machine.grant(ONE).unwrap();
    let cache = machine.make_cache(ONE, 96, 32, b"ab").unwrap();
    let new = machine.take(&cache).unwrap();
    assert_eq!(new.place(), object.place());
    assert_eq!(machine.lend_mut(&mut object), Err(Error::Stale));
    assert_eq!(machine.give(object), Err(Error::Stale));
    machine.give(new).unwrap();
    assert_eq!(machine.free(other.alloc(ONE, 0).unwrap()), Err(Error::Stale));
}

#[test]
fn links_are_followed_by_place() {
    let (mut machine, cache) = booted(4);
    let mut objects = [(); 9].map(|()| machine.take(&cache).unwrap());
    let mut last = Place::NOWHERE;
    for object in &mut objects {
        machine.lend_mut(object).unwrap()[..4].copy_from_slice(&last.0.to_le_bytes());
        last = object.place();
    }
    for object in objects.iter().rev() {
        assert_eq!(last, object.place());
        last = Place(u32::from_le_bytes(machine.lend_at(ONE, last, 4).unwrap().try_into().unwrap()));
    }
    for (tenant, bytes) in [(ONE, 97), (ONE, 0), (OTHER, 1)] {
        assert_eq!(machine.lend_at(tenant, objects[0].place(), bytes), Err(Refusal::OutOfReach.into()));
    }
}

#[test]
fn machines_boot_on_many_threads_at_once_and_share_nothing() {
    let start = Barrier::new(4);
    for _ in 0..20 {
        let boot = || (start.wait(), booted(250)).1;
        let machines = thread::scope(|threads| [(); 4].map(|()| threads.spawn(boot)).map(|thread| thread.join().unwrap()));
        let mut objects = machines.iter().map(|(machine, cache)| machine.take(cache).unwrap()).collect::<Vec<_>>();
        let mut lends = objects.iter_mut().zip(&machines).map(|(it, of)| of.0.lend_mut(it).unwrap()).collect::<Vec<_>>();
        lends.iter_mut().zip(0..).for_each(|(bytes, fill)| bytes.fill(fill));
        assert!(lends.iter().zip(0..).all(|(bytes, fill)| bytes.iter().all(|byte| *byte == fill)));
    }
}

/// A tenant's user. It has blocks and objects, each with the byte that fills it, and a list of what the user has seen.
struct User {
    tenant: Tenant,
    random: u64,
    caches: Vec<Cache>,
    blocks: Vec<(Block, u8)>,
    objects: Vec<(Object, u8)>,
    seen: Vec<String>,
}

/// Lends all these handles at once. Checks that all bytes of each have the value beside the handle, and that no two lends
/// overlap. Then it fills each with this value again.
fn check<Kind>(machine: &Machine, handles: &mut [(Handle<Kind>, u8)]) {
    let mut lends: Vec<_> = handles.iter_mut().map(|(handle, fill)| (machine.lend_mut(handle).unwrap(), *fill)).collect();
    lends.sort_by_key(|(bytes, _)| bytes.as_ptr());
    assert!(lends.windows(2).all(|pair| pair[0].0.as_ptr_range().end <= pair[1].0.as_ptr()));
    assert!(lends.iter().all(|(bytes, fill)| bytes.iter().all(|byte| byte == fill)));
    lends.iter_mut().for_each(|(bytes, fill)| bytes.fill(*fill));
}

impl User {
    fn new(tenant: Tenant, random: u64) -> User {
        User { tenant, random, caches: Vec::new(), blocks: Vec::new(), objects: Vec::new(), seen: Vec::new() }
    }

    fn any(&mut self, below: usize) -> usize {
        self.random = self.random.wrapping_mul(6_364_136_223_846_793_005).wrapping_add(1_442_695_040_888_963_407);
        (self.random >> 33) as usize % below.max(1)
    }

    /// Notes the place and a checksum of new bytes, and fills them with a random value. Returns the handle and the value.
    fn keep<Kind>(&mut self, machine: &Machine, mut handle: Handle<Kind>) -> (Handle<Kind>, u8) {
        let (place, fill, bytes) = (handle.place(), self.any(256) as u8, machine.lend_mut(&mut handle).unwrap());
        self.seen
            .push(format!("{place:?} {}", bytes.iter().fold(0u64, |sum, byte| sum.wrapping_mul(31) + u64::from(*byte))));
        bytes.fill(fill);
        (handle, fill)
    }

    fn step(&mut self, machine: &mut Machine) -> Result<(), Error> {
        let (step, nth) = (self.any(100), self.any(1000));
        match step {
            0..=19 => {
                let block = machine.alloc(self.tenant, nth as u32 % 5)?;
                let kept = self.keep(machine, block);
                self.blocks.push(kept);
            }
            20..=54 if !self.caches.is_empty() => {
                let object = machine.take(&self.caches[nth % self.caches.len()])?;
                let kept = self.keep(machine, object);
                self.objects.push(kept);
            }
            55..=69 if !self.blocks.is_empty() => machine.free(self.blocks.swap_remove(nth % self.blocks.len()).0)?,
            70..=79 if !self.objects.is_empty() => machine.give(self.objects.swap_remove(nth % self.objects.len()).0)?,
            80..=86 => self.caches.push(machine.make_cache(self.tenant, nth as u32, 16, b"xyz")?),
            87..=93 => drop(machine.grant(self.tenant)?),
            94..=95 => machine.take_back(self.tenant, nth as u32 % 8)?,
            96 => self.seen.push(format!("{:?}", (machine.reap(self.tenant)?, machine.report(self.tenant)?))),
            97 => {
                machine.reset(self.tenant)?;
                *self = User { seen: self.seen.split_off(0), ..User::new(self.tenant, self.random) };
            }
            _ => (),
        }
        Ok(())
    }

    fn step_and_check(&mut self, machine: &mut Machine) {
        let done = self.step(machine);
        self.seen.push(format!("{done:?}"));
        check(machine, &mut self.blocks);
        check(machine, &mut self.objects);
    }
}

/// Checks that a user sees the same in two runs: alone without moves, and beside two others while slots of all three are moved.
#[test]
fn a_tenant_sees_the_same_alone_and_beside_others() {
    for seed in 0..10 {
        let (mut machine, mut alone, mut user) = (booted(60).0, User::new(ONE, seed), User::new(ONE, seed));
        (0..400).for_each(|_| alone.step_and_check(&mut machine));
        let (mut machine, mut others) = (booted(60).0, [User::new(OTHER, seed + 10), User::new(Tenant(2), seed + 20)]);
        for i in 0..400 {
            user.step_and_check(&mut machine);
            others[i % 2].step_and_check(&mut machine);
            let _ = machine.move_slot(Tenant(i as u32 % 3), i as u32 / 3 % 8);
        }
        assert_eq!(alone.seen, user.seen, "seed {seed}");
        assert!(alone.seen.iter().filter(|line| line.contains("Ok")).count() > 200);
    }
}
