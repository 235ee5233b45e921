//! The machine and the handles of its blocks and objects. Only this module makes slices of lent bytes from addresses.
//!
//! A call of the library needs the lock of its tenant, the administrator's, or both: `partmem.h` says which (duty 8). References
//! are these locks. A [`Machine`] is not `Sync`, so one thread makes its calls, and holds all locks. If the machine is divided by
//! [`Machine::threads`], a tenant's call needs the tenant's only [`Worker`](crate::Worker), which is not `Sync`, and a call of the
//! administrator needs `&mut` of the only [`Steward`](crate::Steward) and a reference to this worker.
use crate::memory::{alone, Memory, Region};
use crate::{error::done, sys, Administrator, Client, Clients, Config, Error, Figures, Place, Slot, Tenant};
use crate::{Steward, Workers};
use core::cell::Cell;
use core::ptr::{self, NonNull};
use core::sync::atomic::{AtomicU64, Ordering};
use core::{fmt, slice};

const MAX_PATTERN: usize = 16;
static STAMPS: AtomicU64 = AtomicU64::new(0);

/// Returns a number that it has never returned before.
fn new_stamp() -> u64 {
    STAMPS.fetch_add(1, Ordering::Relaxed)
}

/// Returns the result that a call writes, or the error if its status is not 0.
pub(crate) fn result<T: Default>(call: impl FnOnce(&mut T) -> u32) -> Result<T, Error> {
    let mut value = T::default();
    done(call(&mut value)).map(|()| value)
}

/// The only handle of a live block or object. Dropping it leaves the block allocated, or the object taken.
#[must_use = "a dropped handle leaves its bytes allocated"]
pub struct Handle<Kind> {
    /// The stamp that the tenant had when the handle was made. A reset gives the tenant a new one.
    stamp: u64,
    /// How many moves had been requested of the tenant when `at` was found.
    moves: u64,
    at: *mut u8,
    pub(crate) tenant: Tenant,
    place: Place,
    bytes: u32,
    kind: Kind,
}

/// The kind of a page block's handle.
#[derive(Debug)]
pub struct PageBlock(());

/// The kind of an object's handle, with the number of its cache.
#[derive(Debug)]
pub struct OfCache(u32);

/// A live page block.
pub type Block = Handle<PageBlock>;

/// A live object of a cache.
pub type Object = Handle<OfCache>;

// SAFETY: only a machine uses the address, for lends that borrow the machine and the handle.
unsafe impl<Kind: Send> Send for Handle<Kind> {}
// SAFETY: as above, and nothing in it changes through a shared reference.
unsafe impl<Kind: Sync> Sync for Handle<Kind> {}

impl<Kind> Handle<Kind> {
    /// Returns the place of the first byte. Moves do not change this place.
    pub fn place(&self) -> Place {
        self.place
    }
}

/// Formats the handle without its address, which no tenant may see.
impl<Kind> fmt::Debug for Handle<Kind> {
    fn fmt(&self, to: &mut fmt::Formatter<'_>) -> fmt::Result {
        write!(to, "Handle({} bytes at place {} of tenant {})", self.bytes, self.place.0, self.tenant.0)
    }
}

/// A cache of objects of one size.
#[derive(Debug)]
pub struct Cache {
    stamp: u64,
    pub(crate) tenant: Tenant,
    pub(crate) number: u32,
}

/// What this crate knows of a tenant. It is used under the lock of the tenant.
#[repr(C)]
pub(crate) struct Record {
    /// The tenant's stamp. A reset gives the tenant a new one, so that older handles are refused.
    stamp: Cell<u64>,
    /// How many moves of the tenant have been requested, including refused ones. If a handle has the same number, its address is
    /// right.
    moves: Cell<u64>,
    /// Whether a heap has the tenant's memory for runs.
    has_runs: Cell<bool>,
}

/// A machine. Dropping it ends it, and frees the memory that [`Machine::boot`] has allocated.
pub struct Machine {
    /// Points to the booted `partmem_machine`. It lies in the memory of the tables, after the part that the library uses. After it
    /// come a [`Record`] for each tenant, and then, for each tenant, the memory for the runs of its heap: a number for each slot.
    raw: NonNull<sys::Machine>,
    config: Config,
    /// The memory that [`Machine::boot`] has allocated.
    #[cfg(feature = "std")]
    owned: Option<Region>,
}

// SAFETY: calls may come from any thread. They need a reference, and a machine is not `Sync`, so they come one at a time. Its
// memory is reached only through it.
unsafe impl Send for Machine {}

impl Machine {
    /// Boots a machine in which no superblock has an owner, in memory of the global allocator. Fails with `BadConfig`,
    /// `NoMemory`.
    ///
    /// # Panics
    /// If the library's major version is not 3.
    #[cfg(feature = "std")]
    pub fn boot(config: Config) -> Result<Machine, Error> {
        config.check()?;
        let region = Region::allocate(config)?;
        let mut machine = Machine::boot_at(config, region).map_err(|error| {
            // SAFETY: it was allocated above. A boot that fails leaves nothing that uses it.
            unsafe { region.free(config) };
            error
        })?;
        machine.owned = Some(region);
        Ok(machine)
    }

    /// Boots a machine in which no superblock has an owner, in memory of the caller. Fails with `BadConfig`, `BadMemory`.
    ///
    /// # Panics
    /// If the library's major version is not 3.
    pub fn boot_in(config: Config, memory: Memory) -> Result<Machine, Error> {
        config.check()?;
        Machine::boot_at(config, memory.region(config)?)
    }

    /// Boots a machine in a region that is large enough and aligned, and that nothing else uses.
    fn boot_at(config: Config, region: Region) -> Result<Machine, Error> {
        // SAFETY: it only returns a number.
        assert_eq!(unsafe { sys::partmem_version() } / 10_000, 3, "the version of the library partmem");
        let memory = sys::Memory { ram: region.ram.as_ptr(), tables: region.tables.as_ptr() };
        // SAFETY: the tables have space for the `partmem_machine` at this offset, a multiple of 16 after the library's part. It
        // has no machine while it is all zeroes.
        let raw = unsafe {
            let raw = region.tables.as_ptr().add(config.machine_offset()).cast::<sys::Machine>();
            raw.write(sys::Machine([ptr::null_mut(); 3]));
            NonNull::new_unchecked(raw)
        };
        // SAFETY: the machine stays where it is until the region is free again. RAM and tables have the sizes of this config.
        done(alone(|| unsafe { sys::partmem_boot_in(raw.as_ptr(), &config, &memory) }))?;
        let machine = Machine {
            raw,
            config,
            #[cfg(feature = "std")]
            owned: None,
        };
        for tenant in 0..config.tenants as usize {
            let record = Record { stamp: Cell::new(new_stamp()), moves: Cell::new(0), has_runs: Cell::new(false) };
            // SAFETY: the tables have space for a record of each tenant.
            unsafe { machine.records().add(tenant).write(record) };
        }
        Ok(machine)
    }

    /// Returns where the records of the tenants lie. Their addresses are multiples of 8, as that of the `partmem_machine` is.
    fn records(&self) -> *mut Record {
        // SAFETY: the tables go on after the `partmem_machine`.
        unsafe { self.raw.as_ptr().add(1).cast() }
    }

    /// Returns the record of a tenant, if the machine has this tenant.
    fn known(&self, tenant: Tenant) -> Option<&Record> {
        // SAFETY: `boot_at` has written a record for each tenant, and nothing else uses this memory until the machine ends.
        (tenant.0 < self.config.tenants).then(|| unsafe { &*self.records().add(tenant.0 as usize) })
    }

    /// Returns the record of a tenant of this machine.
    fn record(&self, tenant: Tenant) -> &Record {
        self.known(tenant).expect("the machine has this tenant")
    }

    /// Returns the memory for the runs of a tenant's heap, and the number of its elements. The heap has it until `leave_runs`.
    /// Fails with `BadMemory` if another heap has it.
    pub(crate) fn take_runs(&self, tenant: Tenant) -> Result<(*mut u16, u32), Error> {
        if self.record(tenant).has_runs.replace(true) {
            return Err(Error::BadMemory);
        }
        let (tenants, slots) = (self.config.tenants as usize, self.config.superblocks);
        // SAFETY: the tables have space for the runs of each tenant, after the records.
        let at = unsafe { self.records().add(tenants).cast::<u16>().add(tenant.0 as usize * slots as usize) };
        Ok((at, slots))
    }

    /// Notes that no heap has the memory for the runs of the tenant any more.
    pub(crate) fn leave_runs(&self, tenant: Tenant) {
        self.record(tenant).has_runs.set(false);
    }

    /// Returns the tenant as the library knows it.
    pub(crate) fn of(&self, tenant: Tenant) -> sys::Tenant {
        sys::Tenant(self.raw.as_ptr(), tenant.0)
    }

    /// Returns the tenant, if `stamp` is its current stamp. Fails with `Stale` if it is not: then the handle or [`Cache`] with
    /// this stamp belongs to another machine or is from before a reset, or the `Cache` was destroyed.
    fn check(&self, tenant: Tenant, stamp: u64) -> Result<sys::Tenant, Error> {
        let same = self.known(tenant).map(|record| record.stamp.get()) == Some(stamp);
        same.then_some(self.of(tenant)).ok_or(Error::Stale)
    }

    /// Grants the first superblock without an owner, under the first slot that the tenant does not hold. All its bytes are zero.
    pub fn grant(&self, tenant: Tenant) -> Result<Slot, Error> {
        // SAFETY: the machine is booted, the call's locks are held, and the result goes to a local variable.
        result(|slot| unsafe { sys::partmem_grant(self.of(tenant), slot) })
    }

    /// Takes back a slot whose frames are all free, so nothing in it is lent.
    pub fn take_back(&self, tenant: Tenant, slot: u32) -> Result<(), Error> {
        // SAFETY: the machine is booted, and the call's locks are held. Nothing is lent in a slot whose frames are all free.
        done(unsafe { sys::partmem_take_back(self.of(tenant), slot) })
    }

    /// Moves a slot, with all its bytes, to the first superblock without an owner. Handles stay valid.
    pub fn move_slot(&mut self, tenant: Tenant, slot: u32) -> Result<Slot, Error> {
        // SAFETY: nothing is lent, since lends borrow the machine.
        unsafe { self.move_shared(tenant, slot) }
    }

    /// # Safety
    /// Nothing of the tenant is lent.
    pub(crate) unsafe fn move_shared(&self, tenant: Tenant, slot: u32) -> Result<Slot, Error> {
        if let Some(Record { moves, .. }) = self.known(tenant) {
            moves.set(moves.get() + 1);
        }
        // SAFETY: as said above. The machine is booted, the call's locks are held, and the result goes to a local variable.
        result(|moved| unsafe { sys::partmem_move(self.of(tenant), slot, moved) })
    }

    /// Takes back all that the tenant has. Its handles are stale afterwards.
    pub fn reset(&mut self, tenant: Tenant) -> Result<(), Error> {
        // SAFETY: nothing is lent, since lends borrow the machine.
        unsafe { self.reset_shared(tenant) }
    }

    /// # Safety
    /// Nothing of the tenant is lent.
    pub(crate) unsafe fn reset_shared(&self, tenant: Tenant) -> Result<(), Error> {
        // SAFETY: as said above. The machine is booted, and the call's locks are held.
        done(unsafe { sys::partmem_reset(self.of(tenant)) })?;
        self.record(tenant).stamp.set(new_stamp());
        // A heap that still had them was forgotten: one that is used borrows a client, or has it.
        self.leave_runs(tenant);
        Ok(())
    }

    /// Divides the machine into its administrator and its tenants. Then one tenant can be reset or moved while the others use
    /// what they have.
    ///
    /// ```
    /// # use partmem::{Config, Machine, Tenant};
    /// # fn main() -> Result<(), partmem::Error> {
    /// # let mut machine = Machine::boot(Config { order: 3, superblocks: 2, tenants: 2 })?;
    /// let (administrator, mut clients) = machine.split();
    /// let (mut ada, bob) = (clients.next().unwrap(), clients.next().unwrap());
    /// administrator.grant(ada.number())?;
    /// administrator.grant(bob.number())?;
    /// let mut kept = bob.alloc(0)?;
    /// let bytes = bob.lend_mut(&mut kept)?;
    /// administrator.reset(&mut ada)?;
    /// bytes[0] = 1;
    /// # Ok(()) }
    /// ```
    pub fn split(&mut self) -> (Administrator<'_>, Clients<'_>) {
        (Administrator::new(self), Clients::new(self, None))
    }

    /// Divides the machine into its administrator and its tenants, as [`Machine::split`] does, for calls on several threads at the
    /// same time. No lock is needed: each tenant has one [`Worker`], and the administrator borrows the worker of the tenant that it
    /// names.
    ///
    /// ```
    /// # use partmem::{Config, Machine};
    /// # fn main() -> Result<(), partmem::Error> {
    /// # let mut machine = Machine::boot(Config { order: 3, superblocks: 4, tenants: 3 })?;
    /// let (mut steward, mut workers) = machine.threads();
    /// let (ada, bob, mut eve) = (workers.next().unwrap(), workers.next().unwrap(), workers.next().unwrap());
    /// std::thread::scope(|threads| {
    ///     for worker in [ada, bob] {
    ///         steward.grant(&worker).unwrap();
    ///         threads.spawn(move || worker.alloc(0).unwrap());
    ///     }
    ///     steward.grant(&eve).unwrap();
    ///     steward.reset(&mut eve).unwrap();
    /// });
    /// # Ok(()) }
    /// ```
    pub fn threads(&mut self) -> (Steward<'_>, Workers<'_>) {
        (Steward::new(self), Workers::new(self))
    }

    /// Returns one tenant of the machine. Fails with `NoTenant`.
    pub fn client(&mut self, tenant: Tenant) -> Result<Client<'_>, Error> {
        self.split().1.nth(tenant.0 as usize).ok_or_else(|| crate::Refusal::NoTenant.into())
    }

    /// Returns the number of tenants.
    pub(crate) fn tenants(&self) -> u32 {
        self.config.tenants
    }

    fn hold<Kind>(&self, tenant: Tenant, lent: sys::Lent, kind: Kind) -> Handle<Kind> {
        let sys::Lent { at, place, bytes, .. } = lent;
        let Record { stamp, moves, .. } = self.record(tenant);
        Handle { stamp: stamp.get(), moves: moves.get(), at, tenant, place, bytes, kind }
    }

    /// Allocates 2^order frames. A frame has the bytes that it had when its last page block was freed. If it was in no page block
    /// since the grant, or has been in a slab since its last page block, it has zeroes.
    pub fn alloc(&self, tenant: Tenant, order: u32) -> Result<Block, Error> {
        // SAFETY: the machine is booted, the call's locks are held, and the result goes to a local variable.
        let lent = result(|lent| unsafe { sys::partmem_alloc(self.of(tenant), order, lent) })?;
        Ok(self.hold(tenant, lent, PageBlock(())))
    }

    /// Frees a page block. A block of another machine is refused, and stays allocated there.
    pub fn free(&self, block: Block) -> Result<(), Error> {
        let tenant = self.check(block.tenant, block.stamp)?;
        // SAFETY: the machine is booted, and the call's locks are held. The block is not lent, since lends borrow its handle.
        done(unsafe { sys::partmem_free(tenant, block.place) })
    }

    /// Makes a cache of objects of `size` bytes, 1 to 4096, at multiples of `align`: 8, 16, 32, 64, 128 or 256. The pattern, of 1
    /// to 16 bytes, is repeated in each new object.
    pub fn make_cache(&self, tenant: Tenant, size: u32, align: u32, pattern: &[u8]) -> Result<Cache, Error> {
        if pattern.is_empty() || pattern.len() > MAX_PATTERN {
            return Err(Error::BadPattern);
        }
        // Copies the pattern: it may lie in lent bytes, and no argument of the library may lie there.
        let (mut copy, of, bytes) = ([0; MAX_PATTERN], self.of(tenant), pattern.len());
        copy[..bytes].copy_from_slice(pattern);
        // SAFETY: the machine is booted, the call's locks are held, and the result goes to a local variable. The copy has at
        // least `bytes` bytes.
        let made: sys::Cache =
            result(|made| unsafe { sys::partmem_make_cache(of, size, align, copy.as_ptr(), bytes, made) })?;
        Ok(Cache { stamp: self.record(tenant).stamp.get(), tenant, number: made.cache })
    }

    /// Destroys a cache without live objects, and frees its slabs. The cache is stale afterwards.
    pub fn destroy_cache(&self, cache: &mut Cache) -> Result<(), Error> {
        let tenant = self.check(cache.tenant, cache.stamp)?;
        // SAFETY: the machine is booted, and the call's locks are held. Nothing of a cache without live objects is lent.
        done(unsafe { sys::partmem_destroy_cache(tenant, cache.number) })?;
        cache.stamp = new_stamp();
        Ok(())
    }

    /// Takes an object of a cache. A new object has the bytes of the pattern. Any other object has the bytes that it had when it
    /// was given back.
    pub fn take(&self, cache: &Cache) -> Result<Object, Error> {
        let tenant = self.check(cache.tenant, cache.stamp)?;
        // SAFETY: the machine is booted, the call's locks are held, and the result goes to a local variable.
        let lent = result(|lent| unsafe { sys::partmem_take(tenant, cache.number, lent) })?;
        Ok(self.hold(cache.tenant, lent, OfCache(cache.number)))
    }

    /// Gives back an object. An object of another machine is refused, and stays taken there.
    pub fn give(&self, object: Object) -> Result<(), Error> {
        let tenant = self.check(object.tenant, object.stamp)?;
        // SAFETY: the machine is booted, and the call's locks are held. The object is not lent, since lends borrow its handle.
        done(unsafe { sys::partmem_give(tenant, object.kind.0, object.place) })
    }

    /// Frees a page block or gives back an object, for code that has handles of any kind. A block or an object of another machine
    /// is refused, and stays allocated there.
    pub fn release<Kind>(&self, handle: Handle<Kind>) -> Result<(), Error> {
        let tenant = self.check(handle.tenant, handle.stamp)?;
        // If an object begins at the place, it has this size, whatever its cache.
        let sizes = sys::Sizes([handle.bytes as u16; 32]);
        // SAFETY: the machine is booted, the call's locks are held, and the result goes to a local variable. What is freed is not
        // lent, since lends borrow its handle.
        result(|freed: &mut sys::Object| unsafe { sys::partmem_release(tenant, handle.place, &sizes, freed) }).map(drop)
    }

    /// Frees the empty slabs of all caches of a tenant, as an `alloc` or a `take` does on demand. Returns how many frames these
    /// slabs had.
    pub fn reap(&self, tenant: Tenant) -> Result<u32, Error> {
        // SAFETY: the machine is booted, the call's locks are held, and the result goes to a local variable.
        result(|frames| unsafe { sys::partmem_reap(self.of(tenant), frames) })
    }

    /// Reports the figures of a tenant.
    pub fn report(&self, tenant: Tenant) -> Result<Figures, Error> {
        // SAFETY: the machine is booted, the call's locks are held, and the result goes to a local variable.
        result(|figures| unsafe { sys::partmem_report(self.of(tenant), figures) })
    }

    fn address(&self, tenant: sys::Tenant, place: Place, bytes: u32) -> Result<*mut u8, Error> {
        // SAFETY: the machine is booted, the call's locks are held, and the result goes to a local variable.
        result(|lent: &mut sys::Lent| unsafe { sys::partmem_lend(tenant, place, bytes, lent) }).map(|lent| lent.at)
    }

    fn address_of<Kind>(&self, handle: &Handle<Kind>) -> Result<*mut u8, Error> {
        let tenant = self.check(handle.tenant, handle.stamp)?;
        if handle.moves == self.record(handle.tenant).moves.get() {
            Ok(handle.at)
        } else {
            self.address(tenant, handle.place, handle.bytes)
        }
    }

    /// Lends the bytes of a block or an object for reading.
    pub fn lend<'a, Kind>(&'a self, handle: &'a Handle<Kind>) -> Result<&'a [u8], Error> {
        let at = self.address_of(handle)?;
        // SAFETY: all these bytes have been written. While the machine and the handle are borrowed, they stay there and live on.
        // Nobody can store in them meanwhile: `lend_mut` needs the handle unborrowed, and `lend_at` the machine.
        Ok(unsafe { slice::from_raw_parts(at, handle.bytes as usize) })
    }

    /// Lends the bytes of a block or an object for reading and writing.
    pub fn lend_mut<'a, Kind>(&'a self, handle: &'a mut Handle<Kind>) -> Result<&'a mut [u8], Error> {
        handle.at = self.address_of(handle)?;
        handle.moves = self.record(handle.tenant).moves.get();
        // SAFETY: as in `lend`. Nobody else has these bytes: no other handle leads to them, and `lend_at` needs the machine
        // unborrowed.
        Ok(unsafe { slice::from_raw_parts_mut(handle.at, handle.bytes as usize) })
    }

    /// Lends 1 or more bytes inside one live page block or one live object, whoever has its handle.
    pub fn lend_at(&mut self, tenant: Tenant, place: Place, bytes: u32) -> Result<&mut [u8], Error> {
        // SAFETY: nothing is lent, since lends borrow the machine.
        unsafe { self.lend_shared(tenant, place, bytes) }
    }

    /// # Safety
    /// Nothing of the tenant is lent, nor will be while the result lives.
    #[allow(clippy::mut_from_ref)]
    pub(crate) unsafe fn lend_shared(&self, tenant: Tenant, place: Place, bytes: u32) -> Result<&mut [u8], Error> {
        let at = self.address(self.of(tenant), place, bytes)?;
        // SAFETY: the bytes live while the machine is borrowed, and nobody else has them. A typed value that was leaked may have
        // padding, to which Rust gives no values. But the call above is code outside of Rust: as far as the compiler knows, that
        // code has written all these bytes.
        Ok(unsafe { slice::from_raw_parts_mut(at, bytes as usize) })
    }
}

impl Drop for Machine {
    fn drop(&mut self) {
        // SAFETY: nothing is lent, since lends borrow the machine.
        unsafe { sys::partmem_end(self.raw.as_ptr()) };
        #[cfg(feature = "std")]
        if let Some(region) = self.owned {
            // SAFETY: `boot` has allocated it with this config, and the machine has ended.
            unsafe { region.free(self.config) };
        }
    }
}

impl fmt::Debug for Machine {
    fn fmt(&self, to: &mut fmt::Formatter<'_>) -> fmt::Result {
        to.debug_struct("Machine").field("config", &self.config).finish_non_exhaustive()
    }
}
