//! The parts of a machine: its administrator, and a client for each tenant.
use crate::{typed, Block, Cache, Error, Figures, Handle, Heap, Machine, Object, OwnedHeap, Place, Slot, Tenant};
use core::{fmt, ptr};

/// The administrator of a machine that is divided by [`Machine::split`]: it grants superblocks and takes them back.
#[derive(Clone, Copy)]
pub struct Administrator<'a>(&'a Machine);

/// The only client of a tenant, in a machine that is divided by [`Machine::split`]. Code that has it acts only for this tenant. A
/// [`Worker`](crate::Worker) derefs to it.
///
/// It has the calls of [`Machine`] that a tenant makes. A lend borrows the client. A call with a handle or a [`Cache`] of another
/// tenant fails with [`Error::Stale`].
pub struct Client<'a> {
    machine: &'a Machine,
    tenant: Tenant,
}

/// An iterator over the clients of a machine, one for each tenant, in the order of their numbers. The iterator that
/// [`Global::with_others`](crate::Global::with_others) passes leaves out the tenant of the global allocator.
pub struct Clients<'a> {
    machine: &'a Machine,
    next: u32,
    left_out: Option<Tenant>,
}

impl<'a> Administrator<'a> {
    /// Returns the administrator of a machine. As long as it lives, only the machine's parts may use the machine.
    pub(crate) fn new(machine: &'a Machine) -> Administrator<'a> {
        Administrator(machine)
    }
}

impl Administrator<'_> {
    /// Grants the first superblock without an owner, under the first slot that the tenant does not hold. All its bytes are zero.
    pub fn grant(&self, tenant: Tenant) -> Result<Slot, Error> {
        self.0.grant(tenant)
    }

    /// Takes back a slot whose frames are all free, so nothing in it is lent.
    pub fn take_back(&self, tenant: Tenant, slot: u32) -> Result<(), Error> {
        self.0.take_back(tenant, slot)
    }

    /// Reports the figures of a tenant.
    pub fn report(&self, tenant: Tenant) -> Result<Figures, Error> {
        self.0.report(tenant)
    }

    /// Moves a slot, with all its bytes, to the first superblock without an owner. Handles stay valid.
    pub fn move_slot(&self, client: &mut Client<'_>, slot: u32) -> Result<Slot, Error> {
        self.check(client)?;
        // SAFETY: nothing of this tenant is lent, since lends borrow its only client.
        unsafe { self.0.move_shared(client.tenant, slot) }
    }

    /// Takes back all that the tenant has. Its handles are stale afterwards.
    pub fn reset(&self, client: &mut Client<'_>) -> Result<(), Error> {
        self.check(client)?;
        // SAFETY: nothing of this tenant is lent, since lends borrow its only client.
        unsafe { self.0.reset_shared(client.tenant) }
    }

    pub(crate) fn check(&self, client: &Client<'_>) -> Result<(), Error> {
        ptr::eq(self.0, client.machine).then_some(()).ok_or(Error::Stale)
    }
}

impl<'a> Clients<'a> {
    /// Returns an iterator over the tenants of a machine, without the tenant `left_out`. As long as it lives, only the machine's
    /// parts may use the machine.
    pub(crate) fn new(machine: &'a Machine, left_out: Option<Tenant>) -> Clients<'a> {
        Clients { machine, next: 0, left_out }
    }
}

impl<'a> Iterator for Clients<'a> {
    type Item = Client<'a>;

    fn next(&mut self) -> Option<Client<'a>> {
        let skipped = u32::from(self.left_out == Some(Tenant(self.next)));
        let tenant = Tenant(self.next + skipped);
        if tenant.0 >= self.machine.tenants() {
            return None;
        }
        self.next = tenant.0 + 1;
        Some(Client { machine: self.machine, tenant })
    }
}

impl<'a> Client<'a> {
    /// Returns the tenant's number.
    pub fn number(&self) -> Tenant {
        self.tenant
    }

    pub(crate) fn machine(&self) -> &'a Machine {
        self.machine
    }

    fn check(&self, tenant: Tenant) -> Result<(), Error> {
        (tenant == self.tenant).then_some(()).ok_or(Error::Stale)
    }

    /// Makes a cache of values of a type, in the tenant's memory. Fails with `BadSize` if a value has more than 4096 bytes, with
    /// `BadAlign` if its alignment is above 256, and with `NoCacheSlot` if the tenant has 32 caches.
    pub fn cache_of<T>(&self) -> Result<typed::Cache<'_, T>, Error> {
        typed::Cache::new(self)
    }

    /// Returns a heap of the tenant, with the default classes.
    pub fn heap(&self) -> Result<Heap<'_>, Error> {
        self.heap_with(&[], false)
    }

    /// Returns a heap of the tenant with classes of these sizes, in bytes: up to 24 rising multiples of 16, up to 4096. Without
    /// sizes it has the default classes. If `has_runs` is true, it has [runs](Heap#runs). Fails with `BadConfig`; with runs also
    /// with `BadMemory`, also if another heap of the tenant has runs.
    pub fn heap_with(&self, sizes: &[u16], has_runs: bool) -> Result<Heap<'_>, Error> {
        Heap::new(self.again(), sizes, has_runs)
    }

    /// Returns a heap as [`Client::heap_with`] does, but one that owns this client and does not borrow it.
    pub fn into_heap(self, sizes: &[u16], has_runs: bool) -> Result<OwnedHeap<'a>, Error> {
        OwnedHeap::new(self, sizes, has_runs)
    }

    /// Returns a second client of the tenant, only for a heap. As long as the heap lives, the first client has to be borrowed, or
    /// in an [`OwnedHeap`].
    pub(crate) fn again(&self) -> Client<'a> {
        Client { ..*self }
    }

    /// Calls [`Machine::alloc`] for this tenant.
    pub fn alloc(&self, order: u32) -> Result<Block, Error> {
        self.machine.alloc(self.tenant, order)
    }

    /// Calls [`Machine::free`] for this tenant.
    pub fn free(&self, block: Block) -> Result<(), Error> {
        self.check(block.tenant)?;
        self.machine.free(block)
    }

    /// Calls [`Machine::make_cache`] for this tenant.
    pub fn make_cache(&self, size: u32, align: u32, pattern: &[u8]) -> Result<Cache, Error> {
        self.machine.make_cache(self.tenant, size, align, pattern)
    }

    /// Calls [`Machine::destroy_cache`] for this tenant.
    pub fn destroy_cache(&self, cache: &mut Cache) -> Result<(), Error> {
        self.check(cache.tenant)?;
        self.machine.destroy_cache(cache)
    }

    /// Calls [`Machine::take`] for this tenant.
    pub fn take(&self, cache: &Cache) -> Result<Object, Error> {
        self.check(cache.tenant)?;
        self.machine.take(cache)
    }

    /// Calls [`Machine::give`] for this tenant.
    pub fn give(&self, object: Object) -> Result<(), Error> {
        self.check(object.tenant)?;
        self.machine.give(object)
    }

    /// Calls [`Machine::reap`] for this tenant.
    pub fn reap(&self) -> Result<u32, Error> {
        self.machine.reap(self.tenant)
    }

    /// Calls [`Machine::report`] for this tenant.
    pub fn report(&self) -> Result<Figures, Error> {
        self.machine.report(self.tenant)
    }

    /// Calls [`Machine::lend`] for this tenant.
    pub fn lend<'b, Kind>(&'b self, handle: &'b Handle<Kind>) -> Result<&'b [u8], Error> {
        self.check(handle.tenant)?;
        self.machine.lend(handle)
    }

    /// Calls [`Machine::lend_mut`] for this tenant.
    pub fn lend_mut<'b, Kind>(&'b self, handle: &'b mut Handle<Kind>) -> Result<&'b mut [u8], Error> {
        self.check(handle.tenant)?;
        self.machine.lend_mut(handle)
    }

    /// Lends bytes of this tenant, as [`Machine::lend_at`] does. Meanwhile bytes of other tenants may be lent.
    pub fn lend_at(&mut self, place: Place, bytes: u32) -> Result<&mut [u8], Error> {
        // SAFETY: nothing of this tenant is lent, since lends borrow its only client, and the result borrows the client mutably.
        unsafe { self.machine.lend_shared(self.tenant, place, bytes) }
    }
}

impl fmt::Debug for Administrator<'_> {
    fn fmt(&self, to: &mut fmt::Formatter<'_>) -> fmt::Result {
        write!(to, "Administrator({:?})", self.0)
    }
}

impl fmt::Debug for Client<'_> {
    fn fmt(&self, to: &mut fmt::Formatter<'_>) -> fmt::Result {
        write!(to, "Client({})", self.tenant.0)
    }
}

impl fmt::Debug for Clients<'_> {
    fn fmt(&self, to: &mut fmt::Formatter<'_>) -> fmt::Result {
        write!(to, "Clients(from {} on)", self.next)
    }
}
