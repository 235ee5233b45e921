//! The parts of a machine whose tenants call on several threads at the same time.
use crate::{Administrator, Client, Clients, Error, Machine, Place, Slot};
use core::fmt;
use core::ops::Deref;

/// The administrator of a machine that is divided by [`Machine::threads`]. Its calls borrow the [`Worker`] of the tenant that they
/// name, so they run beside the calls of all other tenants.
#[derive(Debug)]
pub struct Steward<'a>(Administrator<'a>);

/// The only client of a tenant, in a machine that is divided by [`Machine::threads`]. It derefs to a [`Client`], whose calls it has.
///
/// It may be sent to another thread, and not be shared with one. So the calls of a tenant come one at a time, and run beside the
/// calls of all other tenants. If the administrator names the tenant now and then, a `Mutex<Worker>` is shared with it.
pub struct Worker<'a>(Client<'a>);

/// An iterator over the workers of a machine, one for each tenant, in the order of their numbers.
#[derive(Debug)]
pub struct Workers<'a>(Clients<'a>);

// SAFETY: `Machine` is not `Sync` because calls of one tenant, or of the administrator, come one at a time. Here they do: as long
// as the steward lives, only the machine's parts use the machine, and no other part makes a call of the administrator. Each call
// needs `&mut` of the steward and a reference to the worker that it names, which is not `Sync`, so this thread has both. It uses the
// record of this tenant and the memory for its runs, and no other cell of the machine.
unsafe impl Send for Steward<'_> {}

// SAFETY: as above. A worker is its tenant's only one. What borrows it, such as a heap, stays on its thread, since neither a
// worker nor a client is `Sync`. Each call is with its tenant, and uses the record of this tenant and the memory for its runs.
// No other client can come into a worker: it derefs to `&Client`, and not to `&mut Client`.
unsafe impl Send for Worker<'_> {}

impl<'a> Steward<'a> {
    /// Returns the administrator of a machine. As long as it lives, only the machine's parts may use the machine, and none of them
    /// is an `Administrator` or another steward.
    pub(crate) fn new(machine: &'a Machine) -> Steward<'a> {
        Steward(Administrator::new(machine))
    }
}

impl Steward<'_> {
    /// Grants the first superblock without an owner, under the first slot that the tenant does not hold. All its bytes are zero.
    ///
    /// # Errors
    /// `PoolEmpty` if every superblock has an owner. Each call of a steward fails with `Stale` for a worker of another machine.
    pub fn grant(&mut self, of: &Worker<'_>) -> Result<Slot, Error> {
        self.0.check(&of.0)?;
        self.0.grant(of.number())
    }

    /// Takes back a slot whose frames are all free, so nothing in it is lent.
    ///
    /// # Errors
    /// `NoSlot` if the tenant does not hold the slot; `SlotBusy` if a page block or a slab, even an empty one, has frames of it.
    pub fn take_back(&mut self, of: &Worker<'_>, slot: u32) -> Result<(), Error> {
        self.0.check(&of.0)?;
        self.0.take_back(of.number(), slot)
    }

    /// Moves a slot, with all its bytes, to the first superblock without an owner. Handles stay valid.
    ///
    /// # Errors
    /// `NoSlot` if the tenant does not hold the slot; `PoolEmpty` if every superblock has an owner.
    pub fn move_slot(&mut self, of: &mut Worker<'_>, slot: u32) -> Result<Slot, Error> {
        self.0.move_slot(&mut of.0, slot)
    }

    /// Takes back all that the tenant has. Its handles are stale afterwards.
    ///
    /// # Errors
    /// Only `Stale`, for a worker of another machine.
    pub fn reset(&mut self, of: &mut Worker<'_>) -> Result<(), Error> {
        self.0.reset(&mut of.0)
    }
}

impl<'a> Workers<'a> {
    /// Returns an iterator over the tenants of a machine. As long as it or a worker lives, only the machine's parts may use the
    /// machine, and none of them is another client or worker.
    pub(crate) fn new(machine: &'a Machine) -> Workers<'a> {
        Workers(Clients::new(machine, None))
    }
}

impl<'a> Iterator for Workers<'a> {
    type Item = Worker<'a>;

    fn next(&mut self) -> Option<Worker<'a>> {
        self.0.next().map(Worker)
    }
}

impl Worker<'_> {
    /// Lends bytes of this tenant, as [`Client::lend_at`] does.
    ///
    /// # Errors
    /// `OutOfReach` for 0 bytes, and for bytes that are not inside one live page block or one live object.
    pub fn lend_at(&mut self, place: Place, bytes: u32) -> Result<&mut [u8], Error> {
        self.0.lend_at(place, bytes)
    }
}

impl<'a> Deref for Worker<'a> {
    type Target = Client<'a>;

    fn deref(&self) -> &Client<'a> {
        &self.0
    }
}

impl fmt::Debug for Worker<'_> {
    fn fmt(&self, to: &mut fmt::Formatter<'_>) -> fmt::Result {
        write!(to, "Worker({})", self.number().0)
    }
}
