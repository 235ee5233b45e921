//! Page blocks, objects and heaps in partitions of memory: the library partmem, without `unsafe` for its user.
//!
//! A [`Machine`] has RAM in superblocks, which are granted to tenants. Whatever the others do, a tenant gets the same results and
//! finds the same bytes as if it were alone with the same grants, take-backs and resets. The header `partmem.h` describes the
//! calls, and what is proved of them. This crate does not have all of them: it leaves out events, lines, `read`, `write`, the
//! `find` functions and some others.
//!
//! The build looks for `libpartmem.a` in `PARTMEM_DIR`, an absolute path of the installation or of its `lib`. If `PARTMEM_DIR` is
//! not set, it looks in the folder that pkg-config names, and then in the repository, where `make test` builds the library. If it
//! finds no `libpartmem.a`, it links, with a warning, the unproved library that `tools/unproved library` builds. For AArch64 and
//! 64-bit RISC-V it links `libpartmem_arm64.a` or `libpartmem_riscv64.a` instead.
//!
//! | You want | Use |
//! |---|---|
//! | bytes, and links between them that stay through moves | [`Machine::alloc`], [`Machine::take`]: handles, below |
//! | values of a type, with `Deref` and `Drop` | [`Client::cache_of`] for many of one type, [`Heap::boxed`] for any |
//! | to reset or move one tenant while others use what they have | [`Machine::split`] |
//! | tenants that call at the same time, each on a thread of its own | [`Machine::threads`] |
//! | `Vec`, `String`, `BTreeMap` in a tenant's memory | [`Global`] for a whole program; [`Heap`] with the feature `allocator_api` |
//! | memory that is a static, or that a kernel has found | [`Machine::boot_in`], [`StaticMemory`], [`Memory`] |
//!
//! # Features
//!
//! - `std`, on by default: [`Machine::boot`], `std::error::Error`, `std::sync::Mutex` as a [`Lock`]. Without it the crate uses
//!   only `core`, and its user provides `memcpy`, `memmove` and `memset`, for example by the crate `compiler_builtins`.
//! - `allocator_api`: `&Heap` is an `Allocator`. That needs a nightly compiler. The crate `allocator-api2` is not used, since
//!   this crate depends on no other.
//! - `kernel`: the library is `libpartmem_kernel.a`, which uses no red zone and no vector registers, or for AArch64 and RISC-V
//!   `libpartmem_kernel_arm64.a` or `libpartmem_kernel_riscv64.a`.
//!
//! # Bytes
//!
//! Store numbers in lent bytes with `to_le_bytes` and the like.
//!
//! ```
//! use partmem::{Config, Machine, Refusal, Tenant};
//!
//! fn main() -> Result<(), partmem::Error> {
//!     let mut machine = Machine::boot(Config { order: 3, superblocks: 4, tenants: 2 })?;
//!     let client = Tenant(1);
//!     let slot = machine.grant(client)?;
//!     let sessions = machine.make_cache(client, 64, 8, b"\0")?;
//!     let mut object = machine.take(&sessions)?;
//!     machine.lend_mut(&mut object)?[..3].copy_from_slice(b"ada");
//!     machine.move_slot(client, slot.slot)?;
//!     assert_eq!(machine.lend(&object)?[..3], *b"ada");
//!     machine.give(object)?;
//!     assert_eq!(machine.alloc(client, 4).unwrap_err(), Refusal::BadOrder.into());
//!     Ok(())
//! }
//! ```
//!
//! # Handles and lends
//!
//! [`Machine::alloc`] and [`Machine::take`] return a handle. No other handle leads to the same bytes. A lend borrows the machine
//! and the handle. It is a plain `&[u8]` or `&mut [u8]`.
//!
//! - Any number of handles may be lent at once, also during `alloc`, `take`, `lend` and `report`, which need only `&Machine`.
//! - `free` and `give` consume their handle, so nobody has its bytes. Other handles may be lent meanwhile.
//! - `move_slot`, `reset` and the drop of the machine require that nothing is lent. Handles stay through a move, and can be lent
//!   again. A lend makes two comparisons. After a move it also calls the library, until a `lend_mut` has stored the new address
//!   in the handle.
//! - Handles can lie beside the machine in one struct. Typed values and what a heap allocates borrow their [`Client`], so they
//!   cannot.
//! - Dropping a handle leaves its bytes allocated until a reset. If a handle is used after a reset of its tenant, or
//!   on another machine, the call fails with [`Error::Stale`].
//! - Links between objects are places, stored as numbers in lent bytes. [`Machine::lend_at`] follows them. It needs
//!   `&mut Machine`, since a handle of the same bytes may be lent.
//! - A machine is `Send` and not `Sync`: threads share a `Mutex<Machine>`, and a lend borrows the lock's guard. Without a mutex,
//!   other threads of a scope may use lent bytes while the machine's own thread makes calls.
//! - [`Machine::threads`] divides a machine into a [`Steward`] and one [`Worker`] for each tenant, which may be sent to threads of
//!   their own. Their calls run at the same time without a lock.
//! - A move or a reset of one client requires that nobody's bytes are lent, which is stricter than the library. After a
//!   [`Machine::split`] it requires only that none of this client's bytes are lent.
//!
//! # What the compiler refuses
//!
//! ```compile_fail,E0502
//! # fn f(mut machine: partmem::Machine, mut object: partmem::Object) -> Result<(), partmem::Error> {
//! let bytes = machine.lend_mut(&mut object)?;
//! machine.move_slot(partmem::Tenant(1), 0)?; // or a reset
//! bytes[0] = 1;
//! # Ok(()) }
//! ```
//! ```compile_fail,E0505
//! # fn f(machine: partmem::Machine, mut object: partmem::Object) -> Result<(), partmem::Error> {
//! let bytes = machine.lend_mut(&mut object)?;
//! machine.give(object)?; // or a free
//! bytes[0] = 1;
//! # Ok(()) }
//! ```
//! ```compile_fail,E0499
//! # fn f(machine: partmem::Machine, mut object: partmem::Object) -> Result<(), partmem::Error> {
//! let (bytes, again) = (machine.lend_mut(&mut object)?, machine.lend_mut(&mut object)?);
//! bytes[0] = again[0];
//! # Ok(()) }
//! ```
//! ```compile_fail,E0505
//! # fn f(machine: partmem::Machine, object: partmem::Object) -> Result<(), partmem::Error> {
//! let bytes = machine.lend(&object)?;
//! drop(machine);
//! assert_eq!(bytes[0], 0);
//! # Ok(()) }
//! ```
//! ```compile_fail,E0502
//! # fn f(mut machine: partmem::Machine, object: partmem::Object) -> Result<(), partmem::Error> {
//! let bytes = machine.lend(&object)?;
//! machine.lend_at(partmem::Tenant(1), object.place(), 1)?[0] = 1;
//! assert_eq!(bytes[0], 0);
//! # Ok(()) }
//! ```
//! ```compile_fail,E0599
//! fn copy(object: partmem::Object) { object.clone(); }
//! ```
//! ```compile_fail,E0277
//! fn share<T: Sync>(_: T) {}
//! fn f(machine: partmem::Machine) { share(machine); }
//! ```
//! ```compile_fail,E0502
//! # fn f(administrator: partmem::Administrator, mut client: partmem::Client) -> Result<(), partmem::Error> {
//! let cache = client.cache_of()?;
//! let value = cache.take(1)?;
//! administrator.reset(&mut client)?; // or a move; a heap prevents both, too
//! assert_eq!(*value, 1);
//! # Ok(()) }
//! ```
//! ```compile_fail,E0505
//! # fn f(client: partmem::Client) -> Result<(), partmem::Error> {
//! let heap = client.heap()?;
//! let value = heap.boxed(1)?;
//! drop(heap);
//! assert_eq!(*value, 1);
//! # Ok(()) }
//! ```
//! ```compile_fail,E0499
//! # fn f(mut machine: partmem::Machine) -> Result<(), partmem::Error> {
//! let (one, same) = (machine.client(partmem::Tenant(1))?, machine.client(partmem::Tenant(1))?);
//! one.alloc(0)?;
//! # Ok(()) }
//! ```
//! ```compile_fail,E0277
//! fn send<T: Send>(_: T) {}
//! fn f(heap: partmem::Heap<'static>) { send(heap); }
//! ```
//! ```compile_fail,E0277
//! fn send<T: Send>(_: T) {}
//! fn f(client: partmem::Client<'static>) { send(client); }
//! ```
//! ```compile_fail,E0499
//! # fn f(mut machine: partmem::Machine) -> Result<(), partmem::Error> {
//! let (one, same) = (machine.threads().1.next().unwrap(), machine.threads().1.next().unwrap());
//! one.alloc(0)?;
//! # Ok(()) }
//! ```
//! ```compile_fail,E0382
//! # fn f(worker: partmem::Worker<'_>) {
//! std::thread::scope(|threads| {
//!     threads.spawn(move || worker.reap());
//!     threads.spawn(move || worker.reap());
//! });
//! # }
//! ```
//! ```compile_fail,E0277
//! # fn f(worker: partmem::Worker<'_>) {
//! std::thread::scope(|threads| {
//!     threads.spawn(|| worker.reap()); // shares the worker with the new thread
//! });
//! # }
//! ```
//! ```compile_fail,E0277
//! # fn f(worker: partmem::Worker<'_>) {
//! let client: &partmem::Client<'_> = &worker;
//! std::thread::scope(|threads| {
//!     threads.spawn(move || client.reap());
//! });
//! # }
//! ```
//! ```compile_fail,E0596
//! # fn f(mut worker: partmem::Worker<'_>, mut of_another_machine: partmem::Client<'_>) {
//! std::mem::swap(&mut *worker, &mut of_another_machine);
//! # }
//! ```
//! ```compile_fail,E0499
//! # fn f(mut steward: partmem::Steward<'_>, mut one: partmem::Worker<'_>, mut other: partmem::Worker<'_>) {
//! std::thread::scope(|threads| {
//!     threads.spawn(|| steward.grant(&mut one));
//!     threads.spawn(|| steward.grant(&mut other));
//! });
//! # }
//! ```
//! ```compile_fail,E0277
//! fn share<T: Sync>(_: T) {}
//! fn f(steward: partmem::Steward<'static>) { share(steward); }
//! ```
//! ```compile_fail,E0505
//! # fn f(mut steward: partmem::Steward<'_>, mut worker: partmem::Worker<'_>) {
//! std::thread::scope(|threads| {
//!     let of = &mut worker;
//!     threads.spawn(move || worker.reap());
//!     steward.reset(of);
//! });
//! # }
//! ```
//! ```compile_fail,E0502
//! # fn f(mut steward: partmem::Steward<'_>, mut worker: partmem::Worker<'_>) -> Result<(), partmem::Error> {
//! let cache = worker.cache_of()?;
//! let value = cache.take(1)?;
//! steward.reset(&mut worker)?; // or a move
//! assert_eq!(*value, 1);
//! # Ok(()) }
//! ```
//!
//! # What types cannot keep
//!
//! The header ends in a list of duties. The crate fulfils those about machines, arguments, memory, bounds, endings, threads and
//! reused numbers. These are left to you:
//!
//! - *Flows.* When you have loaded bytes for one tenant, do not store them for another tenant, or show them to it. Do not store
//!   an address, such as the `as_ptr` of a lend, in lent bytes, or show it to a tenant. Values with references, and collections,
//!   hold addresses. A tenant that has them may learn of other tenants, as `partmem_heap.h` says.
//! - *Users.* Code that has the machine can act for any tenant, so do not give the machine to a tenant's user. A [`Client`] acts
//!   only for its tenant. But its `lend_at` reaches every live object of the tenant, also those that you keep there.
//! - *Ring 0.* A kernel has to keep this duty, which is about its stack and its registers.
//! - *After the end.* The memory of [`Machine::boot`] goes back to the allocator with the tenants' bytes in it. Overwrite secrets
//!   before you drop the machine.
//! - *Booting.* The crate boots one machine at a time. C code in the same program must not boot another at the same time.
//! - *Other code.* Make no call from a signal handler, nor from the forked child of a process with threads. Do not leave a call by
//!   `longjmp`, and do not cancel its thread asynchronously. The compiler sees no page tables and no devices. Map only page
//!   blocks. Unmap them, and stop devices, before a free, reset, move or end.
#![no_std]
#![cfg_attr(feature = "allocator_api", feature(allocator_api))]
#![deny(missing_debug_implementations, unsafe_op_in_unsafe_fn, clippy::undocumented_unsafe_blocks)]

#[cfg(any(feature = "std", test))]
extern crate std;

mod error;
mod global;
mod heap;
mod machine;
mod memory;
mod sys;
mod tenants;
mod threads;
pub mod typed;

pub use error::{Error, Refusal};
pub use global::{Global, LazyHeap, Lock, Open, SpinLock};
pub use heap::{Boxed, Heap, OwnedHeap};
pub use machine::{Block, Cache, Handle, Machine, Object, OfCache, PageBlock};
pub use memory::{Memory, StaticMemory};
pub use tenants::{Administrator, Client, Clients};
pub use threads::{Steward, Worker, Workers};

/// The number of a tenant, from 0.
#[derive(Clone, Copy, Debug, PartialEq, Eq, PartialOrd, Ord, Hash)]
pub struct Tenant(pub u32);

/// The number of a byte of a tenant. A block or an object is named by the place of its first byte.
#[derive(Clone, Copy, Debug, PartialEq, Eq, PartialOrd, Ord, Hash)]
#[repr(transparent)]
pub struct Place(pub u32);

impl Place {
    /// A place for links that lead nowhere: no block and no object begins there. A tenant that has all 4 GiB has a byte there.
    pub const NOWHERE: Place = Place(u32::MAX);
}

/// The sizes of a machine.
#[derive(Clone, Copy, Debug, PartialEq, Eq)]
#[repr(C)]
pub struct Config {
    /// 3 to 10. A superblock has 2^order frames of 4096 bytes.
    pub order: u32,
    /// How many superblocks there are: 1 to 4096, and at most 4 GiB together.
    pub superblocks: u32,
    /// How many tenants there are: 1 to 255.
    pub tenants: u32,
}

/// A slot of a tenant, and the superblock under it. The administrator may know the superblock, but the tenant may not.
#[derive(Clone, Copy, Debug, Default, PartialEq, Eq)]
#[repr(C)]
pub struct Slot {
    pub slot: u32,
    pub superblock: u32,
}

/// How many blocks of an order are free, and how many are page blocks or slabs.
#[derive(Clone, Copy, Debug, Default, PartialEq, Eq)]
#[repr(C)]
pub struct OrderRow {
    pub free: u32,
    pub taken: u32,
}

/// The number of a cache, how many of its slabs are full, partial and empty, and how many of its objects are live.
#[derive(Clone, Copy, Debug, Default, PartialEq, Eq)]
#[repr(C)]
pub struct CacheRow {
    pub cache: u32,
    pub full: u32,
    pub partial: u32,
    pub empty: u32,
    pub live: u32,
}

/// The figures of a tenant's memory, as the header describes them.
#[derive(Clone, Copy, Debug, Default, PartialEq, Eq)]
#[repr(C)]
pub struct Figures {
    pub frames: u32,
    pub live: u32,
    pub free: u32,
    pub greatest: u32,
    pub split: u32,
    /// How many rows of `order` are used.
    pub orders: u32,
    /// How many rows of `cache` are used.
    pub caches: u32,
    pub order: [OrderRow; 11],
    pub cache: [CacheRow; 32],
}
