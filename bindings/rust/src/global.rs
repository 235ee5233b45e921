//! A program's global allocator: the heap of one tenant, behind a lock.
use crate::{heap::RawHeap, Administrator, Clients, Error, Machine, Tenant};
use core::alloc::{GlobalAlloc, Layout};
use core::cell::UnsafeCell;
use core::mem::{self, ManuallyDrop};
use core::sync::atomic::{AtomicBool, Ordering};
use core::{fmt, hint, ptr};

/// A lock around a value. With the feature `std` a `std::sync::Mutex` is one. [`SpinLock`] works without `std`.
pub trait Lock<T> {
    /// Runs some work with the value, while nobody else has it.
    fn with<R>(&self, work: impl FnOnce(&mut T) -> R) -> R;
}

#[cfg(feature = "std")]
impl<T> Lock<T> for std::sync::Mutex<T> {
    fn with<R>(&self, work: impl FnOnce(&mut T) -> R) -> R {
        work(&mut self.lock().unwrap_or_else(std::sync::PoisonError::into_inner))
    }
}

/// A lock that waits in a loop. Do not use it in interrupt handlers: a handler that has interrupted the holder waits forever.
pub struct SpinLock<T> {
    is_held: AtomicBool,
    value: UnsafeCell<T>,
}

// SAFETY: `with` passes the value to one thread at a time.
unsafe impl<T: Send> Sync for SpinLock<T> {}

impl<T> SpinLock<T> {
    /// Returns a lock that nobody holds.
    pub const fn new(value: T) -> SpinLock<T> {
        SpinLock { is_held: AtomicBool::new(false), value: UnsafeCell::new(value) }
    }
}

/// Releases the lock in its `drop`, which also runs if the work panics.
struct Held<'l>(&'l AtomicBool);

impl Drop for Held<'_> {
    fn drop(&mut self) {
        self.0.store(false, Ordering::Release);
    }
}

impl<T> Lock<T> for SpinLock<T> {
    fn with<R>(&self, work: impl FnOnce(&mut T) -> R) -> R {
        while self.is_held.swap(true, Ordering::Acquire) {
            hint::spin_loop();
        }
        let _held = Held(&self.is_held);
        // SAFETY: nobody else has the value until `_held` is dropped, after the work.
        work(unsafe { &mut *self.value.get() })
    }
}

/// A function that opens the machine of a program's global allocator. It must not allocate: the allocation would wait
/// forever for the lock. It must not panic either, since a panic allocates.
pub type Open = fn() -> Result<(Machine, Tenant), Error>;

/// A heap and its machine. The machine never ends. The first allocation, or an earlier [`Global::with_others`], opens the
/// machine.
#[derive(Debug)]
pub struct LazyHeap(State);

#[allow(clippy::large_enum_variant)] // a program has only one, in a static
enum State {
    New { open: Open, has_runs: bool },
    Opened(ManuallyDrop<Machine>, Tenant, RawHeap),
    Failed,
}

// SAFETY: a `LazyHeap` owns the machine and the heap. Each call to one of them needs `&mut LazyHeap`, so only one thread at a
// time makes calls.
unsafe impl Send for LazyHeap {}

impl LazyHeap {
    /// Returns a heap that is not opened yet. If opening it fails, each allocation fails.
    pub const fn new(open: Open) -> LazyHeap {
        LazyHeap(State::New { open, has_runs: false })
    }

    /// Returns a heap that is not opened yet, for requests that are larger than a superblock: it has
    /// [runs](crate::Client::heap_with). `open` has to grant the tenant all its slots in a row, before anybody else gets one. If
    /// opening it fails, each allocation fails.
    pub const fn with_runs(open: Open) -> LazyHeap {
        LazyHeap(State::New { open, has_runs: true })
    }

    fn open(&mut self) {
        if let State::New { open, has_runs } = self.0 {
            let opened = open().and_then(|(machine, tenant)| {
                let machine = ManuallyDrop::new(machine);
                let raw = RawHeap::new(&machine, tenant, &[], has_runs)?;
                Ok(State::Opened(machine, tenant, raw))
            });
            self.0 = opened.unwrap_or(State::Failed);
        }
    }

    fn heap(&mut self) -> Option<&RawHeap> {
        self.open();
        match &self.0 {
            State::Opened(_, _, raw) => Some(raw),
            _ => None,
        }
    }
}

/// A program's global allocator: the heap of one tenant, behind the lock `L`.
///
/// ```
/// use partmem::{Config, Error, Global, LazyHeap, Machine, SpinLock, StaticMemory, Tenant};
///
/// const CONFIG: Config = Config { order: 8, superblocks: 16, tenants: 1 };
/// static MEMORY: StaticMemory<{ CONFIG.ram_bytes() }, { CONFIG.table_bytes() }> = StaticMemory::new();
///
/// fn open() -> Result<(Machine, Tenant), Error> {
///     let machine = Machine::boot_in(CONFIG, MEMORY.take().ok_or(Error::NoMemory)?)?;
///     for _ in 0..CONFIG.superblocks {
///         machine.grant(Tenant(0))?;
///     }
///     Ok((machine, Tenant(0)))
/// }
///
/// #[global_allocator]
/// static GLOBAL: Global<SpinLock<LazyHeap>> = Global::new(SpinLock::new(LazyHeap::new(open)));
///
/// fn main() {
///     let words: Vec<String> = "in a tenant's memory".split(' ').map(String::from).collect();
///     assert_eq!(words.len(), 4);
/// }
/// ```
#[derive(Debug)]
pub struct Global<L>(L);

impl<L> Global<L> {
    /// Returns an allocator for the heap behind this lock.
    pub const fn new(lock: L) -> Global<L> {
        Global(lock)
    }
}

impl<L: Lock<LazyHeap>> Global<L> {
    /// Runs some work with the administrator and the other tenants of the machine. The work must not allocate from this
    /// allocator, whose lock is held, and must not panic. Returns `None` if the heap could not be opened.
    pub fn with_others<R>(&self, work: impl FnOnce(Administrator<'_>, Clients<'_>) -> R) -> Option<R> {
        self.0.with(|lazy| {
            lazy.open();
            match &mut lazy.0 {
                State::Opened(machine, tenant, _) => {
                    Some(work(Administrator::new(machine), Clients::new(machine, Some(*tenant))))
                }
                _ => None,
            }
        })
    }

    /// Runs some work with the heap, and returns the address that the work returns. Returns null if the heap could not be opened.
    fn with_heap(&self, work: impl FnOnce(&RawHeap) -> *mut u8) -> *mut u8 {
        let aborts = AbortsIfUnwound;
        let at = self.0.with(|lazy| lazy.heap().map_or(ptr::null_mut(), work));
        mem::forget(aborts);
        at
    }
}

/// Ends the program if a panic drops it, by a second panic in its `drop`: an allocator must not unwind.
struct AbortsIfUnwound;

impl Drop for AbortsIfUnwound {
    fn drop(&mut self) {
        panic!("the lock of the global allocator, or what opens its machine, has panicked");
    }
}

// SAFETY: a piece has the size and the alignment of its layout, overlaps no other piece, and stays until it is freed: the machine
// never ends, and a reset or a move of this tenant needs its client, which nobody gets. If the lock passes another heap than
// before, that heap refuses what it has not allocated.
unsafe impl<L: Lock<LazyHeap>> GlobalAlloc for Global<L> {
    unsafe fn alloc(&self, layout: Layout) -> *mut u8 {
        self.with_heap(|heap| heap.allocate(layout))
    }

    unsafe fn dealloc(&self, at: *mut u8, _: Layout) {
        self.with_heap(|heap| {
            // SAFETY: the caller has the piece from this heap, and does not use it again.
            unsafe { heap.free(at) };
            ptr::null_mut()
        });
    }

    unsafe fn realloc(&self, at: *mut u8, old: Layout, bytes: usize) -> *mut u8 {
        // SAFETY: the caller has made sure that the new size and alignment are a layout. It has the piece from this heap with the
        // old layout. After a success it does not use `at` again.
        self.with_heap(|heap| unsafe { heap.resize(at, old, Layout::from_size_align_unchecked(bytes, old.align())) })
    }
}

impl<T> fmt::Debug for SpinLock<T> {
    fn fmt(&self, to: &mut fmt::Formatter<'_>) -> fmt::Result {
        to.debug_struct("SpinLock").finish_non_exhaustive()
    }
}

impl fmt::Debug for State {
    fn fmt(&self, to: &mut fmt::Formatter<'_>) -> fmt::Result {
        to.write_str(match self {
            State::New { .. } => "New",
            State::Opened(..) => "Opened",
            State::Failed => "Failed",
        })
    }
}
