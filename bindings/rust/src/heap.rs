//! The heap of a tenant, for values and collections.
use crate::{error::done, sys, Client, Error, Machine, Place, Tenant};
use core::alloc::Layout;
use core::cell::UnsafeCell;
use core::mem::ManuallyDrop;
use core::ops::{Deref, DerefMut};
use core::ptr::{self, NonNull};
use core::{fmt, mem};

/// Each piece begins at a multiple of this number. A piece is memory that a heap has allocated and not freed.
const STEP: usize = 16;

/// A `partmem_heap` of a booted machine. Its users make one call at a time.
pub(crate) struct RawHeap {
    raw: UnsafeCell<sys::Heap>,
    has_runs: bool,
}

impl RawHeap {
    /// Initialises the heap of a tenant. If there are no sizes, it has the default classes.
    pub(crate) fn new(machine: &Machine, tenant: Tenant, sizes: &[u16], has_runs: bool) -> Result<RawHeap, Error> {
        // Copies the sizes: they may lie in lent bytes, and no argument of the library may lie there.
        let mut copy = [0; sys::MAX_CLASSES];
        copy.get_mut(..sizes.len()).ok_or(Error::BadConfig)?.copy_from_slice(sizes);
        let (runs, slots) = if has_runs { machine.take_runs(tenant)? } else { (ptr::null_mut(), 0) };
        let config = sys::HeapConfig { sizes: copy.as_ptr(), count: sizes.len() as u32, slots, runs };
        let mut raw = sys::Heap::none();
        // SAFETY: heap and config are local variables, and the sizes are as many as the config says. No other heap has the runs.
        let status = done(unsafe { sys::partmem_heap_init(&mut raw, machine.of(tenant), &config) });
        if has_runs && status.is_err() {
            machine.leave_runs(tenant);
        }
        status.map(|()| RawHeap { raw: UnsafeCell::new(raw), has_runs })
    }

    /// Allocates memory of a layout, at least one byte. Returns null if there is no memory, or if the alignment is above 4096.
    pub(crate) fn allocate(&self, layout: Layout) -> *mut u8 {
        // SAFETY: the heap was initialised, and its machine is booted.
        unsafe { sys::partmem_heap_aligned_alloc(self.raw.get(), layout.align().max(STEP), layout.size()) }
    }

    /// # Safety
    /// The piece is from this heap, and is not used again.
    pub(crate) unsafe fn free(&self, at: *mut u8) {
        // SAFETY: as said above. If nothing live begins at the address, the heap frees nothing.
        let status = unsafe { sys::partmem_heap_free(self.raw.get(), at) };
        debug_assert_eq!(status, 0, "no piece of the heap begins there");
    }

    /// Changes the size of a piece, and perhaps its address. Returns null if there is no memory, or if the new alignment is above
    /// 4096. In both cases the piece stays as it was.
    ///
    /// # Safety
    /// The piece is from this heap, with the layout `old`. Unless this returns null, `at` is not used again.
    pub(crate) unsafe fn resize(&self, at: *mut u8, old: Layout, new: Layout) -> *mut u8 {
        if new.align().max(old.align()) <= STEP {
            // SAFETY: as said above.
            return unsafe { sys::partmem_heap_realloc(self.raw.get(), at, new.size()) };
        }
        let to = self.allocate(new);
        if !to.is_null() {
            // SAFETY: both pieces have at least the bytes that are copied, and a new piece overlaps no other.
            unsafe {
                ptr::copy_nonoverlapping(at, to, old.size().min(new.size()));
                self.free(at);
            }
        }
        to
    }

    /// Destroys the heap's caches, except those that still have a live object. Such an object was leaked.
    fn close(&mut self, machine: &Machine, tenant: Tenant) {
        for cache in self.raw.get_mut().cache_of.iter().filter(|cache| **cache > 0) {
            // SAFETY: the machine is booted, and the call's locks are held. Nothing of a cache without live objects is used.
            let _ = unsafe { sys::partmem_destroy_cache(machine.of(tenant), u32::from(*cache) - 1) };
        }
        if self.has_runs {
            machine.leave_runs(tenant);
        }
    }

    fn place(&self, at: *const u8) -> Place {
        // SAFETY: any address is allowed.
        Place(unsafe { sys::partmem_heap_place(self.raw.get(), at) })
    }
}

/// The heap of a tenant. With the feature `allocator_api`, which needs a nightly compiler, `&Heap` is an `Allocator`:
/// `Vec::new_in(&heap)`. On any compiler [`Heap::boxed`], [`Heap::copied`] and [`Heap::text`] put values, slices and texts in it.
///
/// It borrows the [`Client`], and what it allocates borrows the heap. So both have to be dropped before a reset or a move of this
/// tenant. Dropping the heap destroys its caches, except those with a leaked object. The values in a heap may hold the addresses
/// of each other. `partmem_heap.h` says what is lost if a program computes with these addresses as numbers.
///
/// # Runs
/// With runs a request larger than a superblock gets superblocks that lie in a row in RAM. The tenant has to have the slots 0, 1,
/// 2 .., and their superblocks have to follow each other in RAM. They do if the first calls after the boot are grants, and no
/// grant to another tenant comes between those to this tenant. A tenant has at most one heap with runs at a time.
pub struct Heap<'c> {
    raw: RawHeap,
    /// A second client of the tenant, which is not public. As long as the heap lives, the first one is borrowed, or is in an
    /// [`OwnedHeap`].
    client: Client<'c>,
}

/// A [`Heap`] that owns its client and does not borrow it, so that a list can hold heaps of many tenants. It derefs to the heap.
#[derive(Debug)]
pub struct OwnedHeap<'a> {
    heap: Heap<'a>,
    client: Client<'a>,
}

impl<'a> OwnedHeap<'a> {
    pub(crate) fn new(client: Client<'a>, sizes: &[u16], has_runs: bool) -> Result<OwnedHeap<'a>, Error> {
        Ok(OwnedHeap { heap: Heap::new(client.again(), sizes, has_runs)?, client })
    }

    /// Returns the client, to make other calls.
    pub fn client(&self) -> &Client<'a> {
        &self.client
    }

    /// Drops the heap, and returns the client.
    pub fn into_client(self) -> Client<'a> {
        self.client
    }
}

impl<'a> Deref for OwnedHeap<'a> {
    type Target = Heap<'a>;

    fn deref(&self) -> &Heap<'a> {
        &self.heap
    }
}

impl Drop for Heap<'_> {
    fn drop(&mut self) {
        self.raw.close(self.client.machine(), self.client.number());
    }
}

/// The owner of a value in a [`Heap`]. It derefs to the value. Dropping it drops the value and frees the value's memory.
pub struct Boxed<'h, T: ?Sized> {
    /// The address of the value, which is alive.
    at: NonNull<T>,
    heap: &'h Heap<'h>,
}

/// A piece of a heap, without a value to drop. Dropping a `Piece` frees the piece.
struct Piece<'h> {
    at: *mut u8,
    heap: &'h Heap<'h>,
}

impl Drop for Piece<'_> {
    fn drop(&mut self) {
        // SAFETY: it is a piece of this heap. Its value was moved out or dropped, or was never written.
        unsafe { self.heap.raw.free(self.at) }
    }
}

impl<'c> Heap<'c> {
    pub(crate) fn new(client: Client<'c>, sizes: &[u16], has_runs: bool) -> Result<Heap<'c>, Error> {
        let raw = RawHeap::new(client.machine(), client.number(), sizes, has_runs)?;
        Ok(Heap { raw, client })
    }

    /// Puts a value into the heap. If there is no memory, the value is dropped. Fails with `NoMemory`.
    pub fn boxed<T>(&self, value: T) -> Result<Boxed<'_, T>, Error> {
        self.boxed_with(|| value)
    }

    /// Makes a value and puts it into the heap. If there is no memory, the value is not made. Fails with `NoMemory`.
    pub fn boxed_with<T>(&self, make: impl FnOnce() -> T) -> Result<Boxed<'_, T>, Error> {
        let at = NonNull::new(self.raw.allocate(Layout::new::<T>()).cast::<T>()).ok_or(Error::NoMemory)?;
        let piece = Piece { at: at.as_ptr().cast(), heap: self };
        let value = make();
        // SAFETY: the piece has the size and the alignment of `T`, and only this call uses it.
        unsafe { at.as_ptr().write(value) };
        mem::forget(piece);
        Ok(Boxed { at, heap: self })
    }

    /// Copies values into the heap. Fails with `NoMemory`.
    pub fn copied<T: Copy>(&self, values: &[T]) -> Result<Boxed<'_, [T]>, Error> {
        let at = NonNull::new(self.raw.allocate(Layout::for_value(values))).ok_or(Error::NoMemory)?.cast::<T>();
        // SAFETY: the piece has the size and the alignment of the values, and does not overlap them, since it is new.
        let at = unsafe {
            ptr::copy_nonoverlapping(values.as_ptr(), at.as_ptr(), values.len());
            NonNull::new_unchecked(ptr::slice_from_raw_parts_mut(at.as_ptr(), values.len()))
        };
        Ok(Boxed { at, heap: self })
    }

    /// Copies a text into the heap. Fails with `NoMemory`.
    pub fn text(&self, text: &str) -> Result<Boxed<'_, str>, Error> {
        let bytes = ManuallyDrop::new(self.copied(text.as_bytes())?);
        // SAFETY: the address is not null, and the bytes are those of a text.
        let at = unsafe { NonNull::new_unchecked(bytes.at.as_ptr() as *mut str) };
        Ok(Boxed { at, heap: self })
    }
}

impl<T: ?Sized> Boxed<'_, T> {
    /// Returns the place of the value's first byte. Store and show this place instead of an address.
    pub fn place(this: &Self) -> Place {
        this.heap.raw.place(this.at.as_ptr().cast())
    }
}

impl<T> Boxed<'_, T> {
    /// Takes the value out, and frees its memory.
    pub fn into_inner(this: Self) -> T {
        let this = ManuallyDrop::new(this);
        let piece = Piece { at: this.at.as_ptr().cast(), heap: this.heap };
        // SAFETY: the value is alive, and is not used in its place again.
        unsafe { piece.at.cast::<T>().read() }
    }
}

impl<T: ?Sized> Drop for Boxed<'_, T> {
    fn drop(&mut self) {
        // Frees the memory after the value is dropped, even if its drop panics.
        let _piece = Piece { at: self.at.as_ptr().cast(), heap: self.heap };
        // SAFETY: the value is alive, and this is its only owner.
        unsafe { ptr::drop_in_place(self.at.as_ptr()) };
    }
}

impl<T: ?Sized> Deref for Boxed<'_, T> {
    type Target = T;

    fn deref(&self) -> &T {
        // SAFETY: the value is alive and stays there while the heap is borrowed. Nobody else reaches it.
        unsafe { self.at.as_ref() }
    }
}

impl<T: ?Sized> DerefMut for Boxed<'_, T> {
    fn deref_mut(&mut self) -> &mut T {
        // SAFETY: as in `deref`.
        unsafe { self.at.as_mut() }
    }
}

#[cfg(feature = "allocator_api")]
mod allocator {
    use super::{Heap, Layout, NonNull};
    use core::alloc::{AllocError, Allocator};
    use core::ptr;

    /// Returns the memory of a layout at an address, or an error if the address is null.
    fn memory(at: *mut u8, layout: Layout) -> Result<NonNull<[u8]>, AllocError> {
        NonNull::new(ptr::slice_from_raw_parts_mut(at, layout.size())).ok_or(AllocError)
    }

    // SAFETY: a piece has the size and the alignment of its layout, overlaps no other piece, and stays until it is freed: no
    // reset and no move comes while the heap is borrowed. Copies of the reference lead to the same heap.
    unsafe impl Allocator for &Heap<'_> {
        fn allocate(&self, layout: Layout) -> Result<NonNull<[u8]>, AllocError> {
            memory(self.raw.allocate(layout), layout)
        }

        unsafe fn deallocate(&self, at: NonNull<u8>, _: Layout) {
            // SAFETY: the caller has the piece from this heap, and does not use it again.
            unsafe { self.raw.free(at.as_ptr()) }
        }

        unsafe fn grow(&self, at: NonNull<u8>, old: Layout, new: Layout) -> Result<NonNull<[u8]>, AllocError> {
            // SAFETY: the caller has the piece from this heap with the old layout. After a success it does not use `at` again.
            memory(unsafe { self.raw.resize(at.as_ptr(), old, new) }, new)
        }

        unsafe fn shrink(&self, at: NonNull<u8>, old: Layout, new: Layout) -> Result<NonNull<[u8]>, AllocError> {
            // SAFETY: as in `grow`.
            memory(unsafe { self.raw.resize(at.as_ptr(), old, new) }, new)
        }
    }
}

impl fmt::Debug for Heap<'_> {
    fn fmt(&self, to: &mut fmt::Formatter<'_>) -> fmt::Result {
        to.debug_struct("Heap").finish_non_exhaustive()
    }
}

/// Formats the value, and not its address, which no tenant may see.
impl<T: fmt::Debug + ?Sized> fmt::Debug for Boxed<'_, T> {
    fn fmt(&self, to: &mut fmt::Formatter<'_>) -> fmt::Result {
        (**self).fmt(to)
    }
}

impl<T: fmt::Display + ?Sized> fmt::Display for Boxed<'_, T> {
    fn fmt(&self, to: &mut fmt::Formatter<'_>) -> fmt::Result {
        (**self).fmt(to)
    }
}
