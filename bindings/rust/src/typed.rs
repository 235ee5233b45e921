//! Values of a type as objects of a tenant's cache.
use crate::{machine::result, sys, Client, Error, Place};
use core::fmt;
use core::marker::PhantomData;
use core::mem::{align_of, size_of, ManuallyDrop};
use core::ops::{Deref, DerefMut};
use core::ptr::{self, NonNull};

const MIN_ALIGN: usize = 8;

/// A cache of values of type `T`. Dropping it destroys it, and frees its slabs. If an object was leaked, the cache stays until
/// its tenant is reset.
pub struct Cache<'c, T> {
    client: &'c Client<'c>,
    /// The cache, which has only values of this type: no other code knows its number.
    cache: crate::Cache,
    values: PhantomData<T>,
}

/// The owner of a value in an object of a [`Cache`]. It derefs to the value. Dropping it drops the value and gives the object
/// back.
pub struct Object<'k, T> {
    /// The address of the value, which is alive.
    at: NonNull<T>,
    place: Place,
    cache: &'k Cache<'k, T>,
}

/// A taken object, without a value to drop. Dropping a `Taken` gives the object back.
struct Taken<'k, T> {
    at: NonNull<T>,
    place: Place,
    cache: &'k Cache<'k, T>,
}

impl<'c, T> Cache<'c, T> {
    /// Makes a cache. Fails with `BadSize` (above 4096 bytes), `BadAlign` (above 256), `NoCacheSlot` (32 caches).
    pub(crate) fn new(client: &'c Client<'c>) -> Result<Cache<'c, T>, Error> {
        let number = |it: usize| u32::try_from(it).unwrap_or(u32::MAX);
        let (size, align) = (number(size_of::<T>().max(1)), number(align_of::<T>().max(MIN_ALIGN)));
        Ok(Cache { client, cache: client.make_cache(size, align, b"\0")?, values: PhantomData })
    }

    fn tenant(&self) -> sys::Tenant {
        self.client.machine().of(self.client.number())
    }

    /// Takes an object and writes the value to it. If no object can be taken, the value is dropped. Fails with `NoFrames`.
    pub fn take(&self, value: T) -> Result<Object<'_, T>, Error> {
        self.take_with(|| value)
    }

    /// Takes an object, then makes a value and writes it to the object. Fails with `NoFrames`.
    pub fn take_with(&self, make: impl FnOnce() -> T) -> Result<Object<'_, T>, Error> {
        // SAFETY: the machine is booted, the call's locks are held, and the result goes to a local variable.
        let lent: sys::Lent = result(|lent| unsafe { sys::partmem_take(self.tenant(), self.cache.number, lent) })?;
        // SAFETY: the call has lent bytes, whose address is never null.
        let at = unsafe { NonNull::new_unchecked(lent.at.cast::<T>()) };
        let taken = Taken { at, place: lent.place, cache: self };
        let value = make();
        // SAFETY: the object has the size and the alignment of `T`, and only `taken` knows it. It stays there while the client is
        // borrowed.
        unsafe { at.as_ptr().write(value) };
        let Taken { at, place, cache } = *ManuallyDrop::new(taken);
        Ok(Object { at, place, cache })
    }
}

impl<T> Drop for Cache<'_, T> {
    fn drop(&mut self) {
        // An object that was leaked keeps the cache, until a reset.
        let _ = self.client.destroy_cache(&mut self.cache);
    }
}

impl<T> Drop for Taken<'_, T> {
    fn drop(&mut self) {
        // SAFETY: the object was taken from this cache, and nobody uses its bytes: its value is gone, or was not written.
        let status = unsafe { sys::partmem_give(self.cache.tenant(), self.cache.cache.number, self.place) };
        debug_assert_eq!(status, 0, "the object is live");
    }
}

impl<'k, T> Object<'k, T> {
    /// Returns the place of the object's first byte. Store and show this place instead of an address.
    pub fn place(this: &Self) -> Place {
        this.place
    }

    /// Takes the value out, and gives the object back.
    pub fn into_inner(this: Self) -> T {
        let taken = Object::into_taken(this);
        // SAFETY: the value is alive, and is not used in its place again.
        unsafe { taken.at.as_ptr().read() }
    }

    /// Returns the taken object, whose value the caller has to drop or to move out.
    fn into_taken(this: Self) -> Taken<'k, T> {
        let Object { at, place, cache } = *ManuallyDrop::new(this);
        Taken { at, place, cache }
    }
}

impl<T> Drop for Object<'_, T> {
    fn drop(&mut self) {
        // Gives the object back after the value is dropped, even if its drop panics.
        let taken = Taken { at: self.at, place: self.place, cache: self.cache };
        // SAFETY: the value is alive, and this is its only owner.
        unsafe { ptr::drop_in_place(taken.at.as_ptr()) };
    }
}

impl<T> Deref for Object<'_, T> {
    type Target = T;

    fn deref(&self) -> &T {
        // SAFETY: the value is alive and stays there while the client is borrowed. Nobody else reaches it.
        unsafe { self.at.as_ref() }
    }
}

impl<T> DerefMut for Object<'_, T> {
    fn deref_mut(&mut self) -> &mut T {
        // SAFETY: as in `deref`.
        unsafe { self.at.as_mut() }
    }
}

impl<T> fmt::Debug for Cache<'_, T> {
    fn fmt(&self, to: &mut fmt::Formatter<'_>) -> fmt::Result {
        write!(to, "Cache(values of {} bytes of tenant {})", size_of::<T>(), self.client.number().0)
    }
}

/// Formats the value, and not its address, which no tenant may see.
impl<T: fmt::Debug> fmt::Debug for Object<'_, T> {
    fn fmt(&self, to: &mut fmt::Formatter<'_>) -> fmt::Result {
        (**self).fmt(to)
    }
}

impl<T: fmt::Display> fmt::Display for Object<'_, T> {
    fn fmt(&self, to: &mut fmt::Formatter<'_>) -> fmt::Result {
        (**self).fmt(to)
    }
}
