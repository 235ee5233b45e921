//! The declarations of partmem.h and partmem_heap.h that this crate uses.
use crate::{Config, Figures, Place, Slot};
use core::ffi::c_void;
use core::mem::{size_of, MaybeUninit};

/// A `partmem_machine`. All its bytes are 0 while no machine is booted in it.
#[repr(C)]
pub struct Machine(pub [*mut c_void; 3]);

#[repr(C)]
#[derive(Clone, Copy)]
pub struct Tenant(pub *mut Machine, pub u32);

#[repr(C)]
pub struct Memory {
    pub ram: *mut u8,
    pub tables: *mut u8,
}

#[repr(C)]
pub struct Lent {
    pub at: *mut u8,
    pub place: Place,
    pub bytes: u32,
    pub tenant: u32,
}

#[repr(C)]
#[derive(Default)]
pub struct Cache {
    pub cache: u32,
    pub form: [u32; 4],
}

/// For each cache number, the size in bytes of the objects that `partmem_release` gives back; 0 means none.
#[repr(C)]
pub struct Sizes(pub [u16; 32]);

/// What `partmem_release` has freed: the number of its cache, its place and its bytes.
#[repr(C)]
#[derive(Default)]
pub struct Object([u32; 3]);

#[repr(C)]
pub struct HeapConfig {
    pub sizes: *const u16,
    pub count: u32,
    pub slots: u32,
    pub runs: *mut u16,
}

/// A heap. Only the library writes to it. Between calls it may be moved.
#[repr(C)]
pub struct Heap {
    tenant: Tenant,
    base: *mut u8,
    runs: *mut u16,
    numbers: [u32; 3],
    sizes: [u16; MAX_CLASSES],
    aligns: [u16; MAX_CLASSES],
    /// For each class, the number of its cache plus 1, or 0 if the class has no cache.
    pub cache_of: [u8; MAX_CLASSES],
    own: Sizes,
    class_of: [u8; 257],
}

pub const MAX_CLASSES: usize = 24;

// The sizes that tests/use-from-c/layout.c checks in the headers.
const _: () = assert!(size_of::<Machine>() == 24 && size_of::<Tenant>() == 16 && size_of::<Lent>() == 24);
const _: () = assert!(size_of::<Config>() == 12 && size_of::<Slot>() == 8 && size_of::<Cache>() == 20);
const _: () = assert!(size_of::<Memory>() == 16 && size_of::<HeapConfig>() == 24 && size_of::<Heap>() == 488);
const _: () = assert!(size_of::<Figures>() == 756 && size_of::<Object>() == 12 && size_of::<Sizes>() == 64);

impl Heap {
    /// Returns a heap that is all 0, as after a refused initialisation.
    pub fn none() -> Heap {
        // SAFETY: it has only numbers and pointers, which may all be 0.
        unsafe { MaybeUninit::zeroed().assume_init() }
    }
}

impl Default for Lent {
    fn default() -> Lent {
        Lent { at: core::ptr::null_mut(), place: Place::NOWHERE, bytes: 0, tenant: 0 }
    }
}

#[rustfmt::skip]
extern "C" {
    pub fn partmem_strerror(status: u32) -> *const u8;
    pub fn partmem_version() -> u32;
    pub fn partmem_boot_in(machine: *mut Machine, config: *const Config, memory: *const Memory) -> u32;
    pub fn partmem_end(machine: *mut Machine) -> u32;
    pub fn partmem_grant(tenant: Tenant, granted: *mut Slot) -> u32;
    pub fn partmem_take_back(tenant: Tenant, slot: u32) -> u32;
    pub fn partmem_move(tenant: Tenant, slot: u32, moved: *mut Slot) -> u32;
    pub fn partmem_reset(tenant: Tenant) -> u32;
    pub fn partmem_alloc(tenant: Tenant, order: u32, block: *mut Lent) -> u32;
    pub fn partmem_free(tenant: Tenant, place: Place) -> u32;
    pub fn partmem_make_cache(
        tenant: Tenant, size: u32, align: u32, pattern: *const u8, pattern_bytes: usize, made: *mut Cache) -> u32;
    pub fn partmem_destroy_cache(tenant: Tenant, cache: u32) -> u32;
    pub fn partmem_take(tenant: Tenant, cache: u32, object: *mut Lent) -> u32;
    pub fn partmem_give(tenant: Tenant, cache: u32, place: Place) -> u32;
    pub fn partmem_release(tenant: Tenant, place: Place, sizes: *const Sizes, freed: *mut Object) -> u32;
    pub fn partmem_reap(tenant: Tenant, frames: *mut u32) -> u32;
    pub fn partmem_lend(tenant: Tenant, place: Place, bytes: u32, lent: *mut Lent) -> u32;
    pub fn partmem_report(tenant: Tenant, figures: *mut Figures) -> u32;
    pub fn partmem_heap_init(heap: *mut Heap, tenant: Tenant, config: *const HeapConfig) -> u32;
    pub fn partmem_heap_aligned_alloc(heap: *mut Heap, align: usize, bytes: usize) -> *mut u8;
    pub fn partmem_heap_realloc(heap: *mut Heap, old: *mut u8, bytes: usize) -> *mut u8;
    pub fn partmem_heap_free(heap: *mut Heap, at: *mut u8) -> u32;
    pub fn partmem_heap_place(heap: *const Heap, at: *const u8) -> u32;
}
