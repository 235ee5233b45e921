//! A slab allocator in Rust, over objects.h. A slab has at most 64 objects, and a word whose bit `i` is 1 if object `i` is free.
//! A take uses the first slab that has a free object, and its first free object.
use std::ffi::c_void;

/// `struct layout` of adapter.h.
#[repr(C)]
#[derive(Clone, Copy)]
pub struct Layout {
    number: u32,
    chunk: u32,
    order: u32,
    objects: u32,
    colours: u32,
}

extern "C" {
    fn slab_alloc(slabs: *mut c_void) -> *mut u8;
    fn slab_free(slabs: *mut c_void, slab: *mut u8);
    fn slab_construct(slabs: *mut c_void, object: *mut u8);
}

struct Slab {
    memory: *mut u8,
    free: u64,
}

pub struct Cache {
    slabs: *mut c_void,
    layout: Layout,
    all: Vec<Slab>,
}

impl Cache {
    /// Returns the word of a slab without taken objects.
    fn empty(&self) -> u64 {
        u64::MAX >> (64 - self.layout.objects)
    }

    /// Adds a slab with constructed objects. Returns `None` if there is no memory for it.
    fn grow(&mut self) -> Option<()> {
        let memory = unsafe { slab_alloc(self.slabs) };
        if memory.is_null() {
            return None;
        }
        for at in 0..self.layout.objects {
            unsafe { slab_construct(self.slabs, memory.add((at * self.layout.chunk) as usize)) };
        }
        self.all.push(Slab { memory, free: self.empty() });
        Some(())
    }
}

#[no_mangle]
pub extern "C" fn objects_lay_out(size: u32, align: u32, layout: &mut Layout) {
    layout.chunk = size.div_ceil(align) * align;
    layout.order = (0..3).find(|order| (4096 << order) / layout.chunk >= 8).unwrap_or(3);
    layout.objects = ((4096 << layout.order) / layout.chunk).min(64);
    layout.colours = 1;
}

#[no_mangle]
pub extern "C" fn objects_init(slabs: *mut c_void, _size: u32, _align: u32, layout: &Layout) -> Box<Cache> {
    Box::new(Cache { slabs, layout: *layout, all: Vec::new() })
}

#[no_mangle]
pub extern "C" fn objects_take(cache: &mut Cache) -> *mut u8 {
    if cache.all.iter().all(|slab| slab.free == 0) && cache.grow().is_none() {
        return std::ptr::null_mut();
    }
    let chunk = cache.layout.chunk;
    let slab = cache.all.iter_mut().find(|slab| slab.free != 0).unwrap();
    let at = slab.free.trailing_zeros();
    slab.free ^= 1 << at;
    slab.memory.wrapping_add((at * chunk) as usize)
}

#[no_mangle]
pub extern "C" fn objects_give(cache: &mut Cache, object: *mut u8) {
    let (bytes, chunk) = (4096 << cache.layout.order, cache.layout.chunk as usize);
    let offset = |slab: &Slab| (object as usize).wrapping_sub(slab.memory as usize);
    let slab = cache.all.iter_mut().find(|slab| offset(slab) < bytes).unwrap();
    slab.free |= 1 << (offset(slab) / chunk);
}

#[no_mangle]
pub extern "C" fn objects_shrink(cache: &mut Cache) {
    let (slabs, empty) = (cache.slabs, cache.empty());
    cache.all.iter().filter(|slab| slab.free == empty).for_each(|slab| unsafe { slab_free(slabs, slab.memory) });
    cache.all.retain(|slab| slab.free != empty);
}

#[no_mangle]
pub extern "C" fn objects_end(cache: Box<Cache>) {
    cache.all.iter().for_each(|slab| unsafe { slab_free(cache.slabs, slab.memory) });
}
