//! Connects the Rust crate `slab` to objects.h: a cache is a `Slab<()>` of keys. Key `k` is object `k % n` of page `k / n`, if a
//! slab has `n` objects, and a page is allocated when one of its keys is first inserted.
use slab::Slab;
use std::ffi::c_void;

/// `struct layout` of adapter.h.
#[repr(C)]
#[derive(Clone, Copy)]
pub struct Layout {
    number: u32,
    chunk: u32,
    order: u32,
    objects: u32,
    colours: u32,
}

extern "C" {
    fn slab_alloc(slabs: *mut c_void) -> *mut u8;
    fn slab_free(slabs: *mut c_void, slab: *mut u8);
    fn slab_construct(slabs: *mut c_void, object: *mut u8);
}

struct Page {
    memory: *mut u8,
    live: u32,
}

pub struct Cache {
    slabs: *mut c_void,
    layout: Layout,
    keys: Slab<()>,
    /// By number; `None` is a page without memory.
    pages: Vec<Option<Page>>,
}

impl Cache {
    /// Returns the page with this number, with memory, or `None` if there is no memory for it.
    fn page(&mut self, number: usize) -> Option<&mut Page> {
        let count = self.pages.len().max(number + 1);
        self.pages.resize_with(count, || None);
        if self.pages[number].is_none() {
            let memory = unsafe { slab_alloc(self.slabs) };
            self.pages[number] = (!memory.is_null()).then_some(Page { memory, live: 0 });
        }
        self.pages[number].as_mut()
    }

    fn drop_pages(&mut self, is_dropped: fn(&Page) -> bool) {
        for page in &mut self.pages {
            if page.as_ref().map_or(false, is_dropped) {
                unsafe { slab_free(self.slabs, page.take().unwrap().memory) }
            }
        }
    }
}

#[no_mangle]
pub extern "C" fn objects_lay_out(size: u32, align: u32, layout: &mut Layout) {
    layout.chunk = (size + align - 1) / align * align;
    layout.order = (0..3).find(|order| (4096 << order) / layout.chunk >= 2).unwrap_or(3);
    layout.objects = (4096 << layout.order) / layout.chunk;
    layout.colours = 1;
}

#[no_mangle]
pub extern "C" fn objects_init(slabs: *mut c_void, _size: u32, _align: u32, layout: &Layout) -> Box<Cache> {
    Box::new(Cache { slabs, layout: *layout, keys: Slab::new(), pages: Vec::new() })
}

#[no_mangle]
pub extern "C" fn objects_take(cache: &mut Cache) -> *mut u8 {
    let (key, layout) = (cache.keys.insert(()), cache.layout);
    let (number, index) = (key / layout.objects as usize, key % layout.objects as usize);
    let Some(page) = cache.page(number) else {
        cache.keys.remove(key);
        return std::ptr::null_mut();
    };
    page.live += 1;
    let object = page.memory.wrapping_add(index * layout.chunk as usize);
    unsafe { slab_construct(cache.slabs, object) };
    object
}

#[no_mangle]
pub extern "C" fn objects_give(cache: &mut Cache, object: *mut u8) {
    let layout = cache.layout;
    let offset = |page: &Option<Page>| page.as_ref().map_or(usize::MAX, |it| (object as usize).wrapping_sub(it.memory as usize));
    let number = cache.pages.iter().position(|page| offset(page) < 4096 << layout.order).unwrap();
    let index = offset(&cache.pages[number]) / layout.chunk as usize;
    cache.keys.remove(number * layout.objects as usize + index);
    cache.pages[number].as_mut().unwrap().live -= 1;
}

#[no_mangle]
pub extern "C" fn objects_shrink(cache: &mut Cache) {
    cache.drop_pages(|page| page.live == 0);
    cache.keys.shrink_to_fit();
}

#[no_mangle]
pub extern "C" fn objects_end(mut cache: Box<Cache>) {
    cache.drop_pages(|_| true);
}
