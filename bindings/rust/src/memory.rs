//! The memory of a machine: its sizes, and statics that hold it.
use crate::{machine::Record, sys, Config, Error};
use core::cell::UnsafeCell;
use core::mem::{size_of, MaybeUninit};
use core::ptr::NonNull;
use core::sync::atomic::{AtomicBool, Ordering};
use core::{fmt, hint};

const FRAME_BYTES: usize = 4096;
const MAX_FRAMES: u32 = 1 << 20;
const TABLE_ALIGN: usize = 16;

/// Returns how many bytes an allocation in the tables takes: whole pieces of 128 bytes.
const fn pieces(bytes: usize) -> usize {
    (bytes + 127) / 128 * 128
}

/// Returns how many bytes a set of this many numbers takes, with one bit for each.
const fn set_size(numbers: usize) -> usize {
    pieces((numbers + 63) / 64 * 8)
}

impl Config {
    pub(crate) fn check(&self) -> Result<(), Error> {
        let fits = (3..=10).contains(&self.order)
            && (1..=4096.min(MAX_FRAMES >> self.order)).contains(&self.superblocks)
            && (1..=255).contains(&self.tenants);
        fits.then_some(()).ok_or(Error::BadConfig)
    }

    /// Returns how many bytes of RAM a machine has.
    pub const fn ram_bytes(self) -> usize {
        self.superblocks as usize * (FRAME_BYTES << self.order)
    }

    /// Returns how many bytes the library's tables have: `PARTMEM_TABLE_BYTES` of the header, whose comments name each part.
    const fn library_bytes(self) -> usize {
        let (order, superblocks, tenants) = (self.order, self.superblocks as usize, self.tenants as usize);
        let set = set_size(superblocks);
        let sets_of_slots = (superblocks + 63) / 64 * 128 + pieces(8 * (order as usize + 1));
        let of_superblock = pieces((4 << order) - 2) + pieces(2 << order);
        let of_tenant = pieces(4 * superblocks)
            + pieces(2 * superblocks)
            + set
            + pieces(4 * superblocks)
            + 2 * pieces(4 * (order as usize + 1))
            + sets_of_slots
            + set_size(superblocks << order);
        112 + self.of_machine(set) + superblocks * of_superblock + tenants * of_tenant
    }

    /// Returns how many bytes of the tables a machine has once: `PARTMEM_OF_MACHINE` of the header. A set of superblocks has
    /// `set` bytes.
    const fn of_machine(self, set: usize) -> usize {
        let (superblocks, tenants) = (self.superblocks as usize, self.tenants as usize);
        let frames = superblocks << self.order;
        let of_all = superblocks.next_power_of_two() << self.order.saturating_sub(5);
        let groups = if of_all > 64 { of_all } else { 64 };
        let space = pieces(6 * superblocks)
            + 2 * pieces(24 * tenants)
            + set
            + pieces(40 * tenants)
            + pieces(24 * superblocks)
            + pieces(superblocks)
            + pieces(FRAME_BYTES << self.order);
        let buddy = pieces(88 * tenants) + pieces(56 * tenants) + pieces(56 * superblocks);
        let slabs = pieces(8 * frames)
            + pieces(1664 * tenants)
            + pieces(128 * tenants)
            + pieces(tenants)
            + pieces(1152 * tenants)
            + pieces(16 * frames)
            + pieces(12 * tenants * groups)
            + pieces(96 * tenants)
            + pieces(4 * tenants * superblocks.next_power_of_two())
            + pieces(24 * tenants);
        pieces(64) + space + buddy + slabs + pieces(576)
    }

    /// Returns the offset of the `partmem_machine` in the tables, in bytes. It lies after the library's part.
    pub(crate) const fn machine_offset(self) -> usize {
        (self.library_bytes() + TABLE_ALIGN - 1) / TABLE_ALIGN * TABLE_ALIGN
    }

    /// Returns how many bytes of tables a machine has: those of the header's `PARTMEM_TABLE_BYTES`, and for this crate 24, 24 for
    /// each tenant, and 2 for each slot of a tenant.
    pub const fn table_bytes(self) -> usize {
        let of_tenant = size_of::<Record>() + size_of::<u16>() * self.superblocks as usize;
        self.machine_offset() + size_of::<sys::Machine>() + self.tenants as usize * of_tenant
    }
}

/// The memory of a machine. Its bytes may have any values, or be uninitialised.
pub struct Memory {
    /// At least [`Config::ram_bytes`], at a multiple of 4096.
    pub ram: &'static mut [MaybeUninit<u8>],
    /// At least [`Config::table_bytes`], at a multiple of 16.
    pub tables: &'static mut [MaybeUninit<u8>],
}

/// Where the memory of a machine lies.
#[derive(Clone, Copy)]
pub(crate) struct Region {
    pub ram: NonNull<u8>,
    pub tables: NonNull<u8>,
}

impl Memory {
    /// Returns two slices of bytes as the memory of a machine.
    pub fn of_bytes(ram: &'static mut [u8], tables: &'static mut [u8]) -> Memory {
        // SAFETY: nobody reads these bytes as numbers again, since the slices are borrowed for ever.
        let without_values = |bytes: &'static mut [u8]| unsafe { &mut *(bytes as *mut [u8] as *mut [MaybeUninit<u8>]) };
        Memory { ram: without_values(ram), tables: without_values(tables) }
    }

    /// Returns where the memory lies, if it is large enough and aligned.
    pub(crate) fn region(self, config: Config) -> Result<Region, Error> {
        let is_large = self.ram.len() >= config.ram_bytes() && self.tables.len() >= config.table_bytes();
        let region = Region { ram: NonNull::from(self.ram).cast(), tables: NonNull::from(self.tables).cast() };
        let is_aligned = |at: NonNull<u8>, align| at.as_ptr() as usize % align == 0;
        let fits = is_large && is_aligned(region.ram, FRAME_BYTES) && is_aligned(region.tables, TABLE_ALIGN);
        fits.then_some(region).ok_or(Error::BadMemory)
    }
}

impl fmt::Debug for Memory {
    fn fmt(&self, to: &mut fmt::Formatter<'_>) -> fmt::Result {
        write!(to, "Memory({} bytes of RAM, {} of tables)", self.ram.len(), self.tables.len())
    }
}

/// Memory from the global allocator, for a new machine.
#[cfg(feature = "std")]
impl Region {
    fn layouts(config: Config) -> [std::alloc::Layout; 2] {
        let layout = |bytes, align| std::alloc::Layout::from_size_align(bytes, align).expect("a size of a machine");
        [layout(config.ram_bytes(), FRAME_BYTES), layout(config.table_bytes(), TABLE_ALIGN)]
    }

    pub(crate) fn allocate(config: Config) -> Result<Region, Error> {
        let [of_ram, of_tables] = Region::layouts(config);
        // SAFETY: neither layout is empty.
        let parts = [of_ram, of_tables].map(|layout| NonNull::new(unsafe { std::alloc::alloc(layout) }));
        match parts {
            [Some(ram), Some(tables)] => Ok(Region { ram, tables }),
            [ram, tables] => {
                for (part, layout) in [(ram, of_ram), (tables, of_tables)] {
                    // SAFETY: it was allocated above with this layout, and nobody has it.
                    part.into_iter().for_each(|at| unsafe { std::alloc::dealloc(at.as_ptr(), layout) });
                }
                Err(Error::NoMemory)
            }
        }
    }

    /// # Safety
    /// The region is from `allocate` with the same config, and is not used again.
    pub(crate) unsafe fn free(self, config: Config) {
        for (part, layout) in [self.ram, self.tables].into_iter().zip(Region::layouts(config)) {
            // SAFETY: as said above.
            unsafe { std::alloc::dealloc(part.as_ptr(), layout) }
        }
    }
}

#[repr(C, align(4096))]
struct OnPages<T>(UnsafeCell<T>);

#[repr(C, align(16))]
struct OnPieces<T>(UnsafeCell<T>);

/// Memory of one machine in a static: `RAM` bytes of RAM and `TABLES` bytes of tables.
pub struct StaticMemory<const RAM: usize, const TABLES: usize> {
    is_taken: AtomicBool,
    ram: OnPages<MaybeUninit<[u8; RAM]>>,
    tables: OnPieces<MaybeUninit<[u8; TABLES]>>,
}

// SAFETY: `take` gives the bytes to one caller, and nothing else reads or writes them.
unsafe impl<const RAM: usize, const TABLES: usize> Sync for StaticMemory<RAM, TABLES> {}

impl<const RAM: usize, const TABLES: usize> StaticMemory<RAM, TABLES> {
    /// Returns memory that nobody has taken, for a static.
    #[allow(clippy::new_without_default)]
    pub const fn new() -> Self {
        StaticMemory {
            is_taken: AtomicBool::new(false),
            ram: OnPages(UnsafeCell::new(MaybeUninit::uninit())),
            tables: OnPieces(UnsafeCell::new(MaybeUninit::uninit())),
        }
    }

    /// Returns the memory at the first call, and `None` afterwards.
    pub fn take(&'static self) -> Option<Memory> {
        if self.is_taken.swap(true, Ordering::Relaxed) {
            return None;
        }
        let (ram, tables) =
            (self.ram.0.get().cast::<[MaybeUninit<u8>; RAM]>(), self.tables.0.get().cast::<[MaybeUninit<u8>; TABLES]>());
        // SAFETY: nobody else gets a reference to the bytes, since this is the first call. The bytes may be uninitialised.
        Some(unsafe { Memory { ram: &mut *ram, tables: &mut *tables } })
    }
}

impl<const RAM: usize, const TABLES: usize> fmt::Debug for StaticMemory<RAM, TABLES> {
    fn fmt(&self, to: &mut fmt::Formatter<'_>) -> fmt::Result {
        write!(to, "StaticMemory({RAM} bytes of RAM, {TABLES} of tables)")
    }
}

/// Whether a boot runs. A program may run only one boot at a time.
static IS_BOOTING: AtomicBool = AtomicBool::new(false);

/// Runs a boot while no other one runs.
pub(crate) fn alone(boot: impl FnOnce() -> u32) -> u32 {
    while IS_BOOTING.swap(true, Ordering::Acquire) {
        hint::spin_loop();
    }
    let status = boot();
    IS_BOOTING.store(false, Ordering::Release);
    status
}
