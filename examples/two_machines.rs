//! Two machines side by side as in `two_machines.c`, in plain Rust, where dropping a machine ends it.
use std::io::{BufRead, BufReader, Write};
use std::os::raw::{c_char, c_void};
use std::ptr;

#[repr(C)]
struct Machine([*mut c_void; 3]);

#[repr(C)]
#[derive(Clone, Copy)]
struct Tenant {
    machine: *mut Machine,
    number: u32,
}

#[repr(C)]
struct Config {
    order: u32,
    superblocks: u32,
    tenants: u32,
}

#[repr(C)]
#[derive(Default)]
struct Slot {
    slot: u32,
    superblock: u32,
}

#[repr(C)]
struct Lent {
    at: *mut u8,
    place: u32,
    bytes: u32,
    tenant: u32,
}

extern "C" {
    fn partmem_boot(machine: *mut Machine, config: *const Config) -> u32;
    fn partmem_end(machine: *mut Machine) -> u32;
    fn partmem_grant(tenant: Tenant, granted: *mut Slot) -> u32;
    fn partmem_move(tenant: Tenant, slot: u32, moved: *mut Slot) -> u32;
    fn partmem_alloc(tenant: Tenant, order: u32, block: *mut Lent) -> u32;
    fn partmem_free(tenant: Tenant, place: u32) -> u32;
    fn partmem_lend_block(tenant: Tenant, place: u32, block: *mut Lent) -> u32;
    fn partmem_line(
        machine: *mut Machine,
        line: *const c_char,
        line_len: usize,
        buffer: *mut c_char,
        buffer_len: usize,
        written: *mut usize,
    ) -> u32;
}

const DONE: u32 = 0;
const NOT_A_BLOCK: u32 = 3;
const HAS_MACHINE: u32 = 33;

/// A booted machine, which ends when it is dropped.
struct Booted(Box<Machine>);

impl Booted {
    fn new(order: u32, superblocks: u32, tenants: u32) -> Booted {
        let mut machine = Box::new(Machine([ptr::null_mut(); 3]));
        let config = Config { order, superblocks, tenants };
        assert_eq!(unsafe { partmem_boot(&mut *machine, &config) }, DONE);
        assert_eq!(unsafe { partmem_boot(&mut *machine, &config) }, HAS_MACHINE);
        Booted(machine)
    }

    fn tenant(&mut self, number: u32) -> Tenant {
        Tenant { machine: &mut *self.0, number }
    }

    fn line<'a>(&mut self, line: &[u8], buffer: &'a mut [u8]) -> &'a [u8] {
        let mut written = 0;
        let (text, reply) = (line.as_ptr().cast(), buffer.as_mut_ptr().cast());
        assert_eq!(unsafe { partmem_line(&mut *self.0, text, line.len(), reply, buffer.len(), &mut written) }, DONE);
        &buffer[..written]
    }
}

impl Drop for Booted {
    fn drop(&mut self) {
        assert_eq!(unsafe { partmem_end(&mut *self.0) }, DONE);
    }
}

impl Lent {
    /// Returns the bytes, which nobody else uses.
    fn bytes(&mut self) -> &mut [u8] {
        unsafe { std::slice::from_raw_parts_mut(self.at, self.bytes as usize) }
    }
}

fn main() {
    let path = std::env::args().nth(1).expect("two_machines TRACE");
    let (mut first, mut second) = (Booted::new(3, 2, 2), Booted::new(8, 256, 64));
    let (mut buffer, mut out) = (vec![0; 65_792], std::io::stdout());
    let (last, other) = (second.tenant(63), second.tenant(62));
    let (mut slot, mut block) = (Slot::default(), Lent { at: ptr::null_mut(), place: 0, bytes: 0, tenant: 0 });
    assert_eq!(unsafe { partmem_grant(last, &mut slot) }, DONE);
    assert_eq!(unsafe { partmem_alloc(last, 4, &mut block) }, DONE);
    assert!(block.bytes().iter().all(|byte| *byte == 0));
    block.bytes()[..4].copy_from_slice(b"held");
    for line in BufReader::new(std::fs::File::open(path).expect("a trace")).split(b'\n') {
        out.write_all(first.line(&line.expect("a line"), &mut buffer)).expect("standard output");
    }
    assert_eq!(unsafe { partmem_move(last, slot.slot, &mut slot) }, DONE);
    assert_eq!(unsafe { partmem_lend_block(last, block.place, &mut block) }, DONE);
    assert_eq!((block.bytes().len(), &block.bytes()[..4]), (65_536, b"held".as_slice()));
    assert_eq!(unsafe { partmem_free(other, block.place) }, NOT_A_BLOCK);
    assert_eq!(unsafe { partmem_free(last, block.place) }, DONE);
}
