//! Connects your own allocator in Rust to the test: implement [`Allocator`] and call [`run`] in `main`. The program then answers
//! the lines of docs/traces.md.
//!
//! ```sh
//! rustc -O -o mine mine.rs && conformance/check --pages ./mine
//! ```
//!
//! `mine.rs` includes this file by `#[path = "conformance/adapter.rs"] mod adapter;`.
//!
//! A superblock has `2^order` frames of [`FRAME_BYTES`] bytes. Slot `u` of a tenant has `2^order` frames, of which the first is
//! frame `u * 2^order`. Each byte of a tenant has a number, its place: frame `f` has `FRAME_BYTES` places, of which the first is
//! `f * FRAME_BYTES`. A grant may choose any slot below 65536 that the tenant does not hold, if all its places are below
//! 2^32.
//!
//! The tenant that is passed always exists. A write has 1 to [`MAX_BYTES`] bytes, a pattern 1 to 16. All other numbers may be
//! any 32-bit numbers. The refusals of a function are listed in the order in which it has to test them. A function that refuses
//! changes nothing and returns the first refusal that applies.
#![allow(dead_code)]

use std::io::{self, BufRead, Write};
use std::process::ExitCode;

pub const FRAME_BYTES: u32 = 4096;
pub const MAX_BYTES: u32 = 64;
const MAX_LINE: usize = 255;
const MAX_PATTERN: usize = 16;

#[derive(Clone, Copy, Debug, PartialEq, Eq)]
pub enum Refusal {
    NoFrames = 1,
    BadOrder,
    NotABlock,
    OutOfReach,
    BadLength,
    BadSize,
    BadAlign,
    NoCacheSlot,
    NoCache,
    CacheInUse,
    NotAnObject,
    NoTenant,
    PoolEmpty,
    NoSlot,
    SlotBusy,
}

/// The sizes of a machine, whose superblocks have `2^order` frames. At boot nobody owns a superblock.
#[derive(Clone, Copy, Debug, Default)]
pub struct Sizes {
    pub order: u32,
    pub superblocks: u32,
    pub tenants: u32,
}

pub trait Allocator {
    /// Grants the tenant a superblock that nobody owns, in a slot that the tenant does not hold. All bytes of the superblock read
    /// as zero. Returns the slot and the superblock. Refusal: PoolEmpty.
    fn grant(&mut self, tenant: u32) -> Result<(u32, u32), Refusal>;
    /// Takes back a slot that has no taken frames. Returns its superblock. Refusals: NoSlot, SlotBusy.
    fn take_back(&mut self, tenant: u32, slot: u32) -> Result<u32, Refusal>;
    /// Takes back all that the tenant has. Returns how many superblocks it had. A reset is never refused.
    fn reset(&mut self, tenant: u32) -> u32;
    /// Moves the slot, with all its bytes, to a superblock that nobody owns. Returns that superblock. Refusals: NoSlot,
    /// PoolEmpty.
    fn relocate(&mut self, tenant: u32, slot: u32) -> Result<u32, Refusal>;
    /// Allocates a block of `2^order` frames. Returns its first frame, a multiple of `2^order`. Refusals: BadOrder if a slot has
    /// fewer frames, then NoFrames.
    fn alloc(&mut self, tenant: u32, order: u32) -> Result<u32, Refusal>;
    /// Frees the block that begins at the frame. Returns its order. Refusal: NotABlock.
    fn free(&mut self, tenant: u32, frame: u32) -> Result<u32, Refusal>;
    /// Returns `length` bytes that all lie in one block or object of the tenant. Refusals: BadLength unless the length is 1 to
    /// [`MAX_BYTES`], then OutOfReach.
    fn read(&mut self, tenant: u32, place: u32, length: u32) -> Result<Vec<u8>, Refusal>;
    /// Writes 1 to [`MAX_BYTES`] bytes that all lie in one block or object of the tenant. Refusal: OutOfReach.
    fn write(&mut self, tenant: u32, place: u32, bytes: &[u8]) -> Result<(), Refusal>;
    /// Returns your caches, or `None` if your allocator has none. If it returns `None`, the commands cache, destroy, take, give,
    /// reap and report end the program, so test it with --pages.
    fn caches(&mut self) -> Option<&mut dyn Caches> {
        None
    }
}

/// The numbers in the reply to a new cache: the cache's number, the bytes from one object to the next, the order of a slab, the
/// objects in a slab, and the number of colours.
#[derive(Clone, Copy, Debug)]
pub struct Layout {
    pub number: u32,
    pub chunk: u32,
    pub order: u32,
    pub objects: u32,
    pub colours: u32,
}

/// The row of a cache in a report: its number, how many of its slabs are full, partial and empty, and how many of its objects are
/// live.
#[derive(Clone, Copy, Debug)]
pub struct CacheRow {
    pub number: u32,
    pub full: u32,
    pub partial: u32,
    pub empty: u32,
    pub live: u32,
}

/// The figures of a report: for each order, beginning with 0, how many blocks are free and how many are taken; and the rows of
/// the caches, in the order of the caches' numbers.
#[derive(Clone, Debug, Default)]
pub struct Figures {
    pub orders: Vec<(u32, u32)>,
    pub caches: Vec<CacheRow>,
}

pub trait Caches {
    /// Makes a cache. Returns its layout. Refusals: BadSize, BadAlign, NoCacheSlot.
    fn make(&mut self, tenant: u32, size: u32, align: u32, pattern: &[u8]) -> Result<Layout, Refusal>;
    /// Destroys a cache. Returns how many frames that freed. Refusals: NoCache, CacheInUse.
    fn destroy(&mut self, tenant: u32, cache: u32) -> Result<u32, Refusal>;
    /// Takes an object. Returns its first place. Refusals: NoCache, NoFrames.
    fn take(&mut self, tenant: u32, cache: u32) -> Result<u32, Refusal>;
    /// Gives back the object that begins at the place. Refusals: NoCache, NotAnObject.
    fn give(&mut self, tenant: u32, cache: u32, place: u32) -> Result<(), Refusal>;
    /// Frees empty slabs. Returns how many frames they had.
    fn reap(&mut self, tenant: u32) -> u32;
    fn report(&mut self, tenant: u32) -> Figures;
}

/// For each superblock, the tenant that owns it and the tenant's slot, according to the replies so far; `None` if nobody owns it.
type Owners = Vec<Option<(u32, u32)>>;

enum Argument {
    Number(u32),
    Bytes(Vec<u8>),
}

struct Adapter<A> {
    allocator: A,
    sizes: Sizes,
    owners: Owners,
}

/// Boots an allocator with the sizes on the command line, and answers each line of standard input before it reads the next.
pub fn run<A: Allocator>(boot: impl FnOnce(Sizes) -> A) -> ExitCode {
    let Some(sizes) = sizes() else {
        eprintln!("usage: PROGRAM --order 3..8 --superblocks 1..256 --tenants 1..64 < TRACE");
        return ExitCode::from(2);
    };
    let mut adapter = Adapter { allocator: boot(sizes), sizes, owners: vec![None; sizes.superblocks as usize] };
    let (mut input, mut line) = (io::stdin().lock(), Vec::new());
    while input.read_until(b'\n', &mut line).is_ok_and(|read| read > 0) {
        let text = line.strip_suffix(b"\n").unwrap_or(&line);
        let reply = adapter.answer(text.strip_suffix(b"\r").unwrap_or(text));
        let mut output = io::stdout().lock();
        if output.write_all(reply.as_bytes()).and_then(|()| output.flush()).is_err() {
            return ExitCode::FAILURE;
        }
        line.clear();
    }
    ExitCode::SUCCESS
}

fn sizes() -> Option<Sizes> {
    let words: Vec<String> = std::env::args().skip(1).collect();
    let mut sizes = Sizes::default();
    for pair in words.chunks_exact(2) {
        let size = match pair[0].as_str() {
            "--order" => &mut sizes.order,
            "--superblocks" => &mut sizes.superblocks,
            _ => &mut sizes.tenants,
        };
        *size = pair[1].parse().ok()?;
    }
    let fits = (3..=8).contains(&sizes.order) && (1..=256).contains(&sizes.superblocks) && (1..=64).contains(&sizes.tenants);
    fits.then_some(sizes)
}

fn number(word: &[u8]) -> Option<u32> {
    let is_number = (1..=10).contains(&word.len()) && word.iter().all(u8::is_ascii_digit);
    std::str::from_utf8(word).ok().filter(|_| is_number)?.parse().ok()
}

fn hex(word: &[u8], most: usize) -> Option<Vec<u8>> {
    let is_hex = (1..=2 * most).contains(&word.len()) && word.len() % 2 == 0 && word.iter().all(u8::is_ascii_hexdigit);
    let text = std::str::from_utf8(word).ok().filter(|_| is_hex)?;
    (0..text.len()).step_by(2).map(|at| u8::from_str_radix(&text[at..at + 2], 16).ok()).collect()
}

/// Returns the forms of a command's arguments, a letter for each: n for a number, b for up to 64 bytes, p for a pattern. Returns
/// `None` if there is no such command.
fn forms(is_admin: bool, command: &[u8]) -> Option<&'static str> {
    Some(match (is_admin, command) {
        (true, b"grant" | b"reset") | (false, b"alloc" | b"free" | b"take" | b"destroy") => "n",
        (true, b"takeback" | b"move") | (false, b"read" | b"give") => "nn",
        (true, b"pool") | (false, b"reap" | b"report") => "",
        (false, b"write") => "nb",
        (false, b"cache") => "nnp",
        _ => return None,
    })
}

fn arguments(forms: &str, words: &[&[u8]]) -> Result<Vec<Argument>, &'static str> {
    if words.len() != forms.len() {
        return Err("Words");
    }
    let read = |(form, word): (char, &&[u8])| match form {
        'n' => number(word).map(Argument::Number).ok_or("Number"),
        _ => hex(word, if form == 'b' { MAX_BYTES as usize } else { MAX_PATTERN }).map(Argument::Bytes).ok_or("Hex"),
    };
    forms.chars().zip(words).map(read).collect()
}

fn told(result: Result<String, Refusal>) -> String {
    result.unwrap_or_else(|refusal| format!("refused {} {refusal:?}", refusal as u32))
}

impl<A: Allocator> Adapter<A> {
    /// Returns the reply to a line. The cases of docs/traces.md are tested in their order.
    fn answer(&mut self, line: &[u8]) -> String {
        if line.len() > MAX_LINE {
            return "!> fault Long\n".into();
        }
        let words: Vec<&[u8]> = line.split(|byte| matches!(byte, b' ' | b'\t')).filter(|word| !word.is_empty()).collect();
        match words.first() {
            None | Some([b'#', ..]) => String::new(),
            Some(first) => self.reply(first, &words[1..]).unwrap_or_else(|fault| format!("!> fault {fault}\n")),
        }
    }

    fn reply(&mut self, first: &[u8], words: &[&[u8]]) -> Result<String, &'static str> {
        let is_admin = first == b"admin";
        let actor = number(first);
        if !is_admin && actor.is_none() {
            return Err(if first[0].is_ascii_digit() { "Number" } else { "Unknown" });
        }
        let (command, rest) = words.split_first().ok_or("Words")?;
        let arguments = arguments(forms(is_admin, command).ok_or("Unknown")?, rest)?;
        let command = std::str::from_utf8(command).map_err(|_| "Unknown")?;
        Ok(match actor {
            Some(tenant) if tenant >= self.sizes.tenants => format!("!> {}\n", told(Err(Refusal::NoTenant))),
            Some(tenant) => format!("{tenant}> {}\n", told(self.command(tenant, command, &arguments))),
            None => format!("admin> {}\n", told(self.administer(command, &arguments))),
        })
    }

    fn administer(&mut self, command: &str, arguments: &[Argument]) -> Result<String, Refusal> {
        match (command, arguments) {
            ("pool", _) => Ok(self.pool()),
            (_, [Argument::Number(tenant), ..]) if *tenant >= self.sizes.tenants => Err(Refusal::NoTenant),
            ("grant", &[Argument::Number(tenant)]) => {
                let (slot, superblock) = self.allocator.grant(tenant)?;
                self.own(superblock, tenant, slot);
                Ok(format!("granted {tenant} slot {slot} superblock {superblock}"))
            }
            ("takeback", &[Argument::Number(tenant), Argument::Number(slot)]) => {
                let superblock = self.allocator.take_back(tenant, slot)?;
                self.disown(|owner| owner == (tenant, slot));
                Ok(format!("taken superblock {superblock}"))
            }
            ("move", &[Argument::Number(tenant), Argument::Number(slot)]) => {
                let superblock = self.allocator.relocate(tenant, slot)?;
                self.disown(|owner| owner == (tenant, slot));
                self.own(superblock, tenant, slot);
                Ok(format!("moved {tenant} slot {slot} superblock {superblock}"))
            }
            (_, &[Argument::Number(tenant), ..]) => {
                let superblocks = self.allocator.reset(tenant);
                self.disown(|owner| owner.0 == tenant);
                Ok(format!("reset {tenant} superblocks {superblocks}"))
            }
            _ => unreachable!("the arguments have the command's forms"),
        }
    }

    fn own(&mut self, superblock: u32, tenant: u32, slot: u32) {
        self.owners[superblock as usize] = Some((tenant, slot));
    }

    fn disown(&mut self, is_given_up: impl Fn((u32, u32)) -> bool) {
        self.owners.iter_mut().filter(|owner| owner.is_some_and(&is_given_up)).for_each(|owner| *owner = None);
    }

    fn pool(&self) -> String {
        let free = self.owners.iter().filter(|owner| owner.is_none()).count();
        let rows = self.owners.iter().enumerate().map(|(number, owner)| match owner {
            Some((tenant, slot)) => format!("\nadmin> superblock {number} tenant {tenant} slot {slot}"),
            None => format!("\nadmin> superblock {number} free"),
        });
        format!("pool free {free} of {}{}", self.owners.len(), rows.collect::<String>())
    }

    fn command(&mut self, tenant: u32, command: &str, arguments: &[Argument]) -> Result<String, Refusal> {
        match (command, arguments) {
            ("alloc", &[Argument::Number(order)]) => Ok(format!("frame {}", self.allocator.alloc(tenant, order)?)),
            ("free", &[Argument::Number(frame)]) => Ok(format!("freed {}", self.allocator.free(tenant, frame)?)),
            ("read", &[Argument::Number(place), Argument::Number(length)]) => {
                let bytes = self.allocator.read(tenant, place, length)?;
                Ok(format!("bytes {}", bytes.iter().map(|byte| format!("{byte:02x}")).collect::<String>()))
            }
            ("write", [Argument::Number(place), Argument::Bytes(bytes)]) => {
                self.allocator.write(tenant, *place, bytes)?;
                Ok(format!("written {}", bytes.len()))
            }
            ("report", _) => Ok(self.report(tenant)),
            _ => self.of_caches(tenant, command, arguments),
        }
    }

    fn caches(&mut self) -> &mut dyn Caches {
        self.allocator.caches().unwrap_or_else(|| {
            eprintln!("there are no caches");
            std::process::exit(1)
        })
    }

    fn of_caches(&mut self, tenant: u32, command: &str, arguments: &[Argument]) -> Result<String, Refusal> {
        let caches = self.caches();
        Ok(match (command, arguments) {
            ("cache", [Argument::Number(size), Argument::Number(align), Argument::Bytes(pattern)]) => {
                let Layout { number, chunk, order, objects, colours } = caches.make(tenant, *size, *align, pattern)?;
                format!("cache {number} chunk {chunk} order {order} objects {objects} colours {colours}")
            }
            ("take", &[Argument::Number(cache)]) => format!("object {}", caches.take(tenant, cache)?),
            ("destroy", &[Argument::Number(cache)]) => format!("destroyed {}", caches.destroy(tenant, cache)?),
            ("give", &[Argument::Number(cache), Argument::Number(place)]) => {
                caches.give(tenant, cache, place)?;
                "given".into()
            }
            _ => format!("reaped {}", caches.reap(tenant)),
        })
    }

    fn report(&mut self, tenant: u32) -> String {
        let figures = self.caches().report(tenant);
        let held = self.owners.iter().flatten().filter(|owner| owner.0 == tenant).count() << self.sizes.order;
        let free: usize = figures.orders.iter().enumerate().map(|(order, row)| (row.0 as usize) << order).sum();
        let greatest = figures.orders.iter().rposition(|row| row.0 > 0);
        let split = greatest.map_or(0, |order| (1000 * (free - (1 << order))).div_ceil(free));
        let top = greatest.map_or("none".into(), |order| order.to_string());
        let mut text = format!("frames {held} live {} free {free} top {top} split {split}", held - free);
        for (order, (free, taken)) in figures.orders.iter().enumerate() {
            text += &format!("\n{tenant}> order {order} free {free} taken {taken}");
        }
        for CacheRow { number, full, partial, empty, live } in &figures.caches {
            text += &format!("\n{tenant}> cache {number} full {full} partial {partial} empty {empty} live {live}");
        }
        text
    }
}
