//! A correct allocator in Rust. It returns the first aligned free block, in the lowest slot that has one. A superblock is zeroed
//! when it is given up. There are no caches.
mod adapter;

use adapter::{Allocator, Refusal, Sizes, FRAME_BYTES, MAX_BYTES};
use std::process::ExitCode;

struct Superblock {
    owner: Option<(u32, u32)>,
    /// For each frame, the block that contains it: the block's first frame and order. `None` if the frame is free.
    blocks: Vec<Option<(usize, u32)>>,
    bytes: Vec<u8>,
}

struct FirstFit {
    frames: usize,
    order: u32,
    all: Vec<Superblock>,
}

impl FirstFit {
    fn new(sizes: Sizes) -> Self {
        let frames = 1 << sizes.order;
        let new = |_| Superblock { owner: None, blocks: vec![None; frames], bytes: vec![0; frames * FRAME_BYTES as usize] };
        FirstFit { frames, order: sizes.order, all: (0..sizes.superblocks).map(new).collect() }
    }

    fn find(&self, owner: Option<(u32, u32)>) -> Option<usize> {
        self.all.iter().position(|of| of.owner == owner)
    }

    fn held(&self, tenant: u32, slot: u32) -> Option<usize> {
        self.find(Some((tenant, slot)))
    }

    fn give_up(&mut self, superblock: usize) {
        let of = &mut self.all[superblock];
        of.owner = None;
        of.blocks.fill(None);
        of.bytes.fill(0);
    }

    /// If one block contains all these bytes, returns its superblock and their offset in it. Refusal: OutOfReach.
    fn reach(&self, tenant: u32, place: u32, length: u32) -> Result<(usize, usize), Refusal> {
        let (frame, offset) = ((place / FRAME_BYTES) as usize, (place % FRAME_BYTES) as usize);
        let superblock = self.held(tenant, (frame / self.frames) as u32).ok_or(Refusal::OutOfReach)?;
        let (first, order) = self.all[superblock].blocks[frame % self.frames].ok_or(Refusal::OutOfReach)?;
        let at = frame % self.frames * FRAME_BYTES as usize + offset;
        let end = (first + (1 << order)) * FRAME_BYTES as usize;
        if at + length as usize > end { Err(Refusal::OutOfReach) } else { Ok((superblock, at)) }
    }
}

impl Allocator for FirstFit {
    fn grant(&mut self, tenant: u32) -> Result<(u32, u32), Refusal> {
        let superblock = self.find(None).ok_or(Refusal::PoolEmpty)?;
        let slot = (0..).find(|&slot| self.held(tenant, slot).is_none()).ok_or(Refusal::PoolEmpty)?;
        self.all[superblock].owner = Some((tenant, slot));
        Ok((slot, superblock as u32))
    }

    fn take_back(&mut self, tenant: u32, slot: u32) -> Result<u32, Refusal> {
        let superblock = self.held(tenant, slot).ok_or(Refusal::NoSlot)?;
        if self.all[superblock].blocks.iter().any(Option::is_some) {
            return Err(Refusal::SlotBusy);
        }
        self.give_up(superblock);
        Ok(superblock as u32)
    }

    fn reset(&mut self, tenant: u32) -> u32 {
        let held: Vec<usize> =
            (0..self.all.len()).filter(|&at| self.all[at].owner.is_some_and(|owner| owner.0 == tenant)).collect();
        held.iter().for_each(|&superblock| self.give_up(superblock));
        held.len() as u32
    }

    fn relocate(&mut self, tenant: u32, slot: u32) -> Result<u32, Refusal> {
        let from = self.held(tenant, slot).ok_or(Refusal::NoSlot)?;
        let to = self.find(None).ok_or(Refusal::PoolEmpty)?;
        self.all.swap(from, to);
        Ok(to as u32)
    }

    fn alloc(&mut self, tenant: u32, order: u32) -> Result<u32, Refusal> {
        if order > self.order {
            return Err(Refusal::BadOrder);
        }
        for slot in 0..self.all.len() as u32 {
            let Some(superblock) = self.held(tenant, slot) else { continue };
            let blocks = &mut self.all[superblock].blocks;
            let is_free = |&first: &usize| blocks[first..first + (1 << order)].iter().all(Option::is_none);
            if let Some(first) = (0..self.frames).step_by(1 << order).find(is_free) {
                blocks[first..first + (1 << order)].fill(Some((first, order)));
                return Ok((slot as usize * self.frames + first) as u32);
            }
        }
        Err(Refusal::NoFrames)
    }

    fn free(&mut self, tenant: u32, frame: u32) -> Result<u32, Refusal> {
        let first = frame as usize % self.frames;
        let superblock = self.held(tenant, frame / self.frames as u32).ok_or(Refusal::NotABlock)?;
        match self.all[superblock].blocks[first] {
            Some((begin, order)) if begin == first => {
                self.all[superblock].blocks[first..first + (1 << order)].fill(None);
                Ok(order)
            }
            _ => Err(Refusal::NotABlock),
        }
    }

    fn read(&mut self, tenant: u32, place: u32, length: u32) -> Result<Vec<u8>, Refusal> {
        if !(1..=MAX_BYTES).contains(&length) {
            return Err(Refusal::BadLength);
        }
        let (superblock, at) = self.reach(tenant, place, length)?;
        Ok(self.all[superblock].bytes[at..at + length as usize].to_vec())
    }

    fn write(&mut self, tenant: u32, place: u32, bytes: &[u8]) -> Result<(), Refusal> {
        let (superblock, at) = self.reach(tenant, place, bytes.len() as u32)?;
        self.all[superblock].bytes[at..at + bytes.len()].copy_from_slice(bytes);
        Ok(())
    }
}

fn main() -> ExitCode {
    adapter::run(FirstFit::new)
}
