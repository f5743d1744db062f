// SPDX-License-Identifier: Apache-2.0
//! Records of a header and key bytes in chunks of one size class.
pub type Slot = u32;
pub const NIL: Slot = !0;

const CHUNK: usize = 16_384;
const BITS: u32 = 9; // 512 slots of 32 bytes

struct Chunk {
    lengths: Vec<u16>,
    bytes: Box<[u8]>,
    shift: u32,
}

pub struct Arena {
    chunks: Vec<Chunk>,
    free: [Vec<Slot>; 10],
}

impl Arena {
    pub fn new() -> Self {
        Arena { chunks: Vec::new(), free: Default::default() }
    }

    pub fn place(&mut self, key: &[u8]) -> Slot {
        let mut class = 0;
        while 32 << class < key.len() {
            class += 1;
        }
        if self.free[class].is_empty() {
            let shift = 5 + class as u32;
            let many = CHUNK >> shift;
            let c = (self.chunks.len() as u32) << BITS;
            self.chunks.push(Chunk {
                lengths: vec![0; many],
                bytes: vec![0; CHUNK].into_boxed_slice(),
                shift,
            });
            self.free[class].extend((0..many as u32).rev().map(|i| c | i));
        }
        let slot = self.free[class].pop().unwrap();
        let c = &mut self.chunks[(slot >> BITS) as usize];
        let i = (slot & ((1 << BITS) - 1)) as usize;
        c.lengths[i] = key.len() as u16;
        let from = i << c.shift;
        c.bytes[from..from + key.len()].copy_from_slice(key);
        slot
    }

    #[inline(always)]
    pub fn key(&self, slot: Slot) -> &[u8] {
        let c = &self.chunks[(slot >> BITS) as usize];
        let i = (slot & ((1 << BITS) - 1)) as usize;
        let from = i << c.shift;
        &c.bytes[from..from + c.lengths[i] as usize]
    }

    pub fn release(&mut self, slot: Slot) {
        let class = self.chunks[(slot >> BITS) as usize].shift - 5;
        self.free[class as usize].push(slot);
    }
}
