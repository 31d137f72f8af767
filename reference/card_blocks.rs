//! The rules of a card's blocks: which there are, where they are stored, and
//! what may be done with them. They depend on the stage and on MC; a change of
//! MC counts at once, while the stage waits for the next start.

use crate::card::{Bytes, Card, MC_CELL, WCNT_CELL};

/// The highest number of a scratch pad or REG.
const REG: u16 = 0x0E;

// From here on an issued card warns of its many writes.
const MANY_WRITES: u32 = 0x00_2710;
const ISSUED_CEILING: u32 = 0xFF_FE00;
const ISSUING_CEILING: u32 = 0xFF_FFFF;

/// Blocks that can be named in a read.
pub fn exists(number: u16) -> bool {
    matches!(number, 0x00..=REG | 0x80..=0x88 | 0x90..=0x92 | 0xA0)
}

/// Blocks that can be named first in a write, alone or with a MAC.
pub fn takes_writes(number: u16, with_mac: bool) -> bool {
    match number {
        0x00..=REG | 0x86 | 0x87 | 0x92 => true,
        0x80 | 0x82 | 0x84 | 0x88 => !with_mac,
        _ => false,
    }
}

/// The cell of a block, if it has one.
pub fn cell_of(number: u16) -> Option<usize> {
    match number {
        0x00..=REG => Some(usize::from(number)),
        0x82 => Some(15),
        0x83 => Some(16),
        0x84 => Some(17),
        0x86 => Some(18),
        0x87 => Some(19),
        0x88 => Some(20),
        0x90 => Some(21),
        _ => None,
    }
}

/// The three bytes of a counter as they are stored, low byte first.
pub fn counter_bytes(counter: u32) -> [u8; 3] {
    let [low, middle, high, _] = counter.to_le_bytes();
    [low, middle, high]
}

/// The block of a counter: its three bytes and zeros.
pub fn counter_block(counter: u32) -> Bytes {
    let mut block = [0; 16];
    block[..3].copy_from_slice(&counter_bytes(counter));
    block
}

impl Card {
    fn mc(&self) -> &Bytes {
        &self.cells[MC_CELL]
    }

    /// The bit of a scratch pad or REG in two bytes of MC, low byte first. Other
    /// blocks have none.
    fn mc_bit(&self, at: usize, number: u16) -> bool {
        let pair = u16::from_le_bytes([self.mc()[at], self.mc()[at + 1]]);
        number <= REG && pair >> number & 1 == 1
    }

    /// Whether a block may be written (RW) or only read (RO).
    pub fn is_rw(&self, number: u16) -> bool {
        match number {
            0x00..=REG => self.mc_bit(0, number),
            0x80 | 0x92 => true,
            0x82 | 0x84 => !self.issued,
            0x86 | 0x87 => !self.issued || self.mc()[5] == 0x01,
            0x88 => !self.issued || self.mc()[1] & 0x80 != 0,
            _ => false,
        }
    }

    /// Whether the block is kept from reading until authentication.
    pub fn bars_reading(&self, number: u16) -> bool {
        self.mc_bit(6, number) && !self.authenticated
    }

    /// Whether the block is kept from writing until authentication.
    pub fn bars_writing(&self, number: u16) -> bool {
        self.mc_bit(8, number) && !self.authenticated
    }

    pub fn needs_mac(&self, number: u16) -> bool {
        match number {
            0x86 | 0x87 => self.issued,
            0x92 => self.state_is_guarded(),
            _ => self.mc_bit(10, number),
        }
    }

    /// A write of STATE then needs a MAC, and moves the counter.
    pub fn state_is_guarded(&self) -> bool {
        self.mc()[12] == 0x01
    }

    /// The counter as it reads: an issued card takes what lies above its ceiling,
    /// which only issuing can store, for 0.
    pub fn counter(&self) -> u32 {
        let cell = &self.cells[WCNT_CELL];
        let stored = u32::from_le_bytes([cell[0], cell[1], cell[2], 0]);
        if self.issued && stored > ISSUED_CEILING {
            0
        } else {
            stored
        }
    }

    pub fn at_ceiling(&self) -> bool {
        let ceiling = if self.issued {
            ISSUED_CEILING
        } else {
            ISSUING_CEILING
        };
        self.counter() >= ceiling
    }

    /// Whether a write of the block is one that moves the counter.
    pub fn raises_counter(&self, number: u16) -> bool {
        match number {
            0x00..=REG | 0x86 | 0x87 | 0x88 => true,
            0x92 => self.state_is_guarded(),
            _ => false,
        }
    }

    pub fn counter_after(&self, number: u16) -> u32 {
        let raised = self.raises_counter(number) && !self.at_ceiling();
        self.counter() + u32::from(raised)
    }

    /// Whether an accepted write of the block is answered with the warning. It is
    /// also given where the ceiling keeps the counter from moving.
    pub fn warns(&self, number: u16) -> bool {
        self.issued && self.raises_counter(number) && self.counter() > MANY_WRITES
    }

    /// What is stored when MC is sent: on an issued card permissions only fall and
    /// restrictions only grow.
    pub fn mc_after(&self, sent: &Bytes) -> Bytes {
        if !self.issued {
            return *sent;
        }
        let mut after = *self.mc();
        for at in 0..2 {
            after[at] &= sent[at];
        }
        for at in 6..12 {
            after[at] |= sent[at];
        }
        if !self.state_is_guarded() {
            after[12] = sent[12];
        }
        after
    }
}
