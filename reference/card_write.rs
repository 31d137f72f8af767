//! Writing a card's blocks.

use crate::card::{wrong_block, Bytes, Card, Done, JournalWrite, Session, CK_CELL};
use crate::card_blocks::{cell_of, counter_block, counter_bytes, takes_writes};
use crate::frame::Refusal;

const RC: u16 = 0x80;
const MC: u16 = 0x88;
const WCNT: u8 = 0x90;
const MAC_A: u16 = 0x91;
const STATE: u16 = 0x92;

const DONE: [u8; 2] = [0x00, 0x00];
const DONE_WITH_WARNING: [u8; 2] = [0xFF, 0x71];

/// What a tag is over when it goes with a block to be written.
pub fn tag_text(counter: u32, number: u16, data: &[u8]) -> Vec<u8> {
    let numbers = [number.to_le_bytes(), MAC_A.to_le_bytes()].concat();
    [&counter_bytes(counter)[..], &[0x00], &numbers, data].concat()
}

fn sixteen(bytes: &[u8]) -> Bytes {
    bytes.try_into().expect("a block has sixteen bytes")
}

impl Card {
    /// One block, or a block and its MAC.
    pub fn write(&mut self, numbers: &[u16], data: &[u8]) -> Result<Done, Refusal> {
        let number = numbers[0];
        let (block, mac) = data.split_at(16);
        self.test_write(numbers)?;
        if numbers.len() == 2 {
            self.test_mac(number, block, mac)?;
        }
        Ok(self.accept(number, sixteen(block)))
    }

    /// The tests that do not look at the data.
    fn test_write(&self, numbers: &[u16]) -> Result<(), Refusal> {
        let number = numbers[0];
        let with_mac = numbers.len() == 2;
        if !self.is_rw(number) || !takes_writes(number, with_mac) {
            return Err(wrong_block(0, 0xA8));
        }
        if with_mac && numbers[1] != MAC_A {
            return Err(wrong_block(1, 0xA8));
        }
        if !with_mac && self.needs_mac(number) || self.bars_writing(number) {
            return Err(wrong_block(0, 0xB1));
        }
        Ok(())
    }

    /// The second block is the tag, the counter, and five bytes of no meaning.
    fn test_mac(&self, number: u16, block: &[u8], mac: &[u8]) -> Result<(), Refusal> {
        let Some(session) = &self.session else {
            return Err(wrong_block(1, 0xB1));
        };
        let counter = self.counter();
        let text = tag_text(counter, number, block);
        if mac[8..11] != counter_bytes(counter)
            || self.at_ceiling()
            || mac[..8] != session.write_tag(self.cipher, &text)
        {
            return Err(wrong_block(1, 0xB2));
        }
        Ok(())
    }

    /// An accepted write: what it changes at once and what it leaves to the journal.
    fn accept(&mut self, number: u16, block: Bytes) -> Done {
        let warns = self.warns(number);
        let journal = self.journal_write(number, &block);
        match number {
            RC => self.session = Some(Session::new(self.cipher, &self.cells[CK_CELL], block)),
            STATE => {
                self.authenticated = block[0] == 0x01;
                self.poll_shut = block[8] == 0x01;
            }
            _ => {}
        }
        Done {
            flags: if warns { DONE_WITH_WARNING } else { DONE },
            data: Vec::new(),
            journal,
        }
    }

    /// STATE has no cell: where its write moves the counter, the counter's own
    /// block is what is stored.
    fn journal_write(&self, number: u16, block: &Bytes) -> Option<JournalWrite> {
        let counter = self.counter_after(number);
        let (number, bytes) = match number {
            STATE if self.state_is_guarded() => (WCNT, counter_block(counter)),
            MC => (MC as u8, self.mc_after(block)),
            _ => {
                cell_of(number)?;
                (number as u8, *block)
            }
        };
        Some(JournalWrite {
            number,
            bytes,
            counter,
        })
    }
}
