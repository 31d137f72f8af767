//! Reading a card's blocks.

use crate::card::{wrong_block, Bytes, Card, Done, Session};
use crate::card_blocks::{cell_of, counter_block, exists};
use crate::frame::Refusal;

const MAC: u16 = 0x81;
const MAC_A: u16 = 0x91;

fn is_tag(number: u16) -> bool {
    number == MAC || number == MAC_A
}

/// Sixteen bytes that start with those given and go on with zeros.
fn filled(start: &[u8]) -> Bytes {
    let mut bytes = [0; 16];
    bytes[..start.len()].copy_from_slice(start);
    bytes
}

/// What MAC_A has before the data: the numbers of the whole list, its own and
/// later ones too, each followed by 00h, then FFh up to eight bytes.
fn number_list(numbers: &[u16]) -> Vec<u8> {
    let mut list: Vec<u8> = numbers.iter().flat_map(|n| n.to_le_bytes()).collect();
    list.resize(8, 0xFF);
    list
}

impl Card {
    /// All blocks are tested before any is read.
    pub fn read(&self, numbers: &[u16], under_rw: bool) -> Result<Done, Refusal> {
        for index in 0..numbers.len() {
            self.test_read(numbers, index, under_rw)
                .map_err(|flag2| wrong_block(index, flag2))?;
        }
        Ok(Done {
            flags: [0x00, 0x00],
            data: [&[numbers.len() as u8], &self.sent(numbers)[..]].concat(),
            journal: None,
        })
    }

    /// The second flag of the refusal if the block at an index may not be read.
    fn test_read(&self, numbers: &[u16], index: usize, under_rw: bool) -> Result<(), u8> {
        let number = numbers[index];
        let before = &numbers[..index];
        if !exists(number) || under_rw && !self.is_rw(number) {
            return Err(0xA8);
        }
        if is_tag(number) {
            // No tag comes first, and a list holds one kind of tag only.
            if before.is_empty() || before.iter().any(|&n| is_tag(n) && n != number) {
                return Err(0xB0);
            }
            if self.session.is_none() {
                return Err(0xB1);
            }
        }
        if self.bars_reading(number) {
            return Err(0xB1);
        }
        Ok(())
    }

    /// The bytes of all blocks of a list that passed its tests. A tag is over all
    /// that stands before it, an earlier tag included.
    fn sent(&self, numbers: &[u16]) -> Vec<u8> {
        let mut sent = Vec::new();
        for &number in numbers {
            let block = match (&self.session, number) {
                (Some(session), MAC) => self.tag(session, &[], &sent),
                (Some(session), MAC_A) => self.tag(session, &number_list(numbers), &sent),
                _ => self.block(number),
            };
            sent.extend(block);
        }
        sent
    }

    fn tag(&self, session: &Session, head: &[u8], sent: &[u8]) -> Bytes {
        filled(&session.read_tag(self.cipher, &[head, sent].concat()))
    }

    /// A block that is no tag, as it reads.
    fn block(&self, number: u16) -> Bytes {
        match (number, cell_of(number)) {
            // The keys are never shown.
            (0x80 | 0x87, _) => [0; 16],
            (0x85, _) => filled(&[0x88, 0xB4]),
            (0x90, _) => counter_block(self.counter()),
            (0x92, _) => self.state(),
            (0xA0, _) => filled(&[if self.sound { 0x00 } else { 0xFF }]),
            (_, Some(cell)) => self.cells[cell],
            (_, None) => panic!("block {number:02X} was not tested"),
        }
    }

    fn state(&self) -> Bytes {
        let mut state = [0; 16];
        state[0] = u8::from(self.authenticated);
        state[8] = u8::from(self.poll_shut);
        state
    }
}
