//! The packets that questions about cards bring, right and wrong.

use crate::card::{Card, READ_ONLY, READ_WRITE};
use crate::card_blocks::counter_bytes;
use crate::card_states::draw_mc;
use crate::card_write::tag_text;
use crate::random::Random;

/// Codes of no service of ours: others, the bytes exchanged, a high byte.
const NO_SERVICES: [[u8; 2]; 8] = [
    [0x0A, 0x00],
    [0x08, 0x00],
    [0x49, 0x00],
    [0x00, 0x09],
    [0x00, 0x0B],
    [0x09, 0x01],
    [0x0B, 0x01],
    [0x00, 0x00],
];

/// An element in either form.
fn element(number: u16, random: &mut Random) -> Vec<u8> {
    let [low, high] = number.to_le_bytes();
    // Only the long form has a high byte.
    if high == 0x00 && !random.once_in(3) {
        vec![0x80, low]
    } else {
        vec![0x00, low, high]
    }
}

fn elements(numbers: &[u16], random: &mut Random) -> Vec<Vec<u8>> {
    numbers.iter().map(|&n| element(n, random)).collect()
}

/// A request of any parts, right or wrong.
pub struct Parts {
    pub code: u8,
    pub services: u8,
    pub service: [u8; 2],
    pub count: u8,
    pub list: Vec<Vec<u8>>,
    pub data: Vec<u8>,
}

impl Parts {
    pub fn packet(&self, random: &mut Random) -> Vec<u8> {
        let mut packet = vec![self.code];
        packet.extend(random.bytes(8));
        packet.push(self.services);
        packet.extend(self.service);
        packet.push(self.count);
        packet.extend(self.list.concat());
        packet.extend(&self.data);
        packet
    }
}

pub fn read_parts(numbers: &[u16], random: &mut Random) -> Parts {
    Parts {
        code: 0x06,
        services: 1,
        service: READ_ONLY,
        count: numbers.len() as u8,
        list: elements(numbers, random),
        data: Vec::new(),
    }
}

pub fn write_parts(numbers: &[u16], data: Vec<u8>, random: &mut Random) -> Parts {
    Parts {
        code: 0x08,
        services: 1,
        service: READ_WRITE,
        count: numbers.len() as u8,
        list: elements(numbers, random),
        data,
    }
}

/// Makes the header wrong, or the length, or the service.
pub fn spoil_header(i: usize, parts: &mut Parts, random: &mut Random) {
    match i % 11 {
        0 => parts.services = random.pick(&[0, 2, 3, 0xFF]),
        1 => parts.count = random.pick(&[0, 3, 5, 6, 0xFF]),
        2 => {
            parts.services = 0;
            parts.count = 0;
        }
        // The last element has the long form but no high byte.
        3 => {
            let last = parts.list.last_mut().expect("a list is not empty");
            last[0] &= 0x7F;
            last.truncate(2);
        }
        4 => parts.data.extend(random.bytes(1 + i / 11 % 3)),
        5 => parts.count += 1,
        6 => parts.count -= 1,
        7 => parts.list.push(vec![0x80, 0x00]),
        8 => parts.data.extend([0x00; 16]),
        9 if parts.code == 0x08 => parts.service = READ_ONLY,
        _ => parts.service = random.pick(&NO_SERVICES),
    }
}

/// Makes the access bits or the order bits of some element wrong.
pub fn spoil_elements(i: usize, parts: &mut Parts, random: &mut Random) {
    let access = random.pick(&[0x10, 0x20, 0x40, 0x70]);
    let order = random.pick(&[0x01, 0x02, 0x04, 0x08, 0x0F]);
    // Mostly the last, so that every place is met.
    let last = parts.list.len() - 1;
    let any = usize::from(random.byte()) % parts.list.len();
    let (one, other) = random.pick(&[(last, any), (last, last), (any, last)]);
    match i % 5 {
        0 => parts.list[one][0] |= access,
        1 | 2 => parts.list[one][0] |= order,
        3 => parts.list[one][0] |= access | order,
        _ => {
            parts.list[one][0] |= access;
            parts.list[other][0] |= order;
        }
    }
    if random.once_in(6) {
        parts.service = random.pick(&NO_SERVICES);
    }
}

/// Sixteen bytes to write; of MC and STATE mostly such that a rule looks at.
pub fn block(number: u16, random: &mut Random) -> Vec<u8> {
    let mut block = random.bytes(16);
    match number {
        0x88 => draw_mc(&mut block, random),
        0x92 => {
            block[0] = random.pick(&[0x00, 0x01, 0x01, 0xFF, block[0]]);
            block[8] = random.pick(&[0x00, 0x01, 0x01, 0xFF, block[8]]);
        }
        _ => {}
    }
    block
}

/// The second block of a write: tag, counter and five bytes of no meaning.
fn mac_block(tag: &[u8], counter: u32, random: &mut Random) -> Vec<u8> {
    [tag, &counter_bytes(counter), &random.bytes(5)].concat()
}

/// A block to write and its MAC, made over the counter given; of zeros where RC
/// is not written.
pub fn with_mac(card: &Card, number: u16, counter: u32, random: &mut Random) -> Vec<u8> {
    let block = block(number, random);
    let text = tag_text(counter, number, &block);
    let tag = match &card.session {
        Some(session) => session.write_tag(card.cipher, &text),
        None => [0x00; 8],
    };
    [block, mac_block(&tag, counter, random)].concat()
}
