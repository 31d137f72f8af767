//! Frames, and what the bytes of one are heard as.

use crate::crc::crc;

/// The preamble and the sync code.
const START: [u8; 8] = [0x00, 0x00, 0x00, 0x00, 0x00, 0x00, 0xB2, 0x4D];

/// The numbers of slots that a polling may ask for (each one less than it is).
pub const SLOTS: [u8; 5] = [0x00, 0x01, 0x03, 0x07, 0x0F];

/// Code, identity, services, service code and block count.
const HEADER: usize = 13;
const BLOCK: usize = 16;

// Where a request fails: in its header or in one of its elements.
const IN_HEADER: u8 = 2;
const IN_ELEMENT: u8 = 3;

/// What a packet asks.
pub enum Command<'a> {
    Polling { request: u8, slots: u8 },
    Read(Request<'a>),
    Write(Request<'a>),
    Deafen { identity: &'a [u8] },
    None,
}

/// A read or a write: its header without the code, and the blocks that it
/// names, unless a test of the header or of the elements fails.
pub struct Request<'a> {
    pub header: &'a [u8],
    pub blocks: Result<Blocks<'a>, Refusal>,
}

pub struct Blocks<'a> {
    pub numbers: Vec<u16>,
    pub data: &'a [u8],
}

/// Why a command is not carried out: by the group of the test that failed and
/// the element at fault, from 1 (0 for none).
#[derive(Clone)]
pub enum Refusal {
    Silence {
        place: u8,
    },
    Error {
        place: u8,
        element: u8,
        flags: [u8; 2],
    },
}

/// Nothing if the length, which counts its own byte, would not fit in a byte.
pub fn make(packet: &[u8]) -> Option<Vec<u8>> {
    let length = u8::try_from(packet.len() + 1).ok()?;
    let body = [&[length], packet].concat();
    let check = crc(&body).to_be_bytes();
    Some([&START[..], &body, &check].concat())
}

/// The packet of a frame. The body is its length byte and the packet, never
/// empty, so that a length of 0 is refused with all the other wrong ones.
fn packet(bytes: &[u8]) -> Option<&[u8]> {
    let (body, check) = bytes.strip_prefix(&START)?.split_last_chunk()?;
    let (&length, packet) = body.split_first()?;
    let exact = body.len() == usize::from(length);
    (exact && crc(body).to_be_bytes() == *check).then_some(packet)
}

/// What the bytes ask; nothing if they are no frame.
pub fn heard(bytes: &[u8]) -> Option<Command<'_>> {
    packet(bytes).map(command)
}

pub fn command(packet: &[u8]) -> Command<'_> {
    match packet {
        &[0x00, 0x88 | 0xFF, 0xB4 | 0xFF, request, slots] if SLOTS.contains(&slots) => {
            Command::Polling { request, slots }
        }
        [0x06, ..] if packet.len() >= HEADER + 2 => Command::Read(request(packet, 4, 0)),
        [0x08, ..] if packet.len() >= HEADER + 2 + BLOCK => {
            Command::Write(request(packet, 2, BLOCK))
        }
        [0x10, ..] if packet.len() >= 9 => Command::Deafen {
            identity: &packet[1..9],
        },
        _ => Command::None,
    }
}

/// A request of at most `most` blocks that brings `size` bytes for each.
fn request(packet: &[u8], most: u8, size: usize) -> Request<'_> {
    let (header, rest) = packet.split_at(HEADER);
    let (services, count) = (header[9], header[12]);
    let blocks = if services != 1 {
        Err(error(IN_HEADER, 0, 0xFF, 0xA1))
    } else if !(1..=most).contains(&count) {
        Err(error(IN_HEADER, 0, 0xFF, 0xA2))
    } else {
        match elements(rest, usize::from(count), size) {
            None => Err(Refusal::Silence { place: IN_HEADER }),
            Some((list, data)) => numbers(&list).map(|numbers| Blocks { numbers, data }),
        }
    };
    Request {
        header: &header[1..],
        blocks,
    }
}

fn error(place: u8, element: u8, flag1: u8, flag2: u8) -> Refusal {
    let flags = [flag1, flag2];
    Refusal::Error {
        place,
        element,
        flags,
    }
}

/// The refusal for the element at an index from 0, whose bit is the first flag.
pub fn error_at(place: u8, index: usize, flag2: u8) -> Refusal {
    error(place, index as u8 + 1, 1 << index, flag2)
}

/// The elements and the data after them; nothing if the length is not exact.
fn elements(mut rest: &[u8], count: usize, size: usize) -> Option<(Vec<&[u8]>, &[u8])> {
    let mut list = Vec::new();
    for _ in 0..count {
        let length = if rest.first()? & 0x80 == 0 { 3 } else { 2 };
        let (element, after) = rest.split_at_checked(length)?;
        list.push(element);
        rest = after;
    }
    (rest.len() == count * size).then_some((list, rest))
}

/// The block numbers, or the first element that is wrong.
fn numbers(list: &[&[u8]]) -> Result<Vec<u16>, Refusal> {
    let mut numbers = Vec::new();
    for (index, element) in list.iter().enumerate() {
        if element[0] & 0x70 != 0 {
            return Err(error_at(IN_ELEMENT, index, 0xA7));
        }
        if element[0] & 0x0F != 0 {
            return Err(error_at(IN_ELEMENT, index, 0xA3));
        }
        // The short form has no high byte.
        let high = element.get(2).copied().unwrap_or(0);
        numbers.push(u16::from_le_bytes([element[1], high]));
    }
    Ok(numbers)
}
