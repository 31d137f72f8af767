//! The command `frames`: answers questions about frames, one a line.

use crate::crc::crc;
use crate::frame::{heard, make, Blocks, Command, Refusal, Request};
use crate::hex;
use crate::questions::answer_all;

// The first byte of what is heard.
const NO_FRAME: u8 = 0x00;
const POLLING: u8 = 0x01;
const READ: u8 = 0x02;
const WRITE: u8 = 0x03;
const DEAFEN: u8 = 0x04;
const NO_COMMAND: u8 = 0x05;

/// What is heard, itself as bytes.
fn shown(heard: Option<Command>) -> Vec<u8> {
    match heard {
        None => vec![NO_FRAME],
        Some(Command::Polling { request, slots }) => vec![POLLING, request, slots],
        Some(Command::Read(request)) => shown_request(READ, request),
        Some(Command::Write(request)) => shown_request(WRITE, request),
        Some(Command::Deafen { identity }) => [&[DEAFEN], identity].concat(),
        Some(Command::None) => vec![NO_COMMAND],
    }
}

fn shown_request(kind: u8, request: Request) -> Vec<u8> {
    let outcome = match request.blocks {
        Ok(blocks) => shown_blocks(blocks),
        Err(Refusal::Error {
            place,
            element,
            flags,
        }) => {
            vec![0x01, place, element, flags[0], flags[1]]
        }
        Err(Refusal::Silence { place }) => vec![0x02, place],
    };
    [&[kind], request.header, &outcome].concat()
}

fn shown_blocks(blocks: Blocks) -> Vec<u8> {
    let mut bytes = vec![0x00, blocks.numbers.len() as u8];
    for number in blocks.numbers {
        bytes.extend(number.to_le_bytes());
    }
    bytes.extend(blocks.data);
    bytes
}

/// `crc`: the check of bytes; `made`: the frame of a packet, after 00h, or 01h
/// if the packet is too long; `slot`: the slot for a draw and the number of the
/// last slot; `hear`: what bytes are heard as.
fn answer(line: &str) -> Option<Vec<u8>> {
    let (word, digits) = line.split_once(' ')?;
    let bytes = match digits {
        "-" => Vec::new(),
        _ => hex::read(digits.as_bytes())?,
    };
    match (word, bytes.as_slice()) {
        ("crc", _) => Some(crc(&bytes).to_be_bytes().to_vec()),
        ("made", _) => Some(make(&bytes).map_or(vec![0x01], |frame| [vec![0x00], frame].concat())),
        ("slot", [draw, slots]) => Some(vec![(u16::from(*draw) % (u16::from(*slots) + 1)) as u8]),
        ("hear", _) => Some(shown(heard(&bytes))),
        _ => None,
    }
}

pub fn run() -> Result<(), String> {
    // The published check of the nine digits: the other answers lean on it.
    if crc(b"123456789") != 0x31C3 {
        return Err("the check of 123456789 is not 31C3".to_string());
    }
    answer_all(answer)
}
