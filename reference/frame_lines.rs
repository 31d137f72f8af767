//! The command `frame-lines`: questions about frames for the command `frames`
//! and for the verified program, drawn from a fixed start.

use crate::frame::{make, SLOTS};
use crate::hex;
use crate::random::Random;
use crate::vectors::SEED;
use std::io::{self, Write};

const WHOLE: usize = 640;
const SPOILED: usize = 80;

/// The four packets of which every byte of the frame is changed once.
const CHANGED: [usize; 4] = [0, 1, 4, 7];

fn question(word: &str, bytes: &[u8]) -> String {
    format!("{word} {}\n", hex::show(bytes))
}

/// Strings to check, packets to frame (three of them too long), slots.
fn small_questions(random: &mut Random) -> String {
    let mut out = question("crc", b"123456789");
    for i in 0..40 {
        out += &question("crc", &random.bytes(i));
    }
    for i in 0..40 {
        out += &question("made", &random.bytes(i));
    }
    for length in [253, 254, 255, 256, 300] {
        out += &question("made", &random.bytes(length));
    }
    for slots in SLOTS {
        for _ in 0..8 {
            out += &question("slot", &[random.byte(), slots]);
        }
    }
    out
}

fn frame(i: usize, random: &mut Random) -> Vec<u8> {
    make(&draw_packet(i, random)).expect("a drawn packet is short enough")
}

/// Frames as they were made.
fn whole_frames(random: &mut Random) -> String {
    (0..WHOLE)
        .map(|i| question("hear", &frame(i, random)))
        .collect()
}

/// Frames with a byte less at the end, with one more, and with one more that
/// leaves the check right.
fn frames_of_wrong_length(random: &mut Random) -> String {
    let mut out = String::new();
    for i in 0..SPOILED {
        let mut bytes = frame(i, random);
        match i % 4 {
            0 => bytes.truncate(bytes.len() - 1),
            1 => bytes.push(random.byte()),
            2 => bytes.push(0x00),
            _ => bytes[8] ^= random.byte() | 1,
        }
        out += &question("hear", &bytes);
    }
    out
}

/// Frames with one byte changed, each byte in turn.
fn changed_frames(random: &mut Random) -> String {
    let mut out = String::new();
    for i in CHANGED {
        let good = frame(i, random);
        for at in 0..good.len() {
            let mut bytes = good.clone();
            // The lowest bit always changes, so that no change is none.
            bytes[at] ^= random.byte() | 1;
            out += &question("hear", &bytes);
        }
    }
    out
}

fn draw_packet(i: usize, random: &mut Random) -> Vec<u8> {
    match i % 8 {
        0 => draw_polling(random),
        1..=3 => draw_request(false, random),
        4..=6 => draw_request(true, random),
        _ => draw_deafen(random),
    }
}

fn draw_polling(random: &mut Random) -> Vec<u8> {
    let mut packet = vec![0x00];
    packet.push(draw_system(0x88, random));
    packet.push(draw_system(0xB4, random));
    packet.push(random.byte() % 4);
    let pick = usize::from(random.byte() % 8);
    let slots = SLOTS.get(pick).copied();
    packet.push(slots.unwrap_or_else(|| random.byte()));
    if random.once_in(8) {
        packet.push(random.byte());
    }
    packet
}

/// Half of a system code: ours, any, or mostly a wrong one.
fn draw_system(ours: u8, random: &mut Random) -> u8 {
    match random.byte() % 8 {
        0..=3 => ours,
        4..=6 => 0xFF,
        _ => random.byte(),
    }
}

fn draw_request(write: bool, random: &mut Random) -> Vec<u8> {
    let mut packet = vec![if write { 0x08 } else { 0x06 }];
    packet.extend(random.bytes(8));
    let odd = random.once_in(8);
    packet.push(if odd { random.byte() % 3 } else { 1 });
    packet.extend(draw_service(random));
    let count = draw_count(write, random);
    // Now and then the count that is sent is not the one that is kept to.
    let other = random.once_in(16);
    packet.push(if other { random.byte() % 7 } else { count });
    for _ in 0..count {
        packet.extend(draw_element(random));
    }
    if write {
        packet.extend(random.bytes(16 * usize::from(count)));
    }
    match random.byte() % 16 {
        0 => packet.push(random.byte()),
        1 => packet.truncate(packet.len() - 1),
        _ => {}
    }
    packet
}

fn draw_service(random: &mut Random) -> Vec<u8> {
    match random.byte() % 4 {
        0 | 1 => vec![0x0B, 0x00],
        2 => vec![0x09, 0x00],
        _ => random.bytes(2),
    }
}

fn draw_count(write: bool, random: &mut Random) -> u8 {
    let mut count = 1 + random.byte() % 4;
    if random.once_in(8) {
        count = random.byte() % 7;
    }
    // A write may bring fewer blocks, so most are made to have no more.
    if write && !random.once_in(4) {
        count = 1 + count % 2;
    }
    count
}

fn draw_element(random: &mut Random) -> Vec<u8> {
    let short = !random.once_in(2);
    let odd = random.once_in(16);
    // Access bits would hide order bits, so half of the odd ones have none.
    let bits = match (odd, random.once_in(2)) {
        (false, _) => 0x00,
        (true, true) => random.byte() % 16,
        (true, false) => random.byte() % 128,
    };
    let mut element = vec![if short { 0x80 } else { 0x00 } + bits];
    element.push(random.byte());
    if !short {
        let far = random.once_in(8);
        element.push(if far { random.byte() } else { 0x00 });
    }
    element
}

fn draw_deafen(random: &mut Random) -> Vec<u8> {
    let more = usize::from(random.byte() % 3);
    let less = usize::from(random.once_in(8));
    [vec![0x10], random.bytes(8 + more - less)].concat()
}

pub fn run() -> Result<(), String> {
    let mut random = Random::new(SEED + 101);
    let mut out = small_questions(&mut random);
    out += &whole_frames(&mut random);
    out += &frames_of_wrong_length(&mut random);
    out += &changed_frames(&mut random);
    io::stdout()
        .write_all(out.as_bytes())
        .map_err(|error| format!("cannot write: {error}"))
}
