//! The command `card-lines`: questions about cards for the command `cards` and
//! for the verified program, drawn from a fixed start.

use crate::card_states::{state, State};
use crate::cards::DEAF;
use crate::frame::SLOTS;
use crate::hex;
use crate::random::Random;
use crate::vectors::SEED;
use crate::{card_mac_lines, card_read_lines, card_write_lines};
use std::io::{self, Write};

/// A state and a packet for the question of an index.
pub type Draw = fn(usize, &mut Random) -> (State, Vec<u8>);

const GROUPS: [(usize, Draw); 3] = [(80, polling), (40, deafen), (40, no_command)];

fn sometimes_deaf(i: usize, random: &mut Random) -> State {
    let mut state = state(random);
    if i % 5 == 4 {
        state.set(DEAF);
    }
    state
}

fn polling(i: usize, random: &mut Random) -> (State, Vec<u8>) {
    let mut packet = vec![0x00, 0x88, 0xB4];
    for byte in &mut packet[1..] {
        if random.once_in(3) {
            *byte = 0xFF;
        }
    }
    packet.push((i % 3) as u8);
    packet.push(random.pick(&SLOTS));
    match i % 16 {
        0 => packet[1] = random.byte(),
        1 => packet[2] = random.byte(),
        2 => packet[4] = random.byte(),
        3 => packet.push(0x00),
        _ => {}
    }
    (sometimes_deaf(i, random), packet)
}

fn deafen(i: usize, random: &mut Random) -> (State, Vec<u8>) {
    let packet = [vec![0x10], random.bytes(7 + i % 4)].concat();
    (sometimes_deaf(i, random), packet)
}

/// Unknown codes, and requests that are too short.
fn no_command(i: usize, random: &mut Random) -> (State, Vec<u8>) {
    let (code, length) = match i % 5 {
        0 => (0x06, 13),
        1 => (0x08, 29),
        2 => (0x08, 14),
        3 => (random.byte() | 0x01, 14),
        _ => (random.pick(&[0x00, 0x06, 0x08, 0x10]), 0),
    };
    let mut packet = [vec![code], random.bytes(length)].concat();
    // All but the length is as it should be.
    if let Some(header) = packet.get_mut(9..13) {
        header.copy_from_slice(&[0x01, 0x09, 0x00, 0x01]);
    }
    (state(random), packet)
}

pub fn run() -> Result<(), String> {
    let mut random = Random::new(SEED + 102);
    let mut out = String::new();
    let groups = [
        &GROUPS[..],
        &card_read_lines::GROUPS,
        &card_write_lines::GROUPS,
        &card_mac_lines::GROUPS,
    ];
    for (count, draw) in groups.concat() {
        for i in 0..count {
            let (state, packet) = draw(i, &mut random);
            out += &hex::show(&[state.0, packet].concat());
            out.push('\n');
        }
    }
    io::stdout()
        .write_all(out.as_bytes())
        .map_err(|error| format!("cannot write: {error}"))
}
