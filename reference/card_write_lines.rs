//! Questions about writes, mostly of one block.

use crate::card_lines::Draw;
use crate::card_mac_lines::{two, WITH_MAC};
use crate::card_packets::{block, spoil_elements, spoil_header, write_parts};
use crate::card_states::{state, willing_state, State, COUNTERS};
use crate::cards::{AUTHENTICATED, DEAF, ISSUED, RC_WRITTEN, SOUND};
use crate::random::Random;

pub const GROUPS: [(usize, Draw); 8] = [
    (222, one_block),
    (45, issued_mc),
    (110, wrong_first),
    (120, restricted),
    (110, wrong_header),
    (70, wrong_elements),
    (30, unsound),
    (20, deaf),
];

/// Blocks that can be written alone, some oftener than others.
pub const ALONE: [u16; 37] = [
    0x00, 0x88, 0x01, 0x92, 0x02, 0x80, 0x03, 0x88, 0x04, 0x86, 0x05, 0x82, 0x06, 0x88, 0x07, 0x92,
    0x08, 0x80, 0x09, 0x88, 0x0A, 0x87, 0x0B, 0x84, 0x0C, 0x92, 0x0D, 0x88, 0x0E, 0x86, 0x82, 0x87,
    0x84, 0x88, 0x92, 0x80, 0x0E,
];

/// Blocks that are never written, numbers of none, and blocks with a high byte.
pub const NEVER: [u16; 17] = [
    0x0F, 0x10, 0x7F, 0x81, 0x83, 0x85, 0x89, 0x8F, 0x90, 0x91, 0x93, 0xA0, 0xFF, 0x0105, 0x0180,
    0x0192, 0xFF00,
];

pub fn one(number: u16, random: &mut Random) -> Vec<u8> {
    let data = block(number, random);
    write_parts(&[number], data, random).packet(random)
}

/// Every block in turn, mostly where no MAC is asked for.
fn one_block(i: usize, random: &mut Random) -> (State, Vec<u8>) {
    let number = ALONE[i % ALONE.len()];
    let mut state = willing_state(random);
    state.set_counter(COUNTERS[i % COUNTERS.len()]);
    if !random.once_in(6) {
        state.mc()[10..12].fill(0x00);
    }
    if number == 0x92 && !random.once_in(4) {
        state.mc()[12] &= 0xFE;
    }
    // With this bit an issued card takes MC.
    if number == 0x88 && random.once_in(3) {
        state.mc()[1] &= 0x7F;
    }
    // Some blocks take a write alone only while issuing.
    if matches!(number, 0x82 | 0x84 | 0x86 | 0x87) && !random.once_in(3) {
        state.clear(ISSUED);
    }
    (state, one(number, random))
}

/// MC sent to an issued card that takes it. The byte about STATE is stored and
/// sent at each pair of values in turn.
fn issued_mc(i: usize, random: &mut Random) -> (State, Vec<u8>) {
    let values = [0x00, 0x01, 0xFE];
    let mut state = willing_state(random);
    state.set(ISSUED);
    state.mc()[1] |= 0x80;
    state.mc()[12] = values[i % 3];
    let mut sent = block(0x88, random);
    sent[12] = values[i / 3 % 3];
    let packet = write_parts(&[0x88], sent, random).packet(random);
    (state, packet)
}

/// Blocks that are RO, or no block to write, alone and with a MAC.
fn wrong_first(i: usize, random: &mut Random) -> (State, Vec<u8>) {
    let mut state = state(random);
    let number = match i % 5 {
        0 | 1 => NEVER[i / 2 % NEVER.len()],
        2 => random.pick(&ALONE),
        // Not with a MAC, even while they may be written.
        3 => random.pick(&[0x80, 0x80, 0x82, 0x84, 0x88]),
        _ => {
            state.mc()[..2].fill(0x00);
            u16::from(random.byte() % 15)
        }
    };
    let packet = if i % 5 == 3 || i % 3 == 0 {
        two(&state, number, random)
    } else {
        one(number, random)
    };
    (state, packet)
}

/// Blocks of which MC restricts some, or asks a MAC for them.
fn restricted(i: usize, random: &mut Random) -> (State, Vec<u8>) {
    let mut state = willing_state(random);
    if !random.once_in(4) {
        state.clear(AUTHENTICATED);
    }
    for at in 8..12 {
        let (any, bit) = (random.byte(), 1 << (random.byte() % 8));
        state.mc()[at] = random.pick(&[0x00, 0x00, bit, !bit, 0xFF, any]);
    }
    if random.once_in(8) {
        state.clear(RC_WRITTEN);
    }
    let number = match i % 4 {
        0 => random.pick(&[0x86, 0x87, 0x92, 0x92]),
        _ => u16::from(random.byte() % 15),
    };
    let packet = if i % 3 == 0 {
        two(&state, number, random)
    } else {
        one(number, random)
    };
    (state, packet)
}

fn wrong_header(i: usize, random: &mut Random) -> (State, Vec<u8>) {
    let number = random.pick(&ALONE);
    let data = block(number, random);
    let mut parts = write_parts(&[number], data, random);
    if i % 3 == 0 {
        let data = [block(number, random), random.bytes(16)].concat();
        parts = write_parts(&[number, 0x91], data, random);
    }
    spoil_header(i, &mut parts, random);
    (state(random), parts.packet(random))
}

fn wrong_elements(i: usize, random: &mut Random) -> (State, Vec<u8>) {
    let numbers = [random.pick(&ALONE), 0x91];
    let count = 1 + i % 2;
    let data = random.bytes(16 * count);
    let mut parts = write_parts(&numbers[..count], data, random);
    spoil_elements(i / 2, &mut parts, random);
    (state(random), parts.packet(random))
}

fn unsound(i: usize, random: &mut Random) -> (State, Vec<u8>) {
    let mut state = willing_state(random);
    state.clear(SOUND);
    let packet = match i % 3 {
        0 => one(random.pick(&[0xA0, 0x0F, 0x90]), random),
        1 => one(random.pick(&ALONE), random),
        _ => two(&state, random.pick(&WITH_MAC), random),
    };
    (state, packet)
}

fn deaf(i: usize, random: &mut Random) -> (State, Vec<u8>) {
    let (mut state, packet) = one_block(i, random);
    state.set(DEAF);
    (state, packet)
}
