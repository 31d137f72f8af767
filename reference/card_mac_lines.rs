//! Questions about writes of two blocks, the second of them MAC_A.

use crate::card_blocks::counter_bytes;
use crate::card_lines::Draw;
use crate::card_packets::{with_mac, write_parts};
use crate::card_states::{willing_state, State, COUNTERS};
use crate::card_write::tag_text;
use crate::card_write_lines::{one, ALONE, NEVER};
use crate::cards::{ISSUED, RC_WRITTEN};
use crate::random::Random;

pub const GROUPS: [(usize, Draw); 5] = [
    (260, two_blocks),
    (24, at_ceiling),
    (132, wrong_mac),
    (50, wrong_second),
    (40, without_rc),
];

/// Blocks that can be written with a MAC.
pub const WITH_MAC: [u16; 27] = [
    0x00, 0x86, 0x01, 0x92, 0x02, 0x87, 0x03, 0x92, 0x04, 0x86, 0x05, 0x92, 0x06, 0x87, 0x07, 0x92,
    0x08, 0x86, 0x09, 0x0A, 0x87, 0x0B, 0x0C, 0x0D, 0x0E, 0x92, 0x0E,
];

/// A block and its right MAC.
pub fn two(state: &State, number: u16, random: &mut Random) -> Vec<u8> {
    let card = state.card();
    let data = with_mac(&card, number, card.counter(), random);
    write_parts(&[number, 0x91], data, random).packet(random)
}

/// Right ones, at every counter in turn.
fn two_blocks(i: usize, random: &mut Random) -> (State, Vec<u8>) {
    let number = WITH_MAC[i % WITH_MAC.len()];
    let mut state = willing_state(random);
    state.set_counter(COUNTERS[i % COUNTERS.len()]);
    if random.once_in(2) {
        state.mc()[12] = 0x01;
    }
    if random.once_in(3) {
        state.set(ISSUED);
    }
    let packet = two(&state, number, random);
    (state, packet)
}

/// A right MAC at the last counter of each stage.
fn at_ceiling(i: usize, random: &mut Random) -> (State, Vec<u8>) {
    let mut state = willing_state(random);
    if i % 2 == 0 {
        state.set(ISSUED);
        state.set_counter(0xFF_FE00);
    } else {
        state.clear(ISSUED);
        state.set_counter(0xFF_FFFF);
    }
    let packet = two(&state, random.pick(&WITH_MAC), random);
    (state, packet)
}

/// A tag, or a counter, that is not the right one.
fn wrong_mac(i: usize, random: &mut Random) -> (State, Vec<u8>) {
    let number = random.pick(&WITH_MAC);
    let mut state = willing_state(random);
    if i % 11 < 2 {
        state.set(ISSUED);
        state.set_counter(random.pick(&[0xFFFE01, 0xFFFE02, 0xFFFFFF]));
    }
    let data = wrong_mac_data(i, &state, number, random);
    let packet = write_parts(&[number, 0x91], data, random).packet(random);
    (state, packet)
}

fn wrong_mac_data(i: usize, state: &State, number: u16, random: &mut Random) -> Vec<u8> {
    let card = state.card();
    let counter = card.counter();
    let mut data = with_mac(&card, number, counter, random);
    let session = card.session.as_ref().expect("a willing card has RC");
    match i % 11 {
        // The counter as it is stored, with a tag over it.
        0 => return with_mac(&card, number, state.stored_counter(), random),
        // The same, with the right tag.
        1 => data[24..27].copy_from_slice(&counter_bytes(state.stored_counter())),
        // The counter before and after, with a tag over it.
        2 => return with_mac(&card, number, counter.wrapping_sub(1) & 0xFF_FFFF, random),
        3 => return with_mac(&card, number, (counter + 1) & 0xFF_FFFF, random),
        // One bit of the tag, the counter or the data.
        4 | 5 => data[16 + random.byte() as usize % 8] ^= 1 << (random.byte() % 8),
        6 | 7 => data[24 + random.byte() as usize % 3] ^= 1 << (random.byte() % 8),
        8 => data[random.byte() as usize % 16] ^= 1 << (random.byte() % 8),
        // The order of keys that is for reading.
        9 => {
            let text = tag_text(counter, number, &data[..16]);
            data[16..24].copy_from_slice(&session.read_tag(card.cipher, &text));
        }
        // The tag of another block.
        _ => {
            let text = tag_text(counter, number ^ 0x01, &data[..16]);
            data[16..24].copy_from_slice(&session.write_tag(card.cipher, &text));
        }
    }
    data
}

/// Another block than MAC_A second; now and then a first one that is wrong too.
fn wrong_second(i: usize, random: &mut Random) -> (State, Vec<u8>) {
    let state = willing_state(random);
    let mut first = random.pick(&WITH_MAC);
    if i % 8 == 0 {
        first = random.pick(&ALONE);
    }
    let second = match i % 5 {
        0 => 0x81,
        1 => 0x0191,
        2 => first,
        3 => random.pick(&NEVER),
        _ => random.pick(&ALONE),
    };
    let card = state.card();
    let data = with_mac(&card, first, card.counter(), random);
    let packet = write_parts(&[first, second], data, random).packet(random);
    (state, packet)
}

fn without_rc(i: usize, random: &mut Random) -> (State, Vec<u8>) {
    let mut state = willing_state(random);
    state.clear(RC_WRITTEN);
    // RC itself can be written first, and others where no MAC is asked for.
    let packet = match i % 5 {
        0 => one(0x80, random),
        1 => one(random.pick(&ALONE), random),
        _ => two(&state, random.pick(&WITH_MAC), random),
    };
    (state, packet)
}
