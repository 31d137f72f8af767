//! Questions about reads.

use crate::card::{READ_ONLY, READ_WRITE};
use crate::card_lines::Draw;
use crate::card_packets::{read_parts, spoil_elements, spoil_header};
use crate::card_states::{state, willing_state, State};
use crate::cards::{AUTHENTICATED, DEAF, RC_WRITTEN, SOUND};
use crate::random::Random;

pub const GROUPS: [(usize, Draw); 13] = [
    (100, plain),
    (92, under_rw),
    (198, tagged),
    (80, mixed_tags),
    (40, second_kind),
    (72, wrong_number),
    (32, never_rw),
    (60, without_rc),
    (120, restricted),
    (121, wrong_header),
    (120, wrong_elements),
    (60, unsound),
    (20, deaf),
];

/// All blocks but the tags, those without a bit in MC as often as those with one.
const BLOCKS: [u16; 28] = [
    0x00, 0x80, 0x01, 0x82, 0x02, 0x83, 0x03, 0x84, 0x04, 0x85, 0x05, 0x86, 0x06, 0x87, 0x07, 0x88,
    0x08, 0x90, 0x09, 0x92, 0x0A, 0xA0, 0x0B, 0x90, 0x0C, 0x92, 0x0D, 0x0E,
];

/// Blocks that are RW in some state.
const MAYBE_RW: [u16; 23] = [
    0x00, 0x86, 0x01, 0x88, 0x02, 0x82, 0x03, 0x92, 0x04, 0x87, 0x05, 0x84, 0x06, 0x80, 0x07, 0x08,
    0x09, 0x0A, 0x0B, 0x0C, 0x0D, 0x0E, 0x88,
];

const TAGS: [u16; 2] = [0x81, 0x91];

/// Numbers of no block: neighbours of blocks, and blocks with a high byte.
const NO_BLOCKS: [u16; 14] = [
    0x0F, 0x10, 0x7F, 0x89, 0x8F, 0x93, 0x9F, 0xA1, 0xFF, 0x0105, 0x0180, 0x0191, 0x01A0, 0xFF00,
];

/// For lists of two to four: at which places a tag stands. Never at the first.
const TAG_PLACES: [&[bool]; 11] = [
    &[false, true],
    &[false, false, true],
    &[false, true, false],
    &[false, true, true],
    &[false, false, false, true],
    &[false, false, true, false],
    &[false, false, true, true],
    &[false, true, false, false],
    &[false, true, false, true],
    &[false, true, true, false],
    &[false, true, true, true],
];

fn numbers(count: usize, random: &mut Random) -> Vec<u16> {
    (0..count).map(|_| random.pick(&BLOCKS)).collect()
}

fn any_count(random: &mut Random) -> usize {
    random.pick(&[1, 1, 2, 2, 3, 4])
}

/// Every block in turn, with others after it.
fn plain(i: usize, random: &mut Random) -> (State, Vec<u8>) {
    let more = random.pick(&[0, 0, 0, 1, 2, 3]);
    let mut list = numbers(1 + more, random);
    list[0] = BLOCKS[i % BLOCKS.len()];
    let parts = read_parts(&list, random);
    (willing_state(random), parts.packet(random))
}

/// Blocks that may be RW, under the service for those.
fn under_rw(i: usize, random: &mut Random) -> (State, Vec<u8>) {
    let mut list = vec![MAYBE_RW[i % MAYBE_RW.len()]];
    if i % 3 == 0 {
        list.push(random.pick(&MAYBE_RW));
    }
    let mut parts = read_parts(&list, random);
    parts.service = READ_WRITE;
    let state = if i % 2 == 0 {
        willing_state(random)
    } else {
        state(random)
    };
    (state, parts.packet(random))
}

fn tagged(i: usize, random: &mut Random) -> (State, Vec<u8>) {
    let tag = TAGS[i / TAG_PLACES.len() % 2];
    let places = TAG_PLACES[i % TAG_PLACES.len()];
    let list: Vec<u16> = places
        .iter()
        .map(|&is_tag| if is_tag { tag } else { random.pick(&BLOCKS) })
        .collect();
    let mut parts = read_parts(&list, random);
    if random.once_in(16) {
        parts.service = READ_WRITE;
    }
    (willing_state(random), parts.packet(random))
}

/// Tags of either kind anywhere.
fn mixed_tags(i: usize, random: &mut Random) -> (State, Vec<u8>) {
    let mut list = numbers(random.pick(&[1, 2, 3, 4, 4, 4]), random);
    for number in &mut list {
        if !random.once_in(3) {
            *number = random.pick(&TAGS);
        }
    }
    // Most lists have blocks first, since a tag there hides the others.
    for number in list.iter_mut().take(i % 4) {
        *number = random.pick(&BLOCKS);
    }
    let parts = read_parts(&list, random);
    (willing_state(random), parts.packet(random))
}

/// A tag of one kind last, after one of the other kind.
fn second_kind(i: usize, random: &mut Random) -> (State, Vec<u8>) {
    let mut list = numbers(3 + i / 2 % 2, random);
    let last = list.len() - 1;
    list[random.pick(&[1, last - 1])] = TAGS[i % 2];
    list[last] = TAGS[1 - i % 2];
    let parts = read_parts(&list, random);
    (willing_state(random), parts.packet(random))
}

/// A number of no block at each place, with a block after it or none.
fn wrong_number(i: usize, random: &mut Random) -> (State, Vec<u8>) {
    let at = i % 4;
    let mut list = numbers(at + 1, random);
    list[at] = random.pick(&NO_BLOCKS);
    if random.once_in(2) {
        list.push(random.pick(&BLOCKS));
        list.truncate(4);
    }
    let parts = read_parts(&list, random);
    (willing_state(random), parts.packet(random))
}

/// A block that is never RW at each place, under the service for RW blocks.
fn never_rw(i: usize, random: &mut Random) -> (State, Vec<u8>) {
    let mut list = vec![random.pick(&[0x80, 0x92]); i % 4];
    list.push(random.pick(&[0x81, 0x83, 0x85, 0x90, 0x91, 0xA0]));
    let mut parts = read_parts(&list, random);
    parts.service = READ_WRITE;
    (willing_state(random), parts.packet(random))
}

/// A tag at each place but the first, where RC is not written.
fn without_rc(i: usize, random: &mut Random) -> (State, Vec<u8>) {
    let tag = TAGS[i % 2];
    let mut list = numbers(1 + i % 3, random);
    list.push(tag);
    if random.once_in(4) {
        list.insert(0, tag);
        list.truncate(4);
    }
    let mut state = willing_state(random);
    state.clear(RC_WRITTEN);
    let parts = read_parts(&list, random);
    (state, parts.packet(random))
}

/// Scratch pads and REG, of which MC closes some; now and then after
/// authentication, or with another fault after.
fn restricted(i: usize, random: &mut Random) -> (State, Vec<u8>) {
    let mut list: Vec<u16> = (0..1 + i % 4)
        .map(|_| u16::from(random.byte() % 15))
        .collect();
    if random.once_in(4) && list.len() < 4 {
        list.push(random.pick(&[0x0F, 0x81, 0x91]));
    }
    let mut state = willing_state(random);
    if random.once_in(6) {
        state.set(AUTHENTICATED);
    } else {
        state.clear(AUTHENTICATED);
    }
    for at in 6..8 {
        let (any, bit) = (random.byte(), 1 << (random.byte() % 8));
        state.mc()[at] = random.pick(&[0x00, bit, bit, !bit, any]);
    }
    // In half of the questions only the last.
    if i % 8 < 4 {
        let last = list[i % 4];
        state.mc()[6..8].copy_from_slice(&(1_u16 << last).to_le_bytes());
    }
    let mut parts = read_parts(&list, random);
    if random.once_in(8) {
        parts.service = READ_WRITE;
    }
    (state, parts.packet(random))
}

fn wrong_header(i: usize, random: &mut Random) -> (State, Vec<u8>) {
    let list = numbers(any_count(random), random);
    let mut parts = read_parts(&list, random);
    spoil_header(i, &mut parts, random);
    (state(random), parts.packet(random))
}

fn wrong_elements(i: usize, random: &mut Random) -> (State, Vec<u8>) {
    let list = numbers(1 + i % 4, random);
    let mut parts = read_parts(&list, random);
    spoil_elements(i / 4, &mut parts, random);
    (state(random), parts.packet(random))
}

/// The check of the memory alone, twice, after others; and other blocks.
fn unsound(i: usize, random: &mut Random) -> (State, Vec<u8>) {
    let any = random.pick(&BLOCKS);
    let list: &[u16] = match i % 6 {
        0..=2 => &[0xA0],
        3 => random.pick(&[&[0xA0, 0xA0], &[0xA0, 0x91]]),
        4 => random.pick(&[&[0x01A0], &[0x0F], &[0x91]]),
        _ => &[any, 0xA0],
    };
    let mut state = state(random);
    state.clear(SOUND);
    let mut parts = read_parts(list, random);
    parts.service = random.pick(&[READ_ONLY, READ_ONLY, READ_WRITE]);
    if random.once_in(8) {
        spoil_elements(i, &mut parts, random);
    }
    (state, parts.packet(random))
}

fn deaf(i: usize, random: &mut Random) -> (State, Vec<u8>) {
    let (mut state, packet) = plain(i, random);
    state.set(DEAF);
    (state, packet)
}
