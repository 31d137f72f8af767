//! The states of cards that questions are about.

use crate::card::Card;
use crate::card_blocks::counter_bytes;
use crate::cards::{
    card, AUTHENTICATED, COUNTER_AT, DEAF, ISSUED, MC_AT, POLL_SHUT, RC_AT, RC_WRITTEN, SOUND,
    STATE_LEN, XTEA,
};
use crate::random::Random;

/// Counters at which a rule changes, and their neighbours.
pub const COUNTERS: [u32; 13] = [
    0x000000, 0x000001, 0x00FFFF, 0x00270F, 0x002710, 0x002711, 0x002712, 0xFFFDFF, 0xFFFE00,
    0xFFFE01, 0xFFFE02, 0xFFFFFE, 0xFFFFFF,
];

/// The bytes of a question before its packet.
pub struct State(pub Vec<u8>);

impl State {
    pub fn set(&mut self, bits: u8) {
        self.0[0] |= bits;
    }

    pub fn clear(&mut self, bits: u8) {
        self.0[0] &= !bits;
        if bits & RC_WRITTEN != 0 {
            self.0[RC_AT..RC_AT + 16].fill(0x00);
        }
    }

    pub fn mc(&mut self) -> &mut [u8] {
        &mut self.0[MC_AT..MC_AT + 16]
    }

    pub fn set_counter(&mut self, counter: u32) {
        self.0[COUNTER_AT..COUNTER_AT + 3].copy_from_slice(&counter_bytes(counter));
    }

    /// The counter as it is stored, which may not be as it reads.
    pub fn stored_counter(&self) -> u32 {
        let bytes = &self.0[COUNTER_AT..];
        u32::from_le_bytes([bytes[0], bytes[1], bytes[2], 0])
    }

    pub fn card(&self) -> Card {
        card(&self.0)
    }
}

/// A sound card with RC that hears; all else as it comes.
fn whole_state(random: &mut Random) -> State {
    let mut state = State(random.bytes(STATE_LEN));
    state.0[0] &= XTEA | ISSUED | AUTHENTICATED;
    state.set(SOUND | RC_WRITTEN);
    if random.once_in(4) {
        state.set(POLL_SHUT);
    }
    // An RC of zeros is written like any other.
    if random.once_in(32) {
        state.0[RC_AT..RC_AT + 16].fill(0x00);
    }
    if !random.once_in(4) {
        state.set_counter(random.pick(&COUNTERS));
    }
    draw_mc(state.mc(), random);
    state
}

/// Any state; mostly sound, with RC, and not deaf.
pub fn state(random: &mut Random) -> State {
    let mut state = whole_state(random);
    for (bit, count) in [(SOUND, 32), (RC_WRITTEN, 16)] {
        if random.once_in(count) {
            state.clear(bit);
        }
    }
    if random.once_in(64) {
        state.set(DEAF);
    }
    state
}

/// The bytes of MC that a rule looks at are mostly at values where it changes.
pub fn draw_mc(mc: &mut [u8], random: &mut Random) {
    for at in 0..2 {
        let bit = 1 << (random.byte() % 8);
        mc[at] = random.pick(&[0xFF, 0xFF, !bit, bit, mc[at], 0x00]);
    }
    if random.once_in(4) {
        mc[1] ^= 0x80;
    }
    mc[2] = random.pick(&[0x00, 0xFF, mc[2]]);
    mc[5] = random.pick(&[0x00, 0x01, 0xFF, mc[5]]);
    for byte in &mut mc[6..12] {
        let bit = 1 << (random.byte() % 8);
        *byte = random.pick(&[0x00, 0x00, 0x00, bit, !bit, 0xFF, *byte]);
    }
    mc[12] = random.pick(&[0x00, 0x01, 0x01, 0xFF, mc[12]]);
}

/// A state in which most of what is asked is done: most blocks are open, and
/// either the card is authenticated or no block asks for it.
pub fn willing_state(random: &mut Random) -> State {
    let mut state = whole_state(random);
    if !random.once_in(8) {
        state.mc()[..2].fill(0xFF);
    }
    if !random.once_in(4) {
        state.mc()[5] = 0x01;
    }
    if random.once_in(2) {
        state.set(AUTHENTICATED);
    } else {
        state.mc()[6..10].fill(0x00);
    }
    state
}
