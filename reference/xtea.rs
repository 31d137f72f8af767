//! XTEA (Needham and Wheeler's note "Tea extensions").
//!
//! The note works on 32-bit words and leaves their bytes open; here every word
//! is big-endian, as in the published test cases.

const CYCLES: usize = 32;
const DELTA: u32 = 0x9E37_79B9;

fn word(bytes: &[u8], index: usize) -> u32 {
    bytes[4 * index..4 * index + 4]
        .iter()
        .fold(0, |word, &byte| word << 8 | u32::from(byte))
}

fn mix(half: u32) -> u32 {
    (half << 4 ^ half >> 5).wrapping_add(half)
}

pub fn encrypt(key: &[u8], block: [u8; 8]) -> [u8; 8] {
    assert_eq!(key.len(), 16);
    let (mut y, mut z) = (word(&block, 0), word(&block, 1));
    let mut sum: u32 = 0;
    for _ in 0..CYCLES {
        let chosen = word(key, (sum & 3) as usize);
        y = y.wrapping_add(mix(z) ^ sum.wrapping_add(chosen));
        sum = sum.wrapping_add(DELTA);
        let chosen = word(key, (sum >> 11 & 3) as usize);
        z = z.wrapping_add(mix(y) ^ sum.wrapping_add(chosen));
    }
    (u64::from(y) << 32 | u64::from(z)).to_be_bytes()
}
