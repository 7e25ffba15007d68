//! Numbers by chance.

/// Each below one that is asked for: SplitMix64.
pub fn chance() -> impl FnMut(u64) -> u64 {
    let mut word = 0u64;
    move |n| {
        word = word.wrapping_add(0x9E37_79B9_7F4A_7C15);
        let x = (word ^ word >> 30).wrapping_mul(0xBF58_476D_1CE4_E5B9);
        let x = (x ^ x >> 27).wrapping_mul(0x94D0_49BB_1331_11EB);
        (x ^ x >> 31) % n
    }
}
