//! Sample frames of a number of cycles, beside the same in 128 bits.
use a72::{Frames, Rate};

const RATES: [Rate; 2] = [Rate::Hz48000, Rate::Hz44100];

/// In 128 bits no product is too large.
fn beside(rate: Rate, total: u64) -> Frames {
    let (parts, frame) = match rate {
        Rate::Hz48000 => (1, 31_250),
        Rate::Hz44100 => (147, 5_000_000),
    };
    let all = u128::from(total) * parts;
    Frames {
        whole: u64::try_from(all / frame).expect("no more frames than cycles"),
        rest: (all % frame) as u64,
    }
}

fn same(totals: impl Iterator<Item = u64> + Clone) {
    for rate in RATES {
        for total in totals.clone() {
            assert_eq!(rate.frames(total), beside(rate, total), "{rate:?} {total}");
        }
    }
}

#[test]
fn of_random_totals() {
    // SplitMix64; the shift makes totals of every length.
    let totals = (1..=1_000_000u64).map(|n| {
        let x = n.wrapping_mul(0x9E37_79B9_7F4A_7C15);
        let x = (x ^ x >> 30).wrapping_mul(0xBF58_476D_1CE4_E5B9);
        let x = (x ^ x >> 27).wrapping_mul(0x94D0_49BB_1331_11EB);
        (x ^ x >> 31) >> (n % 64)
    });
    same(totals);
}

#[test]
fn beside_the_edges_of_frames() {
    for step in [31_250u64, 5_000_000] {
        let multiples = (1..=(1 << 32) / step).map(|n| n * step);
        same(multiples.flat_map(|edge| [edge - 1, edge, edge + 1]));
    }
    // The first total of each frame at 44,100, and the one before it, in the first ten seconds.
    let edges = (1..=441_000u64).map(|n| (n * 5_000_000).div_ceil(147));
    same(edges.flat_map(|edge| [edge - 1, edge]));
}

#[test]
fn of_the_least_and_the_largest() {
    same(0..100_000);
    same(u64::MAX - 99_999..=u64::MAX);
}

#[test]
fn as_worked_out_by_hand() {
    let of = |rate: Rate, total| {
        let Frames { whole, rest } = rate.frames(total);
        (whole, rest)
    };
    assert_eq!(of(Rate::Hz48000, 1_500_034_014), (48_001, 2_764));
    assert_eq!(of(Rate::Hz44100, 1_500_034_014), (44_101, 58));
    assert_eq!(of(Rate::Hz48000, u64::MAX), (590_295_810_358_705, 20_365));
    assert_eq!(of(Rate::Hz44100, u64::MAX), (542_334_275_767_060, 4_087_405));
}

#[test]
fn rates_by_their_numbers() {
    for rate in RATES {
        assert_eq!(Rate::of(rate.frames_a_second()), Some(rate));
    }
    assert_eq!(Rate::Hz44100.parts_of_a_cycle(), 147);
    assert_eq!(Rate::Hz48000.parts_of_a_cycle(), 1);
    for other in [0, 44_099, 44_101, 47_999, 48_001, 96_000, u64::MAX] {
        assert_eq!(Rate::of(other), None);
    }
}
