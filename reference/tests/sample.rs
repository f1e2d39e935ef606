//! Samples: the first greys of seed 0, states worked by hand, buffers filled one after the other, and the program's
//! text.

use reference::*;

/// Seeds at the ends and in the middle of their range, and three others.
const SEEDS: [u32; 6] = [0, 1, 1 << 31, u32::MAX, 7, 2_868_466_484];

/// The greys of a sample that has to be made, in a buffer of just the needed length, and the state reached.
fn sampled(seed: u32, side: u32) -> (Vec<u8>, u32) {
    let mut greys = vec![99; cell_count(side)];
    let state = sample(seed, side, &mut greys).unwrap();
    (greys, state)
}

/// The first greys of seed 0 (S 12.1). Their states, with p = 2^32:
/// 1,664,525 × 0 + 1,013,904,223 = 0 × p + 1,013,904,223, which is 60 × 2^24 + 7,271,263;
/// 1,664,525 × 1,013,904,223 + 1,013,904,223 = 392,941 × p + 1,196,435,762, which is 71 × 2^24 + 5,253,426;
/// 1,664,525 × 1,196,435,762 + 1,013,904,223 = 463,681 × p + 3,519,870,697, which is 209 × 2^24 + 13,432,553;
/// 1,664,525 × 3,519,870,697 + 1,013,904,223 = 1,364,134 × p + 2,868,466,484, which is 170 × 2^24 + 16,339,764.
#[test]
fn seed_0() {
    assert_eq!(sampled(0, 2), (vec![60, 71, 209, 170], 2_868_466_484));
    for side in SIDES {
        assert_eq!(sampled(0, side).0[..4], [60, 71, 209, 170]);
    }
}

/// The largest seed is −1 modulo 2^32, so its first state is 1,013,904,223 − 1,664,525 = 1,012,239,698, which is
/// 60 × 2^24 + 5,606,738. The three after it, with p = 2^32:
/// 1,664,525 × 1,012,239,698 + 1,013,904,223 = 392,296 × p + 806,866,057, which is 48 × 2^24 + 1,559,689;
/// 1,664,525 × 806,866,057 + 1,013,904,223 = 312,703 × p + 579,071,060, which is 34 × 2^24 + 8,645,716;
/// 1,664,525 × 579,071,060 + 1,013,904,223 = 224,420 × p + 2,709,482,403, which is 161 × 2^24 + 8,350,627 (S 12.1).
#[test]
fn the_largest_seed() {
    assert_eq!(sampled(u32::MAX, 2), (vec![60, 48, 34, 161], 2_709_482_403));
}

/// 1,664,525 is odd, so two seeds that are 2^31 apart have states that are 2^31 apart, and greys that are 128 apart.
#[test]
fn seeds_that_are_half_the_range_apart() {
    let (greys, state) = sampled(0, 16);
    let (others, other) = sampled(1 << 31, 16);
    assert_eq!(other, state ^ (1 << 31));
    assert!(greys.iter().zip(&others).all(|(grey, other)| grey ^ 128 == *other));
}

/// The greys of samples of these sides, each from the state that the one before reached, and the last state.
fn one_after_the_other(seed: u32, sides: &[u32]) -> (Vec<u8>, u32) {
    let mut run = Vec::new();
    let mut state = seed;
    for side in sides {
        let (greys, reached) = sampled(state, *side);
        run.extend(greys);
        state = reached;
    }
    (run, state)
}

/// Two buffers, the second from the state that the first reached, get the greys of one longer run (S 15.13).
#[test]
fn buffers_one_after_the_other() {
    for seed in SEEDS {
        // a side has four times the cells of the one before
        for side in &SIDES[..7] {
            assert_eq!(one_after_the_other(seed, &[*side; 4]), sampled(seed, 2 * side));
        }
        assert_eq!(one_after_the_other(seed, &[2, 2, 4, 2, 2, 4, 4]), sampled(seed, 8));
        for (first, second) in [(2, 2), (2, 4), (4, 2), (16, 8), (8, 32), (256, 128)] {
            let count = cell_count(first) + cell_count(second);
            assert_eq!(one_after_the_other(seed, &[first, second]).0, maps::generated(seed, count));
        }
    }
}

/// For S 2.9.
#[test]
fn places_past_the_cells_stay() {
    for seed in SEEDS {
        for side in SIDES {
            let (greys, state) = sampled(seed, side);
            for spare in [1, 2, 300] {
                let tail: Vec<u8> = (0..spare).map(|place| (7 * place + 3) as u8).collect();
                let mut long = [&vec![99; greys.len()][..], &tail].concat();
                assert_eq!(sample(seed, side, &mut long), Ok(state));
                assert_eq!(long, [&greys[..], &tail].concat());
            }
        }
    }
}

/// The program prints a map text of side 32, from seed 1. The call fills greys up to 255, and the program lowers them
/// (S 14.3).
#[test]
fn the_program() {
    let text = sample_text();
    let mut greys = [99; GREYS_ROOM];
    assert_eq!(map_text(&text, &mut greys), Ok(32));
    assert_eq!(greys[..], lowered(&sampled(1, 32).0));
    // 60 × 2^24 + 8,935,788 is the first state, 1,013,904,223 + 1,664,525
    assert!(text.starts_with(b"32\n60,94,129,180,"));
}

/// The program `plate` takes what the program `sample` prints, and makes the holes that its greys ask for.
#[test]
fn the_program_plate_takes_the_text() {
    let sum: u32 = lowered(&sampled(1, 32).0).iter().map(|grey| u32::from(*grey)).sum();
    let list = plate(&sample_text());
    // the greys over 255, rounded to the nearest
    assert!(list.starts_with(format!("{},32\n", (2 * sum + 255) / 510).as_bytes()));
}
