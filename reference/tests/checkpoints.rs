//! Names for stages of a plate: what is kept, what a return makes of it, values that no Keep made, and greys that were
//! not loaded. Lists of calls are tried in guarantees.rs.

use reference::*;

/// Numbers that are no name.
const NO_NAMES: [u32; 10] = [0, 9, 10, 16, 255, 256, 257, 1 << 31, (1 << 31) + 1, u32::MAX];

/// A value that no Keep makes on a sheet: each place another, from the smallest to the largest.
const DAMAGED: Checkpoints = Checkpoints { kept: [u64::MAX, 0, 1, 1 << 32, 65_537, 1 << 63, 77, (1 << 32) + 2] };

/// A map loaded on plain cloth, and so many dots placed.
fn advanced(side: u32, greys: &[u8], dots: u32) -> (Buffers, Progress) {
    advanced_on(PLAIN, side, greys, dots)
}

fn advanced_on(knit: u32, side: u32, greys: &[u8], dots: u32) -> (Buffers, Progress) {
    let mut buffers = Buffers::new(side).unwrap();
    let start = buffers.load(side, knit, greys).progress;
    let progress = buffers.advance(start, dots).progress;
    assert_eq!(progress, Progress { side, dots, knit });
    (buffers, progress)
}

/// The dots of the finished map.
fn total(side: u32, greys: &[u8]) -> u32 {
    let mut buffers = Buffers::new(side).unwrap();
    let start = buffers.load(side, PLAIN, greys).progress;
    buffers.advance(start, u32::MAX).progress.dots
}

/// The value after a Keep that has to be done and to give the record back.
fn kept(progress: Progress, checkpoints: Checkpoints, name: u32) -> Checkpoints {
    let answer = keep(progress, checkpoints, name);
    assert_eq!((answer.progress, answer.status), (progress, Ok(())));
    answer.checkpoints
}

/// A value that has this entry under a name, and nothing else.
fn only(name: u32, entry: u64) -> Checkpoints {
    let mut checkpoints = Checkpoints::default();
    checkpoints.kept[name as usize - 1] = entry;
    checkpoints
}

/// The number of a return on these buffers. Where it says no, nothing is another; where it is done, the value isn't,
/// and the sheet is the one that Load and Advance make of the greys on the record's knit.
fn return_number(buffers: &Buffers, progress: Progress, checkpoints: Checkpoints, name: u32, greys: &[u8]) -> u32 {
    let mut after = buffers.clone();
    let answer = after.restore(progress, checkpoints, name, greys);
    assert_eq!(answer.checkpoints, checkpoints);
    match answer.status {
        Ok(()) => {
            let dots = (checkpoints.kept[name as usize - 1] - 1) as u32;
            assert_eq!((after, answer.progress), advanced_on(progress.knit, progress.side, greys, dots));
            0
        }
        Err(refusal) => {
            assert_eq!((&after, answer.progress), (buffers, progress));
            refusal.number()
        }
    }
}

/// For S 2.11.
#[test]
fn all_names_are_empty_at_first() {
    assert_eq!(Checkpoints::default().kept, [0; 8]);
    let greys = maps::named("random", 4);
    let (buffers, progress) = advanced(4, &greys, 3);
    for name in 1..=8 {
        assert_eq!(return_number(&buffers, progress, Checkpoints::default(), name, &greys), 10);
    }
}

/// Place name - 1 gets one more than the dots, any number of them, on any knit and on numbers that are none; all other
/// places stay, whatever they hold (S 10.1, S 2.11).
#[test]
fn keep_writes_one_place() {
    for before in [Checkpoints::default(), DAMAGED, Checkpoints { kept: [u64::MAX; 8] }] {
        for side in SIDES {
            for dots in [0, 1, 2, 65_535, 65_536, 65_537, 1 << 31, u32::MAX] {
                for (name, knit) in (1..=8).zip([0, 1, 2, 3, 1 << 31, u32::MAX, 0, 1]) {
                    let after = kept(Progress { side, dots, knit }, before, name);
                    let place = name as usize - 1;
                    assert_eq!(after.kept[place], 1 + u64::from(dots));
                    assert_eq!(after.kept[..place], before.kept[..place]);
                    assert_eq!(after.kept[name as usize..], before.kept[name as usize..]);
                }
            }
        }
    }
    assert_eq!(kept(Progress { side: 2, dots: u32::MAX, knit: PLAIN }, DAMAGED, 2).kept[1], 1 << 32);
}

/// For S 10.1.
#[test]
fn keep_refuses_no_names_and_gives_all_back() {
    for checkpoints in [Checkpoints::default(), DAMAGED] {
        for name in NO_NAMES {
            let progress = Progress { side: 8, dots: 70_000, knit: 7 };
            let status = Err(Refusal::UnknownName);
            assert_eq!(keep(progress, checkpoints, name), CheckpointAnswer { progress, checkpoints, status });
        }
    }
}

/// A later Keep takes the place of an earlier one, also of one with more dots (S 10.1).
#[test]
fn a_name_is_kept_again() {
    let greys = maps::named("random", 8);
    let (buffers, progress) = advanced(8, &greys, 9);
    let mut checkpoints = Checkpoints::default();
    for dots in [5, 20, 0, 9] {
        checkpoints = kept(Progress { dots, ..progress }, checkpoints, 6);
        assert_eq!(checkpoints, only(6, u64::from(dots) + 1));
        assert_eq!(return_number(&buffers, progress, checkpoints, 6, &greys), 0);
    }
}

/// With no dot kept the name is not empty: the return leaves what Load does (S 2.11, S 10.2).
#[test]
fn no_dots_are_a_stage() {
    for side in SIDES {
        for name in ["flat-0", "flat-1", "random"] {
            let greys = maps::named(name, side);
            let (mut buffers, start) = advanced(side, &greys, 0);
            let loaded = buffers.clone();
            let checkpoints = kept(start, Checkpoints::default(), 5);
            assert_eq!(checkpoints, only(5, 1));
            let progress = buffers.advance(start, 40).progress;
            let answer = buffers.restore(progress, checkpoints, 5, &greys);
            assert_eq!(answer, CheckpointAnswer { progress: start, checkpoints, status: Ok(()) });
            assert_eq!(buffers, loaded);
        }
    }
}

/// Each stage of a map from each other, back and forwards, under each name; the return to a name leaves all of them
/// (S 10.2).
#[test]
fn from_each_stage_to_each() {
    for (knit, side, name) in [
        (PLAIN, 2, "flat-240"),
        (PLAIN, 4, "random"),
        (PLAIN, 8, "hot-rim"),
        (RIBBED, 2, "flat-128"),
        (RIBBED, 4, "random"),
        (RIBBED, 8, "gradient-diagonal"),
    ] {
        let greys = maps::named(name, side);
        let most = total(side, &greys);
        for from in 0..=most {
            let (buffers, progress) = advanced_on(knit, side, &greys, from);
            for to in 0..=most {
                let kept_as = 1 + (from + to) % 8;
                let checkpoints = kept(Progress { dots: to, ..progress }, DAMAGED, kept_as);
                assert_eq!(return_number(&buffers, progress, checkpoints, kept_as, &greys), 0);
            }
        }
    }
}

/// For S 10.3.
#[test]
fn counts_up_to_the_total() {
    for side in SIDES {
        for name in ["flat-0", "flat-1", "hot-cell", "flat-127", "random", "flat-240"] {
            // a run of the largest maps for each would take long
            if side > 64 && !["flat-0", "flat-1", "hot-cell"].contains(&name) {
                continue;
            }
            let greys = maps::named(name, side);
            let most = u64::from(total(side, &greys));
            let (buffers, progress) = advanced(side, &greys, most.min(3) as u32);
            let number = |entry: u64| return_number(&buffers, progress, only(7, entry), 7, &greys);
            assert_eq!(number(0), 10);
            assert_eq!(number(most + 1), 0);
            for entry in [most + 2, most + 3, 65_538, 1 << 32, (1 << 32) + 1, (1 << 32) + most + 1, 1 << 63, u64::MAX] {
                assert_eq!(number(entry), 10, "side {side}, {name}, {entry}");
            }
        }
    }
}

/// The total goes by halves: with a grey sum of 127 there is no dot, with 128 one, with 382 one, with 383 two (S 10.3).
#[test]
fn totals_by_hand() {
    for (greys, most) in [
        ([0; 4], 0),
        ([127, 0, 0, 0], 0),
        ([0, 0, 0, 128], 1),
        ([240, 142, 0, 0], 1),
        ([143, 0, 240, 0], 2),
        ([240; 4], 4),
    ] {
        let (buffers, progress) = advanced(2, &greys, 0);
        for entry in 0..8 {
            let number = return_number(&buffers, progress, only(1, entry), 1, &greys);
            assert_eq!(number, if (1..=most + 1).contains(&entry) { 0 } else { 10 }, "{greys:?}, {entry}");
        }
    }
}

/// For S 10.3.
#[test]
fn return_refuses_no_names() {
    let greys = maps::named("random", 4);
    let (buffers, progress) = advanced(4, &greys, 2);
    for name in NO_NAMES {
        for checkpoints in [Checkpoints::default(), Checkpoints { kept: [2; 8] }, DAMAGED] {
            let mut after = buffers.clone();
            let status = Err(Refusal::UnknownName);
            let answer = after.restore(progress, checkpoints, name, &greys);
            assert_eq!(answer, CheckpointAnswer { progress, checkpoints, status });
            assert_eq!(after, buffers);
        }
    }
}

/// The greys given need not be those loaded: the sheet is then theirs, and so is the total (S 10.2).
#[test]
fn other_greys() {
    let [light, dark] = ["flat-1", "flat-239"].map(|name| maps::named(name, 16));
    assert_eq!([total(16, &light), total(16, &dark)], [1, 240]);
    for loaded in [&light, &dark] {
        let (buffers, progress) = advanced(16, loaded, 1);
        for (greys, most) in [(&light, 1), (&dark, 240)] {
            assert_eq!(return_number(&buffers, progress, only(3, most + 1), 3, greys), 0);
            assert_eq!(return_number(&buffers, progress, only(3, most + 2), 3, greys), 10);
        }
    }
}

/// A grey above 240 on a return, wherever it is on the map, though the sheet and the name would do; with 240 in its
/// place it is done (S 10.3).
#[test]
fn high_greys() {
    for (side, cells) in [(2, 4), (4, 16), (8, 64)] {
        let mut greys = maps::named("random", side);
        let (buffers, progress) = advanced(side, &greys, 1);
        for cell in 0..cells {
            let low = greys[cell];
            for (grey, number) in [(241, 12), (255, 12), (240, 0)] {
                greys[cell] = grey;
                assert_eq!(return_number(&buffers, progress, only(2, 2), 2, &greys), number);
            }
            greys[cell] = low;
        }
    }
}

/// A sheet that was loaded before greys above 240 were refused is sound, and burns on; but it can't be returned to a
/// stage, not even with a name kept on it, unless its greys are lowered (S 7.5).
#[test]
fn an_older_sheet() {
    let greys = maps::generated(7, 16);
    let mut buffers = Buffers::older(4, &greys).unwrap();
    let progress = buffers.advance(Progress { side: 4, dots: 0, knit: PLAIN }, 3).progress;
    let checkpoints = kept(progress, Checkpoints::default(), 1);
    assert_eq!(return_number(&buffers, progress, checkpoints, 1, &greys), 12);
    assert_eq!(return_number(&buffers, progress, checkpoints, 1, &lowered(&greys)), 0);
    assert_eq!(buffers.advance(progress, 99).status, Ok(Ended::Finished));
}

/// The record's knit need not be the one loaded: the sheet is then that of the greys on the record's (S 10.2).
#[test]
fn the_other_knit() {
    let greys = maps::named("gradient-diagonal", 8);
    let both = [PLAIN, RIBBED].map(|knit| advanced_on(knit, 8, &greys, 20));
    assert_ne!(both[0].0.serials, both[1].0.serials);
    for (buffers, progress) in both {
        for knit in [PLAIN, RIBBED] {
            assert_eq!(return_number(&buffers, Progress { knit, ..progress }, only(4, 18), 4, &greys), 0);
        }
    }
}

/// A sound sheet will do, however it came about, and a sheet that is not sound is refused though it is made anew
/// (S 10.3).
#[test]
fn the_sheet_before() {
    let greys = maps::named("random", 4);
    let made_up = Buffers {
        pyramid: [&[5, 5, 0, 0, 0][..], &[5], &[0; 15]].concat(),
        serials: [&[0; 15][..], &[1]].concat(),
        order: [&[15][..], &[0; 15]].concat(),
    };
    let progress = Progress { side: 4, dots: 1, knit: PLAIN };
    assert_eq!(return_number(&made_up, progress, only(2, 4), 2, &greys), 0);
    for dots in [0, 2, u32::MAX] {
        assert_eq!(return_number(&made_up, Progress { dots, ..progress }, only(2, 4), 2, &greys), 5);
    }
    for place in 0..21 {
        let mut wrong = made_up.clone();
        wrong.pyramid[place] += 1;
        assert_eq!(return_number(&wrong, progress, only(2, 4), 2, &greys), 5);
    }
}

/// Places past the needed lengths stay, and further greys play no part, not in the total either (S 2.9).
#[test]
fn longer_buffers() {
    for side in [2, 4, 16] {
        let greys = maps::named("random", side);
        let long_greys = [&greys[..], &[255; 999]].concat();
        let most = total(side, &greys);
        let (just, progress) = advanced(side, &greys, 1);
        let tail = Buffers { pyramid: vec![-7, i64::MAX, 8], serials: vec![70_000, 1, 0], order: vec![5, u32::MAX, 3] };
        let long = |buffers: &Buffers| Buffers {
            pyramid: [&buffers.pyramid[..], &tail.pyramid].concat(),
            serials: [&buffers.serials[..], &tail.serials].concat(),
            order: [&buffers.order[..], &tail.order].concat(),
        };
        for dots in [0, 1, 2, most, most + 1] {
            let checkpoints = only(8, u64::from(dots) + 1);
            let (mut shorter, mut longer) = (just.clone(), long(&just));
            let answer = shorter.restore(progress, checkpoints, 8, &greys);
            assert_eq!(answer.status.is_ok(), dots <= most);
            assert_eq!(longer.restore(progress, checkpoints, 8, &long_greys), answer);
            assert_eq!(longer, long(&shorter));
        }
    }
}
