//! Keep and Restore: stages of the plate P3, each refusal in its order, values that no Keep made, and finished maps
//! taken back, on plain cloth and on ribbed.

use rulmedei::{
    advance, cells, codes, keep, load, lower, pyramid_length, restore, sample, Checkpoints, Progress, Refusal, PLAIN,
    RIBBED,
};

/// The buffers of a side, each one place longer than needed; that place is 9, and stays, and 255 among the greys.
#[derive(Clone, Debug, PartialEq)]
struct Sheet {
    greys: Vec<u8>,
    pyramid: Vec<i64>,
    serials: Vec<u32>,
    order: Vec<u32>,
}

impl Sheet {
    /// Greys loaded on plain cloth, and so many holes made.
    fn new(side: u32, greys: &[u8], dots: u32) -> (Sheet, Progress) {
        Sheet::on(PLAIN, side, greys, dots)
    }

    fn on(knit: u32, side: u32, greys: &[u8], dots: u32) -> (Sheet, Progress) {
        let (n, p) = (cells(side), pyramid_length(side));
        let mut sheet = Sheet {
            greys: [greys, &[255]].concat(),
            pyramid: vec![9; p + 1],
            serials: vec![9; n + 1],
            order: vec![9; n + 1],
        };
        let start = load(side, knit, &sheet.greys, &mut sheet.pyramid, &mut sheet.serials, &mut sheet.order).unwrap();
        let progress = sheet.advance(start, dots);
        (sheet, progress)
    }

    fn advance(&mut self, progress: Progress, budget: u32) -> Progress {
        advance(progress, budget, &mut self.pyramid, &mut self.serials, &mut self.order).unwrap().progress
    }

    /// Restore, with so many places fewer of greys, pyramid, serials and order than there are.
    fn restore_less(
        &mut self,
        progress: Progress,
        checkpoints: Checkpoints,
        name: u32,
        less: [usize; 4],
    ) -> Result<Progress, Refusal> {
        let Sheet { greys, pyramid, serials, order } = self;
        let [g, p, s, o] =
            [greys.len() - less[0], pyramid.len() - less[1], serials.len() - less[2], order.len() - less[3]];
        restore(progress, checkpoints, name, &greys[..g], &mut pyramid[..p], &mut serials[..s], &mut order[..o])
    }

    fn restore(&mut self, progress: Progress, checkpoints: Checkpoints, name: u32) -> Result<Progress, Refusal> {
        self.restore_less(progress, checkpoints, name, [0; 4])
    }
}

/// A value with this entry under name 4.
fn only(entry: u64) -> Checkpoints {
    Checkpoints { kept: [0, 0, 0, entry, 0, 0, 0, 0] }
}

/// For S 10.1, S 10.2.
#[test]
fn stages_of_the_example() {
    let stages = [0, 1, 2].map(|dots| Sheet::new(2, &[128; 4], dots));
    assert_eq!(stages[1].0.pyramid, [65_792, 0, 19_763, 19_763, 26_266, 9]);
    assert_eq!(stages[2].0.order, [0, 3, 0, 0, 9]);
    let mut checkpoints = Checkpoints::default();
    for (name, stage) in [1, 8, 5].into_iter().zip(&stages) {
        checkpoints = keep(stage.1, checkpoints, name).unwrap();
    }
    assert_eq!(checkpoints.kept, [1, 0, 0, 0, 3, 0, 0, 2]);
    let (mut sheet, mut progress) = stages[2].clone();
    // back, forwards, and to where it is
    for (name, stage) in [(1, 0), (5, 2), (8, 1), (8, 1), (5, 2), (1, 0), (8, 1)] {
        progress = sheet.restore(progress, checkpoints, name).unwrap();
        assert_eq!((&sheet, progress), (&stages[stage].0, stages[stage].1));
    }
}

/// For S 2.11.
#[test]
fn counts_under_names() {
    let checkpoints = Checkpoints { kept: [0, 1, 2, u64::MAX, 0, 0, 0, 1 << 32] };
    let dots = [0, 1, 2, 3, 4, 8, 9, u32::MAX].map(|name| checkpoints.dots(name));
    assert_eq!(dots, [None, None, Some(0), Some(1), Some(u64::MAX - 1), Some(u32::MAX.into()), None, None]);
    assert_eq!((1..=8).find_map(|name| Checkpoints::default().dots(name)), None);
}

#[test]
fn keep_writes_one_place() {
    let before = Checkpoints { kept: [7, 0, u64::MAX, 1, 2, 3, 4, 5] };
    for dots in [0, 6, 65_537, u32::MAX] {
        for name in 1..=8 {
            let mut expected = before;
            expected.kept[name as usize - 1] = u64::from(dots) + 1;
            let after = keep(Progress { side: 4, dots, knit: PLAIN }, before, name).unwrap();
            assert_eq!(after, expected);
            for knit in [RIBBED, 2, u32::MAX] {
                assert_eq!(codes::keep(Progress { side: 4, dots, knit }, before, name), (0, expected));
            }
            assert_eq!(after.dots(name), Some(dots.into()));
        }
    }
}

/// For S 5.2.
#[test]
fn keep_refuses_in_order() {
    let before = Checkpoints { kept: [1, 2, 3, 4, 5, 6, 7, 8] };
    for knit in [PLAIN, RIBBED, 2, u32::MAX] {
        let given = Progress { side: 2, dots: 3, knit };
        for name in [0, 9, 256, 257, 1 << 31, u32::MAX] {
            assert_eq!(keep(given, before, name), Err(Refusal::NameUnknown));
            // what a refused call leaves of the value
            assert_eq!(codes::keep(given, before, name), (10, before));
        }
        for side in [0, 1, 3, 512, u32::MAX] {
            for name in [0, 1, 9] {
                assert_eq!(keep(Progress { side, ..given }, before, name), Err(Refusal::SideUnknown));
                assert_eq!(codes::keep(Progress { side, ..given }, before, name), (1, before));
            }
        }
    }
}

/// For S 5.2.
#[test]
fn restore_refuses_in_order() {
    let (mut sheet, progress) = Sheet::new(4, &[200; 16], 5);
    let before = sheet.clone();
    let checkpoints = Checkpoints { kept: [3, 0, 14, 15, 0, 0, 0, u64::MAX] };
    let no_side = Progress { side: 5, ..progress };
    let unsound = Progress { dots: 6, ..progress };
    let no_knit = Progress { knit: 2, ..progress };
    for (record, less, number) in [
        (no_side, [2, 2, 2, 2], 1),
        (no_side, [0, 0, 0, 0], 1),
        (Progress { knit: 2, ..no_side }, [0, 0, 0, 0], 1),
        (no_knit, [0, 0, 0, 0], 11),
        (Progress { knit: u32::MAX, ..progress }, [0, 0, 0, 0], 11),
        (Progress { knit: 2, ..unsound }, [0, 0, 0, 0], 11),
        (no_knit, [2, 2, 2, 2], 11),
        (no_knit, [2, 0, 0, 0], 11),
        (no_knit, [0, 2, 0, 0], 11),
        (no_knit, [0, 0, 2, 0], 11),
        (no_knit, [0, 0, 0, 2], 11),
        (unsound, [2, 2, 2, 2], 2),
        (progress, [2, 0, 0, 0], 2),
        (unsound, [0, 2, 2, 2], 3),
        (progress, [0, 2, 0, 0], 3),
        (unsound, [0, 0, 2, 0], 4),
        (unsound, [0, 0, 0, 2], 4),
        (progress, [0, 0, 2, 0], 4),
        (progress, [0, 0, 0, 2], 4),
        (unsound, [0, 0, 0, 0], 5),
    ] {
        for name in [0, 1, 2, 4, 8, 9] {
            let refused = sheet.restore_less(record, checkpoints, name, less);
            assert_eq!(refused.map_err(Refusal::number), Err(number));
            assert_eq!(sheet, before);
        }
    }
    // the total is 13; names 3 and 4 have 13 and 14 holes
    for name in [0, 2, 4, 5, 8, 9, 10, u32::MAX] {
        assert_eq!(sheet.restore(progress, checkpoints, name), Err(Refusal::NameUnknown));
        assert_eq!(sheet, before);
    }
    let [two, thirteen] = [2, 13].map(|dots| Progress { side: 4, dots, knit: PLAIN });
    assert_eq!(sheet.restore(progress, checkpoints, 3), Ok(thirteen));
    assert_eq!(sheet.restore_less(thirteen, checkpoints, 1, [1; 4]), Ok(two));
}

#[test]
fn a_refused_restore_writes_the_record_given() {
    let mut buffers = (vec![0; 5], vec![0; 4], vec![0; 4]);
    for (side, dots, knit, number) in [(3, 7, 7, 1), (2, 7, 7, 11), (2, 7, RIBBED, 5), (2, 0, RIBBED, 10)] {
        let record = Progress { side, dots, knit };
        let (pyramid, serials, order) = (&mut buffers.0, &mut buffers.1, &mut buffers.2);
        let answer = codes::restore(record, &Checkpoints::default(), 1, &[0; 4], pyramid, serials, order);
        assert_eq!(answer, (number, record));
    }
}

/// For S 10.3.
#[test]
fn values_around_the_total() {
    for (greys, total) in [([0; 4], 0), ([127, 0, 0, 0], 0), ([0, 128, 0, 0], 1), ([0, 0, 240, 143], 2), ([240; 4], 4)]
    {
        let (sheet, progress) = Sheet::new(2, &greys, 0);
        let restored = |entry: u64| sheet.clone().restore(progress, only(entry), 4).map(|record| record.dots);
        for entry in 1..=total + 1 {
            assert_eq!(restored(entry), Ok(entry as u32 - 1));
        }
        for entry in [0, total + 2, 1 << 32, (1 << 32) + 1, 1 << 63, u64::MAX] {
            assert_eq!(restored(entry), Err(Refusal::NameUnknown));
        }
    }
}

/// The greys given need not be those loaded (S 10.2).
#[test]
fn other_greys() {
    let (mut sheet, progress) = Sheet::new(4, &[10; 16], 1);
    let (expected, record) = Sheet::new(4, &[240; 16], 11);
    sheet.greys[..16].fill(240);
    assert_eq!(sheet.restore(progress, only(12), 4), Ok(record));
    assert_eq!(sheet, expected);
    sheet.greys[..16].fill(10);
    assert_eq!(sheet.restore(record, only(12), 4), Err(Refusal::NameUnknown));
}

/// The record's knit need not be the one loaded: the sheet is then that of the greys on the record's.
#[test]
fn the_other_knit() {
    let mut greys = [0; 64];
    sample(1, 8, &mut greys).unwrap();
    lower(&mut greys);
    for (loaded, asked) in [(PLAIN, RIBBED), (RIBBED, PLAIN)] {
        let (mut sheet, progress) = Sheet::on(loaded, 8, &greys, 20);
        let (expected, record) = Sheet::on(asked, 8, &greys, 20);
        assert_ne!(sheet, expected);
        assert_eq!(sheet.restore(Progress { knit: asked, ..progress }, only(21), 4), Ok(record));
        assert_eq!(sheet, expected);
    }
}

/// Samples run to their end, with names on the way, and taken back to each; the largest side once (S 15.9).
#[test]
fn finished_maps() {
    for (side, knit) in [(8, PLAIN), (8, RIBBED), (32, PLAIN), (64, RIBBED), (256, PLAIN)] {
        let mut greys = vec![0; cells(side)];
        sample(1, side, &mut greys).unwrap();
        lower(&mut greys);
        let (mut sheet, mut progress) = Sheet::on(knit, side, &greys, 0);
        let mut checkpoints = Checkpoints::default();
        let mut stages = Vec::new();
        for (name, budget) in [(2, 0), (7, 5), (1, side), (8, u32::MAX)] {
            progress = sheet.advance(progress, budget);
            checkpoints = keep(progress, checkpoints, name).unwrap();
            stages.push((name, sheet.clone(), progress));
        }
        for (name, stage, record) in stages.iter().chain(stages.iter().rev()) {
            progress = sheet.restore(progress, checkpoints, *name).unwrap();
            assert!((&sheet, progress) == (stage, *record));
        }
    }
}
