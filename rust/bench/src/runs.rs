//! Load and Advance to the end, in one stretch, by the library and by both Rusts, on either cloth.

use crate::buffers::Buffers;
use crate::clock::timed;
use crate::engines::{Engine, LIBRARY, PLAIN, STEPPED};
use crate::table::{grouped, Row, MILLISECONDS};
use crate::turns::{in_turn, Runner};
use crate::{sampled, CLOTHS, POWER, SIDE};

pub fn rows() -> Vec<Row> {
    CLOTHS.into_iter().enumerate().flat_map(|(knit, cloth)| on_cloth(knit, cloth)).collect()
}

fn on_cloth(knit: usize, cloth: &str) -> Vec<Row> {
    let greys = sampled(POWER);
    let run = |engine: Engine| {
        let greys = &greys;
        move || {
            let mut buffers = Buffers::cleared(POWER);
            let (time, dots) = timed(|| {
                (engine.load)(POWER, knit, greys, &mut buffers);
                (engine.advance)(POWER, knit, 0, u32::MAX, &mut buffers)
            });
            ([time], (dots, buffers))
        }
    };
    let (times, (dots, _)) = in_turn(
        Runner { name: LIBRARY.name, run: &run(LIBRARY) },
        &[Runner { name: PLAIN.name, run: &run(PLAIN) }, Runner { name: STEPPED.name, run: &run(STEPPED) }],
    );
    let row = |engine: Engine, other: usize| Row {
        what: format!("Load and Advance, side {SIDE}, {cloth} cloth, {} holes", grouped(dots as usize)),
        unit: MILLISECONDS,
        library: times[0][0],
        beside: engine.name.to_string(),
        other: times[other][0],
    };
    vec![row(PLAIN, 1), row(STEPPED, 2)]
}
