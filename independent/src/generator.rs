//! Order files and desk inputs out of a seed: sound ones, ones at every edge, and damaged ones.

mod aim;
mod damage;
mod days;
mod dice;
mod draft;
mod edges;

use crate::card::{Card, Group, Soil, Walls};
use crate::file::OrderFile;
use crate::frame::Level;
use crate::order::Load;
use dice::Dice;

pub use days::day;

/// What a generated file is made to show.
#[derive(Clone, Copy, Debug, PartialEq, Eq)]
pub enum Kind {
    /// Numbers steered so that no limit is broken.
    Sound,
    /// Numbers within their ranges, and no more.
    Loose,
    /// A limit met or broken as narrowly as can be.
    AtLimit(i64),
    FrameEdge,
    CardEdge,
    CountEdge,
    HeightEdge,
    LoadEdge,
    WeightEdge,
    SeveralFaults,
    Miscounted,
    LongNumber,
    DamagedBytes,
    DamagedLines,
    DamagedLayout,
    DamagedWords,
    Surplus,
    Noise,
}

/// Each kind with its share of the files.
const KINDS: [(Kind, u64); 21] = [
    (Kind::Sound, 14),
    (Kind::Loose, 6),
    (Kind::AtLimit(1), 6),
    (Kind::AtLimit(2), 6),
    (Kind::AtLimit(3), 6),
    (Kind::AtLimit(4), 6),
    (Kind::FrameEdge, 7),
    (Kind::CardEdge, 8),
    (Kind::CountEdge, 5),
    (Kind::HeightEdge, 4),
    (Kind::LoadEdge, 5),
    (Kind::WeightEdge, 5),
    (Kind::SeveralFaults, 6),
    (Kind::Miscounted, 2),
    (Kind::LongNumber, 3),
    (Kind::DamagedBytes, 4),
    (Kind::DamagedLines, 3),
    (Kind::DamagedLayout, 4),
    (Kind::DamagedWords, 3),
    (Kind::Surplus, 3),
    (Kind::Noise, 1),
];

pub fn kind(seed: u64, index: u64) -> Kind {
    rolled_kind(&mut Dice::new(seed, index))
}

fn rolled_kind(dice: &mut Dice) -> Kind {
    let all = KINDS.iter().map(|(_, share)| share).sum();
    let mut rest = dice.below(all);
    for (kind, share) in KINDS {
        if rest < share {
            return kind;
        }
        rest -= share;
    }
    Kind::Sound
}

/// The order file number `index` of a seed: always the same bytes.
pub fn file(seed: u64, index: u64) -> Vec<u8> {
    let mut dice = Dice::new(seed, index);
    let kind = rolled_kind(&mut dice);
    let dice = &mut dice;
    match kind {
        Kind::Sound => draft::text(&draft::sound(dice)),
        Kind::Loose => draft::text(&draft::loose(dice)),
        Kind::AtLimit(limit) => draft::text(&aim::at_limit(dice, limit)),
        Kind::FrameEdge => draft::text(&edges::frame(dice)),
        Kind::CardEdge => draft::text(&edges::card(dice)),
        Kind::CountEdge => draft::text(&edges::count(dice)),
        Kind::HeightEdge => draft::text(&edges::height(dice)),
        Kind::LoadEdge => draft::text(&edges::load(dice)),
        Kind::WeightEdge => draft::text(&edges::weight(dice)),
        Kind::SeveralFaults => draft::text(&edges::several(dice)),
        Kind::Miscounted => damage::miscounted(dice),
        Kind::LongNumber => damage::long_number(dice),
        Kind::DamagedBytes => damage::bytes(dice),
        Kind::DamagedLines => damage::lines(dice),
        Kind::DamagedLayout => damage::layout(dice),
        Kind::DamagedWords => damage::words(dice),
        Kind::Surplus => damage::surplus(dice),
        Kind::Noise => damage::noise(dice),
    }
}

/// An order file with a sheet, of at most 24 levels and 64 loads: loads of both signs on all levels.
pub fn bench_file(levels: usize, loads: usize) -> Vec<u8> {
    let level = |number: usize| Level {
        weight: 200 + 7 * number as i64,
        height: 20,
        stiffness: 9_000 - 300 * number as i64,
        mass_centre: 50 + number as i64 % 3,
        torsion_centre: 52,
        width: 110,
    };
    let round = levels.max(1);
    // Each level gets a load of the other sign in the next round.
    let load = |number: usize| Load {
        level: (number % round) as i64 + 1,
        load: [12, -9][(number + number / round) % 2],
    };
    draft::text(&OrderFile {
        kit: None,
        levels: (0..levels).map(level).collect(),
        loads: (0..loads).map(load).collect(),
        card: Card {
            soil: Soil::II,
            group: Group::B,
            coefficient: 360,
            at_zero: 100,
            ta: 20,
            tb: 60,
            period: Some(15),
            behaviour: 20,
            correction: 90,
            walls: Walls::Free,
            load_factor: 110,
            gap: 400,
        },
    })
}
