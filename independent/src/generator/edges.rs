//! Files with a number, a count or a sum at an edge of what is allowed, or one beyond it.

use super::dice::Dice;
use super::draft;
use crate::file::OrderFile;
use crate::frame::{Kit, Level, GREATEST_HEIGHT, GREATEST_WEIGHT, MOST_LEVELS};
use crate::order::{Load, GREATEST_LOAD, MOST_LINES};

/// A file that is sound but for what is then done to it, mostly with at least one level.
fn base(dice: &mut Dice) -> OrderFile {
    let mut file = draft::sound(dice);
    while file.kit.is_none() && file.levels.is_empty() && !dice.once_in(10) {
        file = draft::sound(dice);
    }
    file
}

fn levels_of(file: &OrderFile) -> i64 {
    file.kit.as_ref().map_or(0, |kit| kit.count) + file.levels.len() as i64
}

/// At least, at most or one beyond either.
fn edge(dice: &mut Dice, least: i64, most: i64) -> i64 {
    dice.pick(&[least - 1, least, most, most + 1])
}

pub fn frame(dice: &mut Dice) -> OrderFile {
    let mut file = base(dice);
    for _ in 0..dice.pick(&[1, 1, 1, 2]) {
        one_frame_number(&mut file, dice);
    }
    file
}

fn one_frame_number(file: &mut OrderFile, dice: &mut Dice) {
    let own = file.levels.len();
    match &mut file.kit {
        Some(kit) if own == 0 || dice.once_in(2) => kit_number(kit, dice),
        _ if own > 0 => {
            let storey = dice.index(own);
            level_number(&mut file.levels[storey], dice);
        }
        _ => (),
    }
}

fn level_number(level: &mut Level, dice: &mut Dice) {
    match dice.below(6) {
        0 => level.weight = edge(dice, 1, GREATEST_WEIGHT),
        1 => level.height = edge(dice, 20, 60),
        2 => level.stiffness = edge(dice, 1, 1_000_000),
        3 => level.mass_centre = edge(dice, 0, level.width),
        4 => level.torsion_centre = edge(dice, 0, level.width),
        _ => level.width = edge(dice, 1, 1_000),
    }
}

fn kit_number(kit: &mut Kit, dice: &mut Dice) {
    match dice.below(8) {
        0 => kit.count = edge(dice, 1, MOST_LEVELS as i64),
        1 => kit.floor_weight = edge(dice, 1, GREATEST_WEIGHT),
        2 => kit.roof_weight = edge(dice, 1, GREATEST_WEIGHT),
        3 => kit.height = edge(dice, 20, 60),
        4 => kit.stiffness = edge(dice, 1, 1_000_000),
        5 => kit.mass_centre = edge(dice, 0, kit.width),
        6 => kit.torsion_centre = edge(dice, 0, kit.width),
        _ => kit.width = edge(dice, 1, 1_000),
    }
}

pub fn card(dice: &mut Dice) -> OrderFile {
    let mut file = base(dice);
    for _ in 0..dice.pick(&[1, 1, 2, 3]) {
        one_card_field(&mut file, dice);
    }
    file
}

fn one_card_field(file: &mut OrderFile, dice: &mut Dice) {
    let card = &mut file.card;
    let (c, ta, tb) = (card.coefficient, card.ta, card.tb);
    match dice.below(10) {
        0 => card.coefficient = edge(dice, 1, 570),
        1 => card.at_zero = edge(dice, 1, c),
        2 => card.ta = dice.pick(&[0, 1, tb, tb + 1, 1_000, 1_001]),
        3 => card.tb = dice.pick(&[ta - 1, ta, ta + 1, 1_000, 1_001]),
        4 => card.period = Some(dice.pick(&[0, 1, ta - 1, ta, ta + 1, tb - 1])),
        5 => card.period = Some(dice.pick(&[tb, tb + 1, tb + 1, 1_000, 1_001])),
        6 => card.behaviour = dice.pick(&[0, 1, 9, 10, 11, 14, 15, 16, 19, 20, 21, 25, 29]),
        7 => card.behaviour = dice.pick(&[30, 31, 35, 39, 40, 41, 50, 100]),
        8 => card.correction = edge(dice, 50, 100),
        _ if dice.once_in(2) => card.load_factor = edge(dice, 100, 200),
        _ => card.gap = edge(dice, 0, 10_000),
    }
}

pub fn count(dice: &mut Dice) -> OrderFile {
    let mut file = base(dice);
    match dice.below(4) {
        0 => {
            file.kit = None;
            let count = dice.pick(&[23, 24, 25, 26]);
            file.levels = draft::stack(dice, count, 20 * count as i64 + 15);
        }
        1 => {
            let count = dice.pick(&[7, 8, 9, 10]);
            file.levels = draft::stack(dice, count, GREATEST_HEIGHT);
        }
        2 => {
            let count = dice.pick(&[MOST_LINES - 1, MOST_LINES, MOST_LINES + 1]);
            let most = levels_of(&file).max(1);
            let load = |number: usize| Load {
                level: number as i64 % most + 1,
                load: 1,
            };
            file.loads = (0..count).map(load).collect();
        }
        _ => full_kit(&mut file, dice),
    }
    file
}

/// A kit and storeys of which the number is at the edge, with other faults near the first too many.
fn full_kit(file: &mut OrderFile, dice: &mut Dice) {
    let storeys = dice.between(0, 8);
    let total = dice.between(MOST_LEVELS as i64 - 1, MOST_LEVELS as i64 + 2);
    let count = (total - storeys).min(MOST_LEVELS as i64);
    let mut kit = file.kit.unwrap_or(Kit {
        count,
        floor_weight: 80,
        roof_weight: 60,
        height: 20,
        stiffness: 90_000,
        mass_centre: 50,
        torsion_centre: 55,
        width: 100,
    });
    (kit.count, kit.height) = (count, 20);
    file.kit = Some(kit);
    file.levels = draft::stack(dice, storeys as usize, 20 * storeys);
    let too_many = MOST_LEVELS as i64 - count;
    let near = (too_many + dice.between(-1, 1)).clamp(0, 7) as usize;
    if let Some(level) = file.levels.get_mut(near) {
        match dice.below(4) {
            0 => level.weight = 0,
            1 => level.height = 60,
            2 => level.height = 61,
            _ => (),
        }
    }
}

pub fn height(dice: &mut Dice) -> OrderFile {
    let mut file = base(dice);
    if dice.once_in(2) {
        let count = dice.between(9, MOST_LEVELS as i64) as usize;
        file.kit = None;
        file.levels = tall(dice, count, GREATEST_HEIGHT);
    } else {
        let (count, height) = dice.pick(&[
            (10, 50),
            (20, 25),
            (9, 56),
            (21, 24),
            (8, 60),
            (16, 30),
            (24, 20),
            (24, 21),
        ]);
        let mut kit = file.kit.unwrap_or(Kit {
            count,
            floor_weight: 100,
            roof_weight: 50,
            height,
            stiffness: 100_000,
            mass_centre: 30,
            torsion_centre: 30,
            width: 70,
        });
        (kit.count, kit.height) = (count, height);
        file.kit = Some(kit);
        let room = GREATEST_HEIGHT - count * height;
        let storeys = (room / 20).max(0) as usize;
        file.levels = tall(dice, storeys, room);
    }
    match dice.below(3) {
        0 => (),
        1 => one_higher(&mut file, dice),
        _ => file.levels.extend(draft::stack(dice, 1, 20)),
    }
    file
}

/// Levels whose heights have just the sum `room`, where so many levels can have it.
fn tall(dice: &mut Dice, count: usize, room: i64) -> Vec<Level> {
    let mut levels = draft::stack(dice, count, 20 * count as i64);
    let mut rest = room - 20 * count as i64;
    while rest > 0 && levels.iter().any(|level| level.height < 60) {
        let storey = dice.index(count);
        let more = dice.between(1, rest).min(60 - levels[storey].height);
        levels[storey].height += more;
        rest -= more;
    }
    levels
}

fn one_higher(file: &mut OrderFile, dice: &mut Dice) {
    if !file.levels.is_empty() {
        let storey = dice.index(file.levels.len());
        file.levels[storey].height += 1;
    }
}

pub fn load(dice: &mut Dice) -> OrderFile {
    let mut file = base(dice);
    for _ in 0..dice.pick(&[1, 1, 2]) {
        one_load(&mut file, dice);
    }
    file
}

fn one_load(file: &mut OrderFile, dice: &mut Dice) {
    let count = levels_of(file);
    let level = match dice.below(3) {
        0 => dice.pick(&[0, 1, count, count + 1, count + 2, 25, 999_999_999]),
        _ => dice.between(1, count.max(1)),
    };
    let load = match dice.below(6) {
        0 => 0,
        1 => dice.pick(&[-1, 1]) * GREATEST_LOAD,
        2 => dice.pick(&[-1, 1]) * (GREATEST_LOAD + 1),
        3 => dice.pick(&[-999_999_999, 999_999_999, -4_999, 4_999]),
        _ => dice.between(-5, 5),
    };
    let at = dice.index(file.loads.len() + 1);
    file.loads.insert(at, Load { level, load });
    file.loads.truncate(MOST_LINES);
}

/// Loads that take one level's weight to an edge of its range, or one beyond.
pub fn weight(dice: &mut Dice) -> OrderFile {
    let mut file = base(dice);
    file.loads.truncate(40);
    let Some(levels) = draft::loaded(&file).filter(|levels| !levels.is_empty()) else {
        return file;
    };
    let storey = dice.index(levels.len());
    let end = edge(dice, 1, GREATEST_WEIGHT);
    let mut rest = end - levels[storey].weight;
    for part in (0..dice.between(1, 8)).rev() {
        let load = match part {
            0 => rest,
            // A part the other way makes the sum pass through other weights.
            _ if dice.once_in(4) => dice.between(-3, 3),
            _ => dice.between(0, rest.abs()) * rest.signum(),
        };
        rest -= load;
        if load != 0 {
            let level = storey as i64 + 1;
            file.loads.push(Load { level, load });
        }
    }
    file
}

/// Several edges at once, so that what is judged first shows.
pub fn several(dice: &mut Dice) -> OrderFile {
    let mut file = match dice.below(4) {
        0 => count(dice),
        1 => height(dice),
        _ => base(dice),
    };
    for _ in 0..dice.between(2, 5) {
        match dice.below(3) {
            0 => one_frame_number(&mut file, dice),
            1 => one_load(&mut file, dice),
            _ => one_card_field(&mut file, dice),
        }
    }
    file
}
