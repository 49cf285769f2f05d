//! Order files whose numbers are within their ranges, and their text.

use super::aim;
use super::dice::Dice;
use crate::card::{Card, Group, Soil, Walls};
use crate::file::OrderFile;
use crate::frame::{Kit, Level, GREATEST_HEIGHT, MOST_LEVELS, MOST_STOREYS_ON_TOP};
use crate::order::{Load, Order, MOST_LINES};
use crate::text::Sink;

/// A file with numbers steered so that its verdict is PASS where that can be.
pub fn sound(dice: &mut Dice) -> OrderFile {
    let mut file = loose(dice);
    aim::relax(&mut file, dice);
    file
}

/// A file with all numbers within their ranges.
pub fn loose(dice: &mut Dice) -> OrderFile {
    let mut file = OrderFile {
        kit: None,
        levels: Vec::new(),
        loads: Vec::new(),
        card: card(dice),
    };
    if dice.once_in(2) {
        with_kit(&mut file, dice);
    } else {
        let count = count(dice, MOST_LEVELS);
        file.levels = stack(dice, count, GREATEST_HEIGHT);
    }
    add_loads(&mut file, dice);
    file
}

/// 0 to `most`, small ones more often.
fn count(dice: &mut Dice, most: usize) -> usize {
    match dice.below(20) {
        0 => 0,
        1 => most,
        2..=9 => dice.index(most.min(4) + 1),
        _ => dice.index(most + 1),
    }
}

fn with_kit(file: &mut OrderFile, dice: &mut Dice) {
    let floors = count(dice, MOST_LEVELS).max(1);
    let storeys = count(dice, MOST_STOREYS_ON_TOP.min(MOST_LEVELS - floors));
    let room = GREATEST_HEIGHT - 20 * storeys as i64;
    let kit = kit(dice, floors as i64, room);
    file.levels = stack(dice, storeys, GREATEST_HEIGHT - kit.count * kit.height);
    file.kit = Some(kit);
}

fn kit(dice: &mut Dice, count: i64, room: i64) -> Kit {
    let height = dice.between(20, (room / count).min(60));
    let level = level(dice, height);
    Kit {
        count,
        floor_weight: level.weight,
        roof_weight: weight(dice),
        height,
        stiffness: level.stiffness,
        mass_centre: level.mass_centre,
        torsion_centre: level.torsion_centre,
        width: level.width,
    }
}

/// Levels of which the heights leave room for one another.
pub fn stack(dice: &mut Dice, count: usize, room: i64) -> Vec<Level> {
    let mut room = room;
    let mut levels = Vec::with_capacity(count);
    for above in (0..count as i64).rev() {
        let height = dice.between(20, (room - 20 * above).min(60));
        room -= height;
        levels.push(level(dice, height));
    }
    levels
}

fn weight(dice: &mut Dice) -> i64 {
    match dice.below(8) {
        0 => dice.between(1, 5_000),
        1 => dice.between(1, 10),
        _ => dice.between(20, 400),
    }
}

fn level(dice: &mut Dice, height: i64) -> Level {
    let width = match dice.below(6) {
        0 => dice.between(1, 1_000),
        1 => dice.between(1, 20),
        2 => 5 * dice.between(10, 60),
        _ => dice.between(60, 300),
    };
    let (most, around) = (width, width / 2);
    let centre = |dice: &mut Dice| match dice.below(5) {
        0 => dice.between(0, most),
        _ => (around + dice.between(-most / 8, most / 8)).clamp(0, most),
    };
    Level {
        weight: weight(dice),
        height,
        stiffness: match dice.below(4) {
            0 => dice.between(1, 1_000_000),
            1 => dice.between(1, 1_000),
            _ => dice.between(500, 60_000),
        },
        mass_centre: centre(dice),
        torsion_centre: centre(dice),
        width,
    }
}

fn card(dice: &mut Dice) -> Card {
    let coefficient = match dice.below(4) {
        0 => dice.between(1, 570),
        _ => dice.between(60, 400),
    };
    let ta = match dice.below(4) {
        0 => dice.between(1, 1_000),
        _ => dice.between(1, 60),
    };
    let tb = match dice.below(4) {
        0 => ta,
        1 => dice.between(ta, 1_000),
        _ => dice.between(ta, (3 * ta).min(1_000)),
    };
    Card {
        soil: dice.pick(&[Soil::I, Soil::II, Soil::III]),
        group: dice.pick(&[Group::B, Group::B, Group::A, Group::AA]),
        coefficient,
        at_zero: dice.between(1, coefficient),
        ta,
        tb,
        period: period(dice, ta, tb),
        behaviour: dice.pick(&[10, 15, 20, 30, 40]),
        correction: match dice.below(3) {
            0 => 100,
            _ => dice.between(50, 100),
        },
        walls: dice.pick(&[Walls::Tied, Walls::Free]),
        load_factor: dice.between(100, 200),
        gap: dice.between(0, 600),
    }
}

fn period(dice: &mut Dice, ta: i64, tb: i64) -> Option<i64> {
    match dice.below(10) {
        0..=2 => None,
        3 => Some(ta),
        4 => Some(tb),
        5 => Some((ta - 1).max(1)),
        6 => Some((ta + 1).min(tb)),
        7 => Some(dice.between(ta, tb)),
        _ => Some(dice.between(1, ta)),
    }
}

/// Loads that are all taken, where the file has levels.
fn add_loads(file: &mut OrderFile, dice: &mut Dice) {
    let wanted = match dice.below(8) {
        0..=2 => 0,
        3..=5 => dice.index(6),
        6 => dice.index(MOST_LINES + 1),
        _ => MOST_LINES,
    };
    let Ok(levels) = file.frame() else { return };
    let count = levels.len();
    let mut order = Order::over(levels);
    for _ in 0..2 * wanted * usize::from(count > 0) {
        let most = dice.pick(&[1, 10, 10, 100, 5_000]);
        let load = Load {
            level: dice.between(1, count as i64),
            load: dice.between(-most, most),
        };
        if file.loads.len() < wanted && order.load(load).is_ok() {
            file.loads.push(load);
        }
    }
}

/// The file's list of levels with the loads on it, where the frame and the loads are good.
pub fn loaded(file: &OrderFile) -> Option<Vec<Level>> {
    let mut order = Order::over(file.frame().ok()?);
    for load in &file.loads {
        order.load(*load).ok()?;
    }
    Some(order.levels().to_vec())
}

fn put_line(text: &mut Vec<u8>, values: &[i64]) {
    text.number(values[0]);
    text.numbers(&values[1..]);
    text.put(b"\n");
}

fn put_kit(text: &mut Vec<u8>, kit: &Kit) {
    put_line(
        text,
        &[
            kit.count,
            kit.floor_weight,
            kit.roof_weight,
            kit.height,
            kit.stiffness,
            kit.mass_centre,
            kit.torsion_centre,
            kit.width,
        ],
    );
}

/// The text of an order file, of numbers out of their ranges too.
pub fn text(file: &OrderFile) -> Vec<u8> {
    let mut text = Vec::new();
    text.line("KIT", &[i64::from(file.kit.is_some())]);
    if let Some(kit) = &file.kit {
        put_kit(&mut text, kit);
    }
    text.line("LEVELS", &[file.levels.len() as i64]);
    for level in &file.levels {
        put_line(
            &mut text,
            &[
                level.weight,
                level.height,
                level.stiffness,
                level.mass_centre,
                level.torsion_centre,
                level.width,
            ],
        );
    }
    text.line("LOADS", &[file.loads.len() as i64]);
    for load in &file.loads {
        put_line(&mut text, &[load.level, load.load]);
    }
    text.put(b"CARD 1\n");
    put_card(&mut text, &file.card);
    text
}

/// The twelve fields and the line's end.
pub fn put_card(text: &mut Vec<u8>, card: &Card) {
    text.put(match card.soil {
        Soil::I => b"I ",
        Soil::II => b"II ",
        Soil::III => b"III ",
    });
    text.put(match card.group {
        Group::B => b"B",
        Group::A => b"A",
        Group::AA => b"AA",
    });
    text.numbers(&[card.coefficient, card.at_zero, card.ta, card.tb]);
    match card.period {
        Some(period) => text.numbers(&[period]),
        None => text.put(b" -"),
    }
    text.numbers(&[card.behaviour, card.correction]);
    text.put(match card.walls {
        Walls::Tied => b" W",
        Walls::Free => b" N",
    });
    text.line("", &[card.load_factor, card.gap]);
}
