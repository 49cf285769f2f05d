//! Steers the numbers of a file so that its limits are met, or met and broken as narrowly as can be.

use super::dice::Dice;
use super::draft;
use crate::card::{Card, Group, Soil, Walls};
use crate::file::OrderFile;
use crate::frame::Level;
use crate::sheet::{divided_up, sheet, Row};

const GREATEST_STIFFNESS: i64 = 1_000_000;

/// The loaded levels of a file and their rows, where it has a sheet.
fn rows(file: &OrderFile) -> Option<(Vec<Level>, Vec<Row>)> {
    let levels = draft::loaded(file)?;
    let sheet = sheet(&levels, &file.card).ok()?;
    Some((levels, sheet.rows))
}

/// How many of the frame's storeys are the kit's.
fn kit_storeys(file: &OrderFile) -> usize {
    file.kit.as_ref().map_or(0, |kit| kit.count as usize)
}

/// The stiffness of a storey, counted from 0; the kit's storeys share one.
fn stiffness_of(file: &mut OrderFile, storey: usize) -> &mut i64 {
    let own = kit_storeys(file);
    match &mut file.kit {
        Some(kit) if storey < own => &mut kit.stiffness,
        _ => &mut file.levels[storey - own].stiffness,
    }
}

fn torsion_centre_of(file: &mut OrderFile, storey: usize) -> &mut i64 {
    let own = kit_storeys(file);
    match &mut file.kit {
        Some(kit) if storey < own => &mut kit.torsion_centre,
        _ => &mut file.levels[storey - own].torsion_centre,
    }
}

/// The most that a storey may move for limit 3, at the given load factor.
fn most_move_of_limit_3(levels: &[Level], rows: &[Row], storey: usize, factor: i64) -> i64 {
    let above: i64 = levels[storey..].iter().map(|level| level.weight).sum();
    8 * factor * rows[storey].shear * levels[storey].height / (100 * above)
}

/// Makes storeys stiff and straight enough, and the gap wide enough, where that can be.
pub fn relax(file: &mut OrderFile, dice: &mut Dice) {
    let Some((levels, rows)) = rows(file) else {
        return;
    };
    let mut least_of_kit = 1;
    for (storey, level) in levels.iter().enumerate() {
        let third = most_move_of_limit_3(&levels, &rows, storey, file.card.load_factor);
        let most = third.min(file.card.most_move() * level.height).max(1);
        let mut least = divided_up(10 * file.card.q() * rows[storey].shear, most);
        if storey < kit_storeys(file) {
            least_of_kit = least_of_kit.max(least);
            least = least_of_kit;
        }
        let stiffness = least + dice.between(0, 2 * least);
        *stiffness_of(file, storey) = stiffness.min(GREATEST_STIFFNESS);
        let (low, high) = straight(&levels, &rows, storey);
        let (low, high) = (low.clamp(0, level.width), high.clamp(0, level.width));
        if low <= high {
            *torsion_centre_of(file, storey) = dice.between(low, high);
        }
    }
    set_gap(file, dice);
}

fn set_gap(file: &mut OrderFile, dice: &mut Dice) {
    if let Some((_, rows)) = rows(file) {
        let widest = rows.iter().map(|row| row.apart).max().unwrap_or(0);
        let spare = dice.pick(&[0, 0, 5, 100]);
        file.card.gap = (divided_up(widest, 100) + spare).min(10_000);
    }
}

/// The least and the greatest torsion centre for limit 2, perhaps beyond the width.
fn straight(levels: &[Level], rows: &[Row], storey: usize) -> (i64, i64) {
    let above = levels.iter().zip(rows).skip(storey);
    let turning: i64 = above
        .map(|(level, row)| row.force * level.mass_centre)
        .sum();
    let shear = rows[storey].shear;
    let slack = levels[storey].width * shear;
    let low = (5 * turning - slack).div_euclid(5 * shear);
    let is_whole = low * 5 * shear == 5 * turning - slack;
    let high = (5 * turning + slack).div_euclid(5 * shear);
    (low + i64::from(!is_whole), high)
}

/// A file of which a storey meets a limit, or breaks it, as narrowly as can be.
pub fn at_limit(dice: &mut Dice, limit: i64) -> OrderFile {
    let mut file = draft::loose(dice);
    lean(&mut file.card, dice, limit);
    if limit == 2 && dice.once_in(2) {
        align(&mut file, dice);
    }
    relax(&mut file, dice);
    let Some((levels, rows)) = rows(&file) else {
        return file;
    };
    let storey = dice.index(levels.len());
    // A kit's lowest storey moves most and carries most.
    let stiff = if storey < kit_storeys(&file) {
        0
    } else {
        storey
    };
    match limit {
        1 => {
            let most = file.card.most_move() * levels[stiff].height;
            set_move(&mut file, dice, stiff, rows[stiff].shear, most);
        }
        2 => set_torsion_centre(&mut file, dice, storey, &levels, &rows),
        3 => {
            let factor = whole_factor(dice, &levels, &rows, stiff, file.card.load_factor);
            file.card.load_factor = factor;
            let most = most_move_of_limit_3(&levels, &rows, stiff, factor);
            set_move(&mut file, dice, stiff, rows[stiff].shear, most);
        }
        _ => narrow_gap(&mut file, dice, storey),
    }
    if limit != 4 {
        set_gap(&mut file, dice);
    }
    file
}

/// A card under which the limit decides.
fn lean(card: &mut Card, dice: &mut Dice, limit: i64) {
    if limit == 2 {
        card.group = dice.pick(&[Group::B, Group::A]);
        card.behaviour = dice.pick(&[30, 40]);
    }
    if limit == 3 {
        card.walls = Walls::Free;
        card.coefficient = dice.between(1, 90);
        card.load_factor = dice.between(100, 130);
        if dice.once_in(2) {
            // The lowest shear is then a small whole multiple of the weight, so that limit 3 can
            // be equal.
            (card.period, card.correction) = (None, 100);
            card.behaviour = dice.pick(&[10, 20, 30]);
            card.coefficient = card.behaviour * dice.between(1, 3);
        }
        card.at_zero = dice.between(1, card.coefficient);
    }
    if limit == 4 {
        card.soil = dice.pick(&[Soil::II, Soil::III, Soil::III]);
    }
}

/// Puts all mass centres on one line and makes widths whole fives, so that limit 2 can be equal.
fn align(file: &mut OrderFile, dice: &mut Dice) {
    let width = 5 * dice.between(4, 200);
    let centre = dice.between(0, width);
    if let Some(kit) = &mut file.kit {
        (kit.width, kit.mass_centre) = (width, centre);
        kit.torsion_centre = kit.torsion_centre.min(width);
    }
    for level in &mut file.levels {
        (level.width, level.mass_centre) = (width, centre);
        level.torsion_centre = level.torsion_centre.min(width);
    }
}

/// Sets a stiffness so that the storey's move is just at most `most`, or just above it.
fn set_move(file: &mut OrderFile, dice: &mut Dice, storey: usize, shear: i64, most: i64) {
    let least = divided_up(10 * file.card.q() * shear, most.max(1));
    let stiffness = least - i64::from(dice.once_in(2));
    *stiffness_of(file, storey) = stiffness.clamp(1, GREATEST_STIFFNESS);
}

fn set_torsion_centre(
    file: &mut OrderFile,
    dice: &mut Dice,
    storey: usize,
    levels: &[Level],
    rows: &[Row],
) {
    let (low, high) = straight(levels, rows, storey);
    let centre = dice.pick(&[low - 1, low, high, high + 1]);
    *torsion_centre_of(file, storey) = centre.clamp(0, levels[storey].width);
}

/// A load factor at which the greatest move of limit 3 is a whole number, where one is found.
fn whole_factor(
    dice: &mut Dice,
    levels: &[Level],
    rows: &[Row],
    storey: usize,
    factor: i64,
) -> i64 {
    let above: i64 = levels[storey..].iter().map(|level| level.weight).sum();
    let one = 8 * rows[storey].shear * levels[storey].height;
    let start = dice.between(0, 100);
    (0..=100)
        .map(|step| 100 + (start + step) % 101)
        .find(|factor| one * factor % (100 * above) == 0)
        .unwrap_or(factor)
}

/// Sets the gap so that a storey's separation is equal to it or one hundredth of a mm more, where
/// that is found; else just wide enough or just too narrow.
fn narrow_gap(file: &mut OrderFile, dice: &mut Dice, storey: usize) {
    let over = dice.pick(&[0, 1]);
    let tries = dice.pick(&[1, 200]);
    let mut apart = 0;
    for _ in 0..tries {
        let Some((_, rows)) = rows(file) else { return };
        apart = rows[storey].apart;
        if apart % 100 == over {
            break;
        }
        let other = dice.index(storey + 1);
        let stiffness = stiffness_of(file, other);
        *stiffness = (*stiffness + dice.between(1, 40)).min(GREATEST_STIFFNESS);
    }
    file.card.gap = divided_up(apart - over, 100).min(10_000);
}
