//! The sheet of a list of levels, and the direct shears of a storey's axes.

use crate::card::Card;
use crate::frame::Level;
use crate::Denial;

pub const MOST_AXES: usize = 16;

/// The smallest whole number not below `amount` / `by`, of an amount that is not negative.
pub fn divided_up(amount: i64, by: i64) -> i64 {
    (amount + by - 1) / by
}

#[derive(Clone, Copy, Debug, PartialEq, Eq)]
pub enum Verdict {
    Pass,
    Fail { storey: i64, limit: i64 },
}

/// A row of the sheet; `top` is H, `moved` is u, `drifted` is x, `apart` is s.
#[derive(Clone, Copy, Debug, PartialEq, Eq)]
pub struct Row {
    pub level: i64,
    pub weight: i64,
    pub top: i64,
    pub force: i64,
    pub shear: i64,
    pub moved: i64,
    pub drifted: i64,
    pub ma: i64,
    pub mb: i64,
    pub apart: i64,
}

#[derive(Clone, Debug, PartialEq, Eq)]
pub struct Sheet {
    pub weight: i64,
    pub base_shear: i64,
    pub verdict: Verdict,
    pub rows: Vec<Row>,
}

/// The sums of a storey and those above it.
struct Above {
    share: i64,
    shear: i64,
    turning: i64,
    weight: i64,
}

/// What a sheet and an axes call are denied by alike: 31, 32 and 33.
fn check(levels: &[Level], card: &Card) -> Result<(), Denial> {
    if levels.is_empty() {
        return Err(Denial::new(31, 0));
    }
    card.check()
}

/// The total weight, and the sum of weight × H over all levels.
fn sums(levels: &[Level]) -> (i64, i64) {
    let (mut weight, mut top, mut product) = (0, 0, 0);
    for level in levels {
        top += level.height;
        weight += level.weight;
        product += level.weight * top;
    }
    (weight, product)
}

pub fn sheet(levels: &[Level], card: &Card) -> Result<Sheet, Denial> {
    check(levels, card)?;
    let (weight, product) = sums(levels);
    let base_shear = card.base_shear(weight);
    let mut rows = rows_with_tops(levels);
    let mut verdict = Verdict::Pass;
    let mut above = Above {
        share: product,
        shear: 0,
        turning: 0,
        weight: 0,
    };
    for (row, level) in rows.iter_mut().zip(levels).rev() {
        above.share += 19 * row.weight * row.top;
        let shear = divided_up(base_shear * above.share, 20 * product);
        row.force = shear - above.shear;
        row.shear = shear;
        above.shear = shear;
        above.turning += row.force * level.mass_centre;
        above.weight += row.weight;
        if let Some(limit) = judge_storey(row, level, card, &above) {
            let storey = row.level;
            verdict = Verdict::Fail { storey, limit };
        }
    }
    if let Some(storey) = separate(&mut rows, card) {
        // On one storey the limits judged above come before the gap.
        if !matches!(verdict, Verdict::Fail { storey: other, .. } if other <= storey) {
            verdict = Verdict::Fail { storey, limit: 4 };
        }
    }
    Ok(Sheet {
        weight,
        base_shear,
        verdict,
        rows,
    })
}

/// A row a level with its number, weight and H; all else is still 0.
fn rows_with_tops(levels: &[Level]) -> Vec<Row> {
    let mut top = 0;
    let mut number = 0;
    let row = |level: &Level| {
        number += 1;
        top += level.height;
        Row {
            level: number,
            weight: level.weight,
            top,
            force: 0,
            shear: 0,
            moved: 0,
            drifted: 0,
            ma: 0,
            mb: 0,
            apart: 0,
        }
    };
    levels.iter().map(row).collect()
}

/// Fills in what the storey's own shear gives, and tells the first of limits 1 to 3 that it breaks.
fn judge_storey(row: &mut Row, level: &Level, card: &Card, above: &Above) -> Option<i64> {
    let shear = row.shear;
    let torsion = (above.turning - shear * level.torsion_centre).abs();
    let spread = level.width * shear;
    row.moved = divided_up(10 * card.q() * shear, level.stiffness);
    row.ma = 15 * torsion + spread;
    row.mb = 10 * torsion - spread;
    if row.moved > card.most_move() * level.height {
        Some(1)
    } else if card.q() >= 30 && 5 * torsion > spread {
        Some(2)
    } else if 100 * row.moved * above.weight > 8 * card.load_factor * shear * level.height {
        Some(3)
    } else {
        None
    }
}

/// Fills in x and s from below, and tells the lowest storey for which the gap is too narrow.
fn separate(rows: &mut [Row], card: &Card) -> Option<i64> {
    let mut drifted = 0;
    let mut narrow = None;
    for row in rows {
        drifted += row.moved;
        row.drifted = drifted;
        row.apart = (drifted + card.separation() * row.top).max(5_000);
        if narrow.is_none() && 100 * card.gap < row.apart {
            narrow = Some(row.level);
        }
    }
    narrow
}

/// A storey's shear, and the direct shear of each of its axes.
#[derive(Clone, Debug, PartialEq, Eq)]
pub struct Axes {
    pub shear: i64,
    pub direct: Vec<i64>,
}

pub fn axes(
    levels: &[Level],
    card: &Card,
    storey: i64,
    stiffnesses: &[i64],
) -> Result<Axes, Denial> {
    check(levels, card)?;
    if !(1..=levels.len() as i64).contains(&storey) {
        return Err(Denial::new(35, storey));
    }
    if !(1..=MOST_AXES).contains(&stiffnesses.len()) {
        return Err(Denial::new(36, 0));
    }
    let out_of_range = |k: &i64| !(1..=10_000).contains(k);
    if let Some(axis) = stiffnesses.iter().position(out_of_range) {
        return Err(Denial::new(36, axis as i64 + 1));
    }
    let shear = storey_shear(levels, card, storey as usize);
    Ok(Axes {
        shear,
        direct: spread(shear, stiffnesses),
    })
}

/// The shear of one storey, on a list and a card that are checked.
fn storey_shear(levels: &[Level], card: &Card, storey: usize) -> i64 {
    let (weight, product) = sums(levels);
    // All shares are 20 × product; what stands below the storey has no part of the top's extra.
    let (_, below) = sums(&levels[..storey - 1]);
    let tail = 20 * product - 19 * below;
    divided_up(card.base_shear(weight) * tail, 20 * product)
}

/// The parts of `amount` for `shares` of which none is below 1.
fn spread(amount: i64, shares: &[i64]) -> Vec<i64> {
    let total: i64 = shares.iter().sum();
    let mut rest = total;
    let mut tail = amount;
    let part = |share: &i64| {
        rest -= share;
        let next = divided_up(amount * rest, total);
        let part = tail - next;
        tail = next;
        part
    };
    shares.iter().map(part).collect()
}
