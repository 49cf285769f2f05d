//! Frames: level records, typed tables of them, kits and the storeys on top.

use crate::Denial;

pub const MOST_LEVELS: usize = 24;
pub const MOST_STOREYS_ON_TOP: usize = 8;
pub const GREATEST_HEIGHT: i64 = 500;
pub const GREATEST_WEIGHT: i64 = 5_000;

/// A level record, its numbers in the order of the file.
#[derive(Clone, Copy, Debug, PartialEq, Eq)]
pub struct Level {
    pub weight: i64,
    pub height: i64,
    pub stiffness: i64,
    pub mass_centre: i64,
    pub torsion_centre: i64,
    pub width: i64,
}

impl Level {
    pub fn is_within_ranges(&self) -> bool {
        (1..=GREATEST_WEIGHT).contains(&self.weight)
            && (20..=60).contains(&self.height)
            && (1..=1_000_000).contains(&self.stiffness)
            && (1..=1_000).contains(&self.width)
            && (0..=self.width).contains(&self.mass_centre)
            && (0..=self.width).contains(&self.torsion_centre)
    }
}

/// The eight numbers of a kit, in the order of the file.
#[derive(Clone, Copy, Debug, PartialEq, Eq)]
pub struct Kit {
    pub count: i64,
    pub floor_weight: i64,
    pub roof_weight: i64,
    pub height: i64,
    pub stiffness: i64,
    pub mass_centre: i64,
    pub torsion_centre: i64,
    pub width: i64,
}

impl Kit {
    fn level(&self, weight: i64) -> Level {
        Level {
            weight,
            height: self.height,
            stiffness: self.stiffness,
            mass_centre: self.mass_centre,
            torsion_centre: self.torsion_centre,
            width: self.width,
        }
    }

    /// The kit's ranges, the floor weight's too where no level has it, then the height of its top.
    fn check(&self) -> Result<(), Denial> {
        let within = (1..=MOST_LEVELS as i64).contains(&self.count)
            && self.level(self.floor_weight).is_within_ranges()
            && self.level(self.roof_weight).is_within_ranges();
        if !within {
            Err(Denial::new(12, 0))
        } else if self.count * self.height > GREATEST_HEIGHT {
            Err(Denial::new(13, 0))
        } else {
            Ok(())
        }
    }
}

/// A list of levels under construction, with the level height of its top.
struct Stack {
    levels: Vec<Level>,
    height: i64,
}

impl Stack {
    fn push(&mut self, level: &Level) -> Result<(), Denial> {
        let place = self.levels.len() as i64 + 1;
        if !level.is_within_ranges() {
            return Err(Denial::new(12, place));
        }
        if self.height + level.height > GREATEST_HEIGHT {
            return Err(Denial::new(13, place));
        }
        self.height += level.height;
        self.levels.push(*level);
        Ok(())
    }
}

/// The list of a typed frame in which `levels` are laid.
pub fn typed(levels: &[Level]) -> Result<Vec<Level>, Denial> {
    if levels.len() > MOST_LEVELS {
        return Err(Denial::new(11, MOST_LEVELS as i64 + 1));
    }
    let mut stack = Stack {
        levels: Vec::with_capacity(levels.len()),
        height: 0,
    };
    for level in levels {
        stack.push(level)?;
    }
    Ok(stack.levels)
}

/// The list of a topping on `kit` to which `storeys` are added from below.
pub fn topped(kit: &Kit, storeys: &[Level]) -> Result<Vec<Level>, Denial> {
    kit.check()?;
    let floors = kit.count as usize - 1;
    let mut levels = Vec::with_capacity(floors + 1 + storeys.len());
    levels.resize(floors, kit.level(kit.floor_weight));
    levels.push(kit.level(kit.roof_weight));
    let mut stack = Stack {
        levels,
        height: kit.count * kit.height,
    };
    for (own, storey) in storeys.iter().enumerate() {
        let count = stack.levels.len();
        if count == MOST_LEVELS || own == MOST_STOREYS_ON_TOP {
            return Err(Denial::new(11, count as i64 + 1));
        }
        stack.push(storey)?;
    }
    Ok(stack.levels)
}
