//! The card: its fields, their check and the base shear.

use crate::Denial;

#[derive(Clone, Copy, Debug, PartialEq, Eq)]
pub enum Soil {
    I,
    II,
    III,
}

#[derive(Clone, Copy, Debug, PartialEq, Eq)]
pub enum Group {
    B,
    A,
    AA,
}

#[derive(Clone, Copy, Debug, PartialEq, Eq)]
pub enum Walls {
    Tied,
    Free,
}

/// The twelve fields, in the order of the file.
#[derive(Clone, Copy, Debug, PartialEq, Eq)]
pub struct Card {
    pub soil: Soil,
    pub group: Group,
    pub coefficient: i64,
    pub at_zero: i64,
    pub ta: i64,
    pub tb: i64,
    pub period: Option<i64>,
    pub behaviour: i64,
    pub correction: i64,
    pub walls: Walls,
    pub load_factor: i64,
    pub gap: i64,
}

impl Card {
    /// The first field out of its range is denied, then a period above Tb.
    pub fn check(&self) -> Result<(), Denial> {
        if let Some(field) = self.first_out_of_range() {
            return Err(Denial::new(32, field));
        }
        match self.period {
            Some(period) if period > self.tb => Err(Denial::new(33, 7)),
            _ => Ok(()),
        }
    }

    fn first_out_of_range(&self) -> Option<i64> {
        let within = [
            (3, (1..=570).contains(&self.coefficient)),
            (4, (1..=self.coefficient).contains(&self.at_zero)),
            (5, (1..=1_000).contains(&self.ta)),
            (6, (self.ta..=1_000).contains(&self.tb)),
            (7, self.period.is_none_or(|t| (1..=1_000).contains(&t))),
            (8, matches!(self.behaviour, 10 | 15 | 20 | 30 | 40)),
            (9, (50..=100).contains(&self.correction)),
            (11, (100..=200).contains(&self.load_factor)),
            (12, (0..=10_000).contains(&self.gap)),
        ];
        within
            .iter()
            .find(|(_, good)| !good)
            .map(|(field, _)| *field)
    }

    /// Q in tenths, as the sheet takes it.
    pub fn q(&self) -> i64 {
        match self.group {
            Group::AA => 10,
            _ => self.behaviour,
        }
    }

    /// Quarters by which the group multiplies the ordinate.
    fn group_quarters(&self) -> i64 {
        match self.group {
            Group::B => 4,
            Group::A => 6,
            Group::AA => 7,
        }
    }

    /// Hundredths of a mm of separation for each dm of level height.
    pub fn separation(&self) -> i64 {
        match self.soil {
            Soil::I => 10,
            Soil::II => 30,
            Soil::III => 60,
        }
    }

    /// The most that a storey may move, in hundredths of a mm for each dm of its height.
    pub fn most_move(&self) -> i64 {
        match self.walls {
            Walls::Tied => 60,
            Walls::Free => 120,
        }
    }

    /// The base shear in kgf for a total weight in tenths of a tonne, on a card that is checked.
    ///
    /// With T no greater than Ta, `ordinate` is the ordinate times 1,000 Ta, and `reduction` is Q'
    /// times 1,000 Ta. So V0 is ordinate × quarters / 4 × 100 weight / reduction, rounded up.
    pub fn base_shear(&self, weight: i64) -> i64 {
        let period = self.period.map_or(self.ta, |t| t.min(self.ta));
        let rise = self.coefficient - self.at_zero;
        let ordinate = self.at_zero * self.ta + rise * period;
        let one = 1_000 * self.ta;
        let reduction = match self.group {
            Group::AA => one,
            _ => one.max((10 * self.ta + period * (self.behaviour - 10)) * self.correction),
        };
        let force = ordinate * self.group_quarters() * 25 * weight;
        crate::sheet::divided_up(force, reduction)
    }
}
