//! The order file: what it holds, how it is read, and on which line its records stand.

use crate::card::{Card, Group, Soil, Walls};
use crate::frame::{self, Kit, Level, MOST_LEVELS, MOST_STOREYS_ON_TOP};
use crate::order::{Load, MOST_LINES};
use crate::text::Reader;
use crate::{Denial, Refusal};

/// What of a file counts.
const MOST_BYTES: usize = 8_192;

/// An order file that is laid out rightly; nothing of it is judged yet.
#[derive(Clone, Debug, PartialEq, Eq)]
pub struct OrderFile {
    pub kit: Option<Kit>,
    pub levels: Vec<Level>,
    pub loads: Vec<Load>,
    pub card: Card,
}

impl OrderFile {
    /// Reads a whole file, which ends after the card.
    pub fn read(bytes: &[u8]) -> Result<OrderFile, Refusal> {
        let mut reader = Reader::new(&bytes[..bytes.len().min(MOST_BYTES)]);
        let file = OrderFile::read_from(&mut reader)?;
        if reader.is_at_end() {
            Ok(file)
        } else {
            Err(fault(43, file.card_line() + 1))
        }
    }

    /// Reads the four sections, up to the card's record.
    pub fn read_from(reader: &mut Reader) -> Result<OrderFile, Refusal> {
        let mut line = 1;
        let kits = section(reader, &mut line, b"KIT ", 0, 1)?;
        let kit = match kits {
            0 => None,
            _ => Some(record(reader, &mut line, kit)?),
        };
        let most = if kit.is_some() {
            MOST_STOREYS_ON_TOP
        } else {
            MOST_LEVELS
        };
        let count = section(reader, &mut line, b"LEVELS ", 0, most)?;
        let mut levels = Vec::with_capacity(count);
        for _ in 0..count {
            levels.push(record(reader, &mut line, level)?);
        }
        let count = section(reader, &mut line, b"LOADS ", 0, MOST_LINES)?;
        let mut loads = Vec::with_capacity(count);
        for _ in 0..count {
            loads.push(record(reader, &mut line, load)?);
        }
        section(reader, &mut line, b"CARD ", 1, 1)?;
        let card = record(reader, &mut line, card)?;
        Ok(OrderFile {
            kit,
            levels,
            loads,
            card,
        })
    }

    /// The list of the file's frame.
    pub fn frame(&self) -> Result<Vec<Level>, Refusal> {
        let made = match &self.kit {
            None => frame::typed(&self.levels),
            Some(kit) => frame::topped(kit, &self.levels),
        };
        made.map_err(|denial| Refusal::on(self.frame_line(denial.place), denial))
    }

    fn kits(&self) -> i64 {
        i64::from(self.kit.is_some())
    }

    /// The line of the record that a denial of the frame is about; place 0 is the kit.
    fn frame_line(&self, place: i64) -> i64 {
        match &self.kit {
            None => 2 + place,
            Some(_) if place == 0 => 2,
            Some(kit) => 3 + place - kit.count,
        }
    }

    /// The line of load record `number`, counted from 1.
    pub fn load_line(&self, number: usize) -> i64 {
        3 + self.kits() + (self.levels.len() + number) as i64
    }

    pub fn card_line(&self) -> i64 {
        5 + self.kits() + (self.levels.len() + self.loads.len()) as i64
    }
}

fn fault(number: i64, line: i64) -> Refusal {
    Refusal::on(line, Denial::new(number, 0))
}

/// A section line; its layout comes before its count.
fn section(
    reader: &mut Reader,
    line: &mut i64,
    word: &[u8],
    least: usize,
    most: usize,
) -> Result<usize, Refusal> {
    let count = reader
        .takes(word)
        .then(|| reader.number(b'\n'))
        .flatten()
        .ok_or(fault(41, *line))? as usize;
    if !(least..=most).contains(&count) {
        return Err(fault(42, *line));
    }
    *line += 1;
    Ok(count)
}

fn record<T>(
    reader: &mut Reader,
    line: &mut i64,
    read: fn(&mut Reader) -> Option<T>,
) -> Result<T, Refusal> {
    let record = read(reader).ok_or(fault(41, *line))?;
    *line += 1;
    Ok(record)
}

fn kit(reader: &mut Reader) -> Option<Kit> {
    Some(Kit {
        count: reader.number(b' ')?,
        floor_weight: reader.number(b' ')?,
        roof_weight: reader.number(b' ')?,
        height: reader.number(b' ')?,
        stiffness: reader.number(b' ')?,
        mass_centre: reader.number(b' ')?,
        torsion_centre: reader.number(b' ')?,
        width: reader.number(b'\n')?,
    })
}

fn level(reader: &mut Reader) -> Option<Level> {
    Some(Level {
        weight: reader.number(b' ')?,
        height: reader.number(b' ')?,
        stiffness: reader.number(b' ')?,
        mass_centre: reader.number(b' ')?,
        torsion_centre: reader.number(b' ')?,
        width: reader.number(b'\n')?,
    })
}

/// A load record, as a LOAD line has it too.
pub fn load(reader: &mut Reader) -> Option<Load> {
    Some(Load {
        level: reader.number(b' ')?,
        load: reader.load(b'\n')?,
    })
}

/// The card's twelve fields, as a CARD line has them too.
pub fn card(reader: &mut Reader) -> Option<Card> {
    const SOILS: [(&str, Soil); 3] = [("I", Soil::I), ("II", Soil::II), ("III", Soil::III)];
    const GROUPS: [(&str, Group); 3] = [("B", Group::B), ("A", Group::A), ("AA", Group::AA)];
    const WALLS: [(&str, Walls); 2] = [("W", Walls::Tied), ("N", Walls::Free)];
    Some(Card {
        soil: reader.mark(&SOILS)?,
        group: reader.mark(&GROUPS)?,
        coefficient: reader.number(b' ')?,
        at_zero: reader.number(b' ')?,
        ta: reader.number(b' ')?,
        tb: reader.number(b' ')?,
        period: reader.period()?,
        behaviour: reader.number(b' ')?,
        correction: reader.number(b' ')?,
        walls: reader.mark(&WALLS)?,
        load_factor: reader.number(b' ')?,
        gap: reader.number(b'\n')?,
    })
}
