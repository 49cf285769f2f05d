//! Inputs of the desk: an order file and the calls of a day.

use super::dice::Dice;
use super::{damage, draft, edges, file};
use crate::desk::MOST_INPUT;
use crate::file::OrderFile;
use crate::text::Sink;

/// The desk input number `index` of a seed: always the same bytes.
pub fn day(seed: u64, index: u64) -> Vec<u8> {
    // Another stream than that of the files with the same seed and index.
    let mut dice = Dice::new(!seed, index);
    let dice = &mut dice;
    if dice.once_in(12) {
        return unlikely(dice, index);
    }
    let order = match dice.below(16) {
        0 => edges::frame(dice),
        1 => edges::card(dice),
        2 => edges::load(dice),
        3 => edges::several(dice),
        _ => draft::sound(dice),
    };
    let mut day = Day::new(&order, dice.once_in(6));
    let mut text = draft::text(&order);
    let calls = dice.pick(&[0, 1, 5, 20, 60, 200]);
    for _ in 0..dice.index(calls + 1) {
        day.call(&mut text, dice);
    }
    match dice.below(200) {
        0 => over_the_limit(&mut text, dice),
        1..=12 => damaged_call(&mut text, dice),
        13..=15 => {
            text.pop();
        }
        _ => (),
    }
    text
}

/// A damaged file, or bytes anywhere damaged, with calls after it.
fn unlikely(dice: &mut Dice, index: u64) -> Vec<u8> {
    if dice.once_in(2) {
        let mut text = file(dice.roll(), index);
        text.put(b"SHEET\nRELEASE\n");
        return text;
    }
    let order = draft::sound(dice);
    let mut day = Day::new(&order, false);
    let mut text = draft::text(&order);
    for _ in 0..dice.index(20) {
        day.call(&mut text, dice);
    }
    damage::damage_byte(&mut text, dice);
    text
}

/// Call lines that are not laid out rightly, or not to be read where they stand.
const UNREADABLE: [&str; 30] = [
    "",
    " ",
    "SHEET ",
    " SHEET",
    "sheet",
    "SHEETS",
    "SHEET 1",
    "SHEET\r",
    "LOAD",
    "LOAD 1",
    "LOAD 1 +1",
    "LOAD 1 01",
    "LOAD 1 -0",
    "LOAD -1 1",
    "LOAD 1  1",
    "LOAD 1 1 ",
    "LOAD 1 -",
    "LOAD 1 1 1",
    "LOAD 1000000000 1",
    "STANDING",
    "STANDING -1",
    "STANDING 01",
    "AXES",
    "AXES 1 ",
    "AXES 1 -1",
    "AXES 01",
    "CARD",
    "CARD 1",
    "TRIAL 1",
    "KIT 0",
];

/// Puts a call line in that is not laid out rightly.
fn damaged_call(text: &mut Vec<u8>, dice: &mut Dice) {
    if dice.once_in(3) {
        let stiffnesses = " 5".repeat(dice.pick(&[32, 33, 33, 40]));
        text.put(format!("AXES 1{stiffnesses}\n").as_bytes());
    } else {
        text.line(dice.pick(&UNREADABLE), &[]);
    }
    if dice.once_in(2) {
        text.put(b"STANDING 1\n");
    }
}

/// Fills the input so that the limit falls near the end of a line, with more beyond.
fn over_the_limit(text: &mut Vec<u8>, dice: &mut Dice) {
    let room = MOST_INPUT - text.len();
    // The limit falls on the end of a line of five bytes, or up to two bytes to either side.
    let aim = room as i64 + dice.between(-2, 2);
    let long = aim % 5;
    for _ in 0..long {
        text.put(b"ISSUE\n");
    }
    for _ in 0..(aim - 6 * long) / 5 {
        text.put(b"KEEP\n");
    }
    text.put(dice.pick(&[&b""[..], b"STANDING 1\n", b"nonsense", b"SHEET\nSHEET\n"]));
}

#[derive(Clone, Copy, PartialEq, Eq)]
enum State {
    Open,
    Trial,
    Issued,
}

/// What a day knows of the order, so that most of its calls are in state.
struct Day {
    levels: i64,
    state: State,
    card: crate::card::Card,
    is_busy: bool,
}

impl Day {
    fn new(order: &OrderFile, is_busy: bool) -> Self {
        let kit = order.kit.as_ref().map_or(0, |kit| kit.count);
        Day {
            levels: kit + order.levels.len() as i64,
            state: State::Open,
            card: order.card,
            is_busy,
        }
    }

    /// Writes a call line; a busy day has mostly loads, so that 64 lines come to stand.
    fn call(&mut self, text: &mut Vec<u8>, dice: &mut Dice) {
        if self.is_busy && !dice.once_in(8) {
            return self.load(text, dice);
        }
        match dice.below(20) {
            0..=5 => self.load(text, dice),
            6..=8 => text.put(b"STRIKE\n"),
            9 | 10 => {
                let level = self.level(dice);
                text.line("STANDING", &[level]);
            }
            11 | 12 => text.put(b"SHEET\n"),
            13 | 14 => self.axes(text, dice),
            15 => self.card(text, dice),
            _ => self.turn(text, dice),
        }
    }

    fn level(&self, dice: &mut Dice) -> i64 {
        if dice.once_in(12) {
            dice.pick(&[0, self.levels + 1, 25, 999_999_999])
        } else {
            dice.between(1, self.levels.max(1))
        }
    }

    fn load(&self, text: &mut Vec<u8>, dice: &mut Dice) {
        let level = self.level(dice);
        let load = match dice.below(20) {
            0 => dice.pick(&[0, 5_000, -5_000, 5_001, -5_001, 999_999_999]),
            1 => dice.between(-5_000, 5_000),
            _ => dice.between(-10, 20),
        };
        text.line("LOAD", &[level, load]);
    }

    fn axes(&self, text: &mut Vec<u8>, dice: &mut Dice) {
        let mut numbers = vec![self.level(dice)];
        let count = dice.pick(&[0, 1, 2, 3, 4, 8, 15, 16, 17, 31, 32]);
        let most = dice.pick(&[1, 3, 100, 10_000]);
        numbers.extend((0..count).map(|_| dice.between(1, most)));
        if count > 0 && dice.once_in(5) {
            let axis = dice.between(1, count) as usize;
            numbers[axis] = dice.pick(&[0, 10_000, 10_001, 999_999_999]);
        }
        text.line("AXES", &numbers);
    }

    fn card(&mut self, text: &mut Vec<u8>, dice: &mut Dice) {
        let other = match dice.below(3) {
            0 => edges::card(dice).card,
            _ => draft::sound(dice).card,
        };
        if dice.once_in(2) {
            self.card.period = other.period;
        } else {
            self.card = other;
        }
        text.put(b"CARD ");
        draft::put_card(text, &self.card);
    }

    /// A call that turns the order from one state to another, or belongs to one state alone.
    fn turn(&mut self, text: &mut Vec<u8>, dice: &mut Dice) {
        const ALL: [&str; 6] = ["TRIAL", "KEEP", "ABANDON", "ISSUE", "REOPEN", "RELEASE"];
        let word = match self.state {
            _ if dice.once_in(6) => dice.pick(&ALL),
            State::Open => dice.pick(&["TRIAL", "TRIAL", "ISSUE"]),
            State::Trial => dice.pick(&["KEEP", "ABANDON"]),
            State::Issued => dice.pick(&["REOPEN", "RELEASE"]),
        };
        self.state = match (self.state, word) {
            (State::Open, "TRIAL") => State::Trial,
            (State::Open, "ISSUE") => State::Issued,
            (State::Trial, "KEEP" | "ABANDON") | (State::Issued, "REOPEN") => State::Open,
            (state, _) => state,
        };
        text.line(word, &[]);
    }
}
