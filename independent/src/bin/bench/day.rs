//! A run of calls, as values and as an input of the desk.

use independent::file::OrderFile;
use independent::frame::Level;
use independent::generator::bench_file;
use independent::order::{Call, Load};
use std::fmt::Write;

pub const CALLS: usize = 10_000;
pub const LEVELS: usize = 8;

fn file() -> OrderFile {
    OrderFile::read(&bench_file(LEVELS, 0)).expect("a good file")
}

pub fn frame() -> Vec<Level> {
    file().frame().expect("a good frame")
}

/// A drawing office's round, again and again: loads, sheets, a trial that is abandoned, an issue; one line stays of each, until
/// no more may stand.
pub fn calls() -> Vec<Call> {
    let card = file().card;
    let call = |number: usize| {
        let level = (number / 16 % LEVELS) as i64 + 1;
        let load = |load| Call::Load(Load { level, load });
        match number % 16 {
            0 => load(3),
            1 | 5 => load(7),
            2 | 7 => Call::Sheet(card),
            3 | 10 => Call::Standing(level),
            4 => Call::Trial,
            6 => load(-2),
            8 | 15 => Call::Strike,
            9 => Call::Abandon,
            11 => Call::Issue,
            12 => Call::Release,
            13 => Call::Reopen,
            _ => Call::Axes {
                card,
                storey: level,
                stiffnesses: vec![10, 20, 30],
            },
        }
    };
    (0..CALLS).map(call).collect()
}

/// The order file and a line for each call.
pub fn text() -> String {
    let mut text = String::from_utf8(bench_file(LEVELS, 0)).expect("text");
    for call in calls() {
        line(&mut text, &call).expect("memory");
    }
    text
}

fn line(text: &mut String, call: &Call) -> std::fmt::Result {
    match call {
        Call::Load(line) => writeln!(text, "LOAD {} {}", line.level, line.load),
        Call::Strike => writeln!(text, "STRIKE"),
        Call::Standing(level) => writeln!(text, "STANDING {level}"),
        Call::Trial => writeln!(text, "TRIAL"),
        Call::Keep => writeln!(text, "KEEP"),
        Call::Abandon => writeln!(text, "ABANDON"),
        Call::Issue => writeln!(text, "ISSUE"),
        Call::Reopen => writeln!(text, "REOPEN"),
        Call::Release => writeln!(text, "RELEASE"),
        Call::Sheet(_) => writeln!(text, "SHEET"),
        Call::Axes {
            storey,
            stiffnesses,
            ..
        } => {
            write!(text, "AXES {storey}")?;
            stiffnesses
                .iter()
                .try_for_each(|stiffness| write!(text, " {stiffness}"))?;
            writeln!(text)
        }
    }
}
