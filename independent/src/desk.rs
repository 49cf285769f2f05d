//! The drawing office's transcript: an order file and call lines, and what the order answers.

use crate::card::Card;
use crate::file::{self, OrderFile};
use crate::order::{Answer, Call, Order};
use crate::report::{write_refusal, write_sheet};
use crate::text::{Reader, Sink};

/// What of the input is read.
pub const MOST_INPUT: usize = 1 << 20;
const MOST_STIFFNESSES: usize = 32;

/// A line after the order file: a call, or a new card for the calls after it.
enum Step {
    Call(Call),
    Card,
}

/// What the desk prints for `input`.
pub fn transcript(input: &[u8]) -> Vec<u8> {
    let mut text = Vec::new();
    let mut reader = Reader::new(&input[..input.len().min(MOST_INPUT)]);
    let file = match OrderFile::read_from(&mut reader) {
        Ok(file) => file,
        Err(refusal) => {
            write_refusal(&mut text, &refusal);
            return text;
        }
    };
    let steps = match read_steps(&mut reader, &file) {
        Ok(steps) => steps,
        Err(line) => {
            text.line("UNREADABLE", &[line]);
            return text;
        }
    };
    match file.frame() {
        Ok(levels) => {
            let mut order = Order::over(levels);
            for step in &steps {
                match step {
                    Step::Call(call) => write_answer(&mut text, &order.call(call)),
                    Step::Card => text.put(b"CARD\n"),
                }
            }
        }
        Err(refusal) => write_refusal(&mut text, &refusal),
    }
    text
}

/// The file's loads and then the call lines, or the number of the first line that is unreadable.
fn read_steps(reader: &mut Reader, file: &OrderFile) -> Result<Vec<Step>, i64> {
    let first_loads = file.loads.iter().map(|load| Step::Call(Call::Load(*load)));
    let mut steps: Vec<Step> = first_loads.collect();
    let mut card = file.card;
    let mut line = file.card_line();
    while !reader.is_at_end() {
        line += 1;
        steps.push(step(reader, &mut card).ok_or(line)?);
    }
    Ok(steps)
}

/// A call line; `card` is the card in force, which a CARD line replaces.
fn step(reader: &mut Reader, card: &mut Card) -> Option<Step> {
    let call = if reader.takes(b"LOAD ") {
        Call::Load(file::load(reader)?)
    } else if reader.takes(b"STRIKE\n") {
        Call::Strike
    } else if reader.takes(b"STANDING ") {
        Call::Standing(reader.number(b'\n')?)
    } else if reader.takes(b"TRIAL\n") {
        Call::Trial
    } else if reader.takes(b"KEEP\n") {
        Call::Keep
    } else if reader.takes(b"ABANDON\n") {
        Call::Abandon
    } else if reader.takes(b"ISSUE\n") {
        Call::Issue
    } else if reader.takes(b"REOPEN\n") {
        Call::Reopen
    } else if reader.takes(b"RELEASE\n") {
        Call::Release
    } else if reader.takes(b"SHEET\n") {
        Call::Sheet(*card)
    } else if reader.takes(b"AXES ") {
        axes(reader, *card)?
    } else if reader.takes(b"CARD ") {
        *card = file::card(reader)?;
        return Some(Step::Card);
    } else {
        return None;
    };
    Some(Step::Call(call))
}

fn axes(reader: &mut Reader, card: Card) -> Option<Call> {
    let (storey, mut is_last) = reader.listed_number()?;
    let mut stiffnesses = Vec::new();
    while !is_last {
        if stiffnesses.len() == MOST_STIFFNESSES {
            return None;
        }
        let stiffness;
        (stiffness, is_last) = reader.listed_number()?;
        stiffnesses.push(stiffness);
    }
    Some(Call::Axes {
        card,
        storey,
        stiffnesses,
    })
}

fn write_answer(text: &mut Vec<u8>, answer: &Answer) {
    match answer {
        Answer::Loaded(line) => text.line("LOADED", &[line.level, line.load]),
        Answer::Struck(line) => text.line("STRUCK", &[line.level, line.load]),
        Answer::Standing { level, sum } => text.line("STANDING", &[*level, *sum]),
        Answer::OnTrial => text.put(b"ON TRIAL\n"),
        Answer::Kept => text.put(b"KEPT\n"),
        Answer::Abandoned => text.put(b"ABANDONED\n"),
        Answer::Issued => text.put(b"ISSUED\n"),
        Answer::Reopened => text.put(b"REOPENED\n"),
        Answer::Released {
            levels,
            lines,
            weight,
        } => text.line("RELEASED", &[*levels, *lines, *weight]),
        Answer::Sheet(sheet) => write_sheet(text, sheet),
        Answer::Axes(axes) => {
            text.put(b"AXES ");
            text.number(axes.shear);
            text.line("", &axes.direct);
        }
        Answer::Denied(denial) => text.line("DENIED", &[denial.number, denial.place]),
        Answer::OutOfState => text.put(b"OUT OF STATE\n"),
    }
}
