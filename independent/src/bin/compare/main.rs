//! Compares this implementation with the proved one on generated inputs.

mod proved;
mod tally;

use independent::desk::transcript;
use independent::{generator, report, Short};
use proved::Answer;
use std::io::{Read, Write};
use std::process::{Command, ExitCode, Stdio};
use std::time::Instant;
use tally::Tally;

const USAGE: &str = "\
usage: compare [COUNT [START]]                  with the proved library
       compare --sheet PROGRAM [COUNT [START]]  with the program sheet
       compare --desk PROGRAM [COUNT [START]]   with the program desk
       compare --file START INDEX               writes an order file
       compare --day START INDEX                writes an input of the desk";

/// The start of the generator where none is given.
const START: u64 = 2_017;

/// A longer buffer than any that is lent: its bytes beyond the lent ones must stay too.
const BUFFER: usize = 6_000;

const REPORT_OUTCOMES: [&str; 18] = [
    "SHEET PASS",
    "SHEET FAIL 1",
    "SHEET FAIL 2",
    "SHEET FAIL 3",
    "SHEET FAIL 4",
    "REFUSED 11",
    "REFUSED 12",
    "REFUSED 13",
    "REFUSED 21",
    "REFUSED 22",
    "REFUSED 23",
    "REFUSED 31",
    "REFUSED 32",
    "REFUSED 33",
    "REFUSED 41",
    "REFUSED 42",
    "REFUSED 43",
    SHORT,
];

const SHORT: &str = "denied 37";

const DESK_OUTCOMES: [&str; 33] = [
    "LOADED",
    "STRUCK",
    "STANDING",
    "ON TRIAL",
    "KEPT",
    "ABANDONED",
    "ISSUED",
    "REOPENED",
    "RELEASED",
    "SHEET PASS",
    "SHEET FAIL 1",
    "SHEET FAIL 2",
    "SHEET FAIL 3",
    "SHEET FAIL 4",
    "AXES",
    "CARD",
    "OUT OF STATE",
    "UNREADABLE",
    "DENIED 21",
    "DENIED 22",
    "DENIED 23",
    "DENIED 24",
    "DENIED 25",
    "DENIED 31",
    "DENIED 32",
    "DENIED 33",
    "DENIED 35",
    "DENIED 36",
    "REFUSED 11",
    "REFUSED 12",
    "REFUSED 13",
    "REFUSED 41",
    "REFUSED 42",
];

fn main() -> ExitCode {
    let words: Vec<String> = std::env::args().skip(1).collect();
    let words: Vec<&str> = words.iter().map(String::as_str).collect();
    let good = match words[..] {
        ["--file", seed, index] => write(generator::file, seed, index),
        ["--day", seed, index] => write(generator::day, seed, index),
        ["--sheet", program, ref range @ ..] => {
            numbers(range, 2_000).map(|range| with_sheet(program, range))
        }
        ["--desk", program, ref range @ ..] => {
            numbers(range, 2_000).map(|range| with_desk(program, range))
        }
        ref range => numbers(range, 100_000).map(with_library),
    };
    match good {
        Some(true) => ExitCode::SUCCESS,
        Some(false) => ExitCode::FAILURE,
        None => {
            eprintln!("{USAGE}");
            ExitCode::from(2)
        }
    }
}

fn write(generate: fn(u64, u64) -> Vec<u8>, seed: &str, index: &str) -> Option<bool> {
    let bytes = generate(seed.parse().ok()?, index.parse().ok()?);
    Some(std::io::stdout().write_all(&bytes).is_ok())
}

/// How many inputs a run compares, and the start of the generator.
fn numbers(words: &[&str], usual: u64) -> Option<(u64, u64)> {
    match words {
        [] => Some((usual, START)),
        [count] => Some((count.parse().ok()?, START)),
        [count, start] => Some((count.parse().ok()?, start.parse().ok()?)),
        _ => None,
    }
}

fn named(start: u64, index: u64, kind: &str) -> String {
    format!("start {start} index {index} {kind}")
}

/// How much of the buffer a run lends: mostly what is enough, now and then more, or too little.
fn lent(index: u64) -> usize {
    match index % 32 {
        5 | 21 => 5_000,
        11 => 4_095,
        17 => 0,
        27 => 1,
        _ => 4_096,
    }
}

/// What a call answered, what it wrote, and the bytes beyond that did not stay, as text.
fn shown(answer: Answer, buffer: &[u8], pattern: u8) -> String {
    let Answer {
        status,
        number,
        place,
        length,
    } = answer;
    let end = buffer.len().min(length);
    let front = String::from_utf8_lossy(&buffer[..end]);
    let mut text =
        format!("status {status} number {number} place {place} length {length}\n{front}");
    for (at, byte) in buffer.iter().enumerate().skip(end) {
        if *byte != pattern {
            text += &format!("byte {at} is {byte} and was {pattern}\n");
        }
    }
    text
}

fn with_library((count, start): (u64, u64)) -> bool {
    let mut tally = Tally::default();
    let began = Instant::now();
    for index in 0..count {
        let file = generator::file(start, index);
        let kind = format!("{:?}", generator::kind(start, index));
        let pattern = 1 + (index % 255) as u8;
        let (mut here, mut there) = ([pattern; BUFFER], [pattern; BUFFER]);
        let Some(answer) = proved::report(&file, &mut there[..lent(index)]) else {
            eprintln!("built without POTLIMAY_LIBRARY: no library to compare with");
            return false;
        };
        let expected = match report(&file, &mut here[..lent(index)]) {
            Ok(length) => {
                tally.outcomes_of(&here[..length]);
                Answer {
                    status: 0,
                    number: 0,
                    place: 0,
                    length,
                }
            }
            Err(Short) => {
                tally.outcome(SHORT.to_string());
                Answer {
                    status: 1,
                    number: 37,
                    place: 4_096,
                    length: 0,
                }
            }
        };
        if answer == expected && here == there {
            tally.agreed();
        } else {
            tally.differed(
                &named(start, index, &kind),
                &shown(expected, &here, pattern),
                &shown(answer, &there, pattern),
            );
        }
        tally.kind(kind);
    }
    if count >= 10_000 {
        tally.require(&REPORT_OUTCOMES);
    }
    finish(&tally, count, began)
}

fn finish(tally: &Tally, count: u64, began: Instant) -> bool {
    let seconds = began.elapsed().as_secs_f64();
    eprintln!("{:.0} a second", count as f64 / seconds);
    tally.finish()
}

fn with_sheet(program: &str, (count, start): (u64, u64)) -> bool {
    let mut tally = Tally::default();
    let began = Instant::now();
    for index in 0..count {
        let file = generator::file(start, index);
        let kind = format!("{:?}", generator::kind(start, index));
        let mut out = [0; 4_096];
        let length = report(&file, &mut out).unwrap_or(0);
        compare_output(
            &mut tally,
            program,
            &named(start, index, &kind),
            &file,
            &out[..length],
        );
        tally.kind(kind);
    }
    if count >= 10_000 {
        tally.require(&REPORT_OUTCOMES[..REPORT_OUTCOMES.len() - 1]);
    }
    finish(&tally, count, began)
}

fn with_desk(program: &str, (count, start): (u64, u64)) -> bool {
    let mut tally = Tally::default();
    let began = Instant::now();
    for index in 0..count {
        let input = generator::day(start, index);
        let text = transcript(&input);
        compare_output(
            &mut tally,
            program,
            &named(start, index, "day"),
            &input,
            &text,
        );
    }
    if count >= 2_000 {
        tally.require(&DESK_OUTCOMES);
    }
    finish(&tally, count, began)
}

/// Compares what a program prints with the text expected of it.
fn compare_output(tally: &mut Tally, program: &str, what: &str, input: &[u8], expected: &[u8]) {
    tally.outcomes_of(expected);
    match printed(program, input) {
        Ok(output) if output == expected => tally.agreed(),
        Ok(output) => tally.differed(
            what,
            &String::from_utf8_lossy(expected),
            &String::from_utf8_lossy(&output),
        ),
        Err(error) => tally.differed(what, &String::from_utf8_lossy(expected), &error),
    }
}

/// What a program prints on an input, where it ends with status 0.
fn printed(program: &str, input: &[u8]) -> Result<Vec<u8>, String> {
    let mut child = Command::new(program)
        .stdin(Stdio::piped())
        .stdout(Stdio::piped())
        .spawn()
        .map_err(|error| format!("{program}: {error}"))?;
    let mut output = Vec::new();
    let (stdin, stdout) = (child.stdin.take(), child.stdout.take());
    std::thread::scope(|scope| {
        scope.spawn(move || {
            // A program need not read all that it is given, so that a closed pipe is no fault.
            stdin.map(|mut stdin| stdin.write_all(input).is_ok());
        });
        stdout.map(|mut stdout| stdout.read_to_end(&mut output))
    });
    match child.wait() {
        Ok(status) if status.success() => Ok(output),
        other => Err(format!("{program} ended with {other:?}")),
    }
}
