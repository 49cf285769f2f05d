//! What the proved library costs beside this implementation: instructions and time, of reports and of a run of calls.

mod day;
#[path = "../compare/proved.rs"]
mod proved;

use independent::generator::bench_file;
use independent::{report, run};
use std::hint::black_box;
use std::path::Path;
use std::process::{Command, ExitCode, Stdio};
use std::time::{Duration, Instant};

const USAGE: &str = "\
usage: bench DESK                          prints the tables; DESK is the built program desk
       bench reports SIDE LEVELS LOADS N   makes N reports by SIDE, proved or plain
       bench run                           makes the run of calls
       bench day                           writes the run as an input of the desk";

const LEVELS: [usize; 3] = [1, 8, 24];
const LOADS: [usize; 2] = [0, 64];

/// Further shapes, that show how cost grows with the levels and with the lines.
const STEPS: [(usize, usize); 6] = [(12, 0), (12, 32), (24, 16), (24, 32), (24, 48), (16, 64)];

/// So many reports are counted, so that what the first one alone costs does not show.
const COUNTED: u64 = 200;

fn main() -> ExitCode {
    let words: Vec<String> = std::env::args().skip(1).collect();
    let words: Vec<&str> = words.iter().map(String::as_str).collect();
    match words[..] {
        ["reports", side, levels, loads, count] => {
            let (levels, loads) = (parsed(levels), parsed(loads));
            make(side, &bench_file(levels, loads), parsed(count) as u64);
        }
        ["run"] => {
            let (frame, calls) = (day::frame(), day::calls());
            black_box(plain_run(&frame, &calls));
        }
        ["day"] => print!("{}", day::text()),
        [desk] if Path::new(desk).is_file() => print_tables(desk),
        _ => {
            eprintln!("{USAGE}");
            return ExitCode::from(2);
        }
    }
    ExitCode::SUCCESS
}

fn parsed(word: &str) -> usize {
    word.parse().expect("a number")
}

// The two that valgrind counts: by their names, so they must stay functions.

#[no_mangle]
#[inline(never)]
fn plain_report(file: &[u8], out: &mut [u8]) -> usize {
    report(file, out).expect("a long enough buffer")
}

#[no_mangle]
#[inline(never)]
fn plain_run(frame: &[independent::frame::Level], calls: &[independent::order::Call]) -> usize {
    run(frame, calls).len()
}

fn proved_report(file: &[u8], out: &mut [u8]) -> usize {
    proved::report(file, out).expect("a linked library").length
}

/// Makes so many reports of a file.
fn make(side: &str, file: &[u8], count: u64) {
    let maker = if side == "proved" {
        proved_report
    } else {
        plain_report
    };
    let mut out = [0; 4_096];
    for _ in 0..count {
        black_box(maker(black_box(file), &mut out));
    }
}

fn print_tables(desk: &str) {
    println!("Instructions per report, and as a share of the plain implementation's:\n");
    println!("| levels | loads | proved | plain | proved / plain |\n|---|---|---|---|---|");
    let shapes = LEVELS
        .iter()
        .flat_map(|levels| LOADS.map(|loads| (*levels, loads)));
    for (levels, loads) in shapes.clone().chain(STEPS) {
        print_counts(levels, loads);
    }
    println!("\nReports per second, in one process on the same files:\n");
    println!("| levels | loads | proved | plain | proved / plain |\n|---|---|---|---|---|");
    for (levels, loads) in shapes {
        print_rates(levels, loads);
    }
    print_run(desk);
}

fn print_counts(levels: usize, loads: usize) {
    let count = |side: &str, function: &str| {
        let (levels, loads) = (levels.to_string(), loads.to_string());
        let words = ["reports", side, &levels, &loads, &COUNTED.to_string()];
        let bench = std::env::current_exe().expect("this program");
        counted(function, Command::new("valgrind"), &bench, &words, None) / COUNTED
    };
    let (proved, plain) = (
        count("proved", "potlimay_report"),
        count("plain", "plain_report"),
    );
    println!(
        "| {levels} | {loads} | {proved} | {plain} | {:.2} |",
        proved as f64 / plain as f64
    );
}

/// How many instructions a program spends in a function and in what that calls.
fn counted(
    function: &str,
    mut valgrind: Command,
    program: &Path,
    words: &[&str],
    input: Option<&str>,
) -> u64 {
    let mut child = valgrind
        .args(["--tool=callgrind", "--callgrind-out-file=/dev/null"])
        .arg(format!("--toggle-collect={function}"))
        .arg(program)
        .args(words)
        .stdin(Stdio::piped())
        .stdout(Stdio::null())
        .stderr(Stdio::piped())
        .spawn()
        .expect("valgrind");
    let mut pipe = child.stdin.take().expect("a pipe");
    std::io::Write::write_all(&mut pipe, input.unwrap_or("").as_bytes()).expect("input taken");
    drop(pipe);
    let said = child.wait_with_output().expect("an end").stderr;
    let said = String::from_utf8_lossy(&said);
    let total = said
        .split("Collected :")
        .nth(1)
        .and_then(|rest| rest.split_whitespace().next());
    total
        .and_then(|number| number.parse().ok())
        .expect("a count")
}

fn print_rates(levels: usize, loads: usize) {
    let file = bench_file(levels, loads);
    let (proved, plain) = rates(&file);
    println!(
        "| {levels} | {loads} | {proved:.0} | {plain:.0} | {:.2} |",
        proved / plain
    );
}

/// Reports per second by either side, taking turns, so that both meet the same machine.
fn rates(file: &[u8]) -> (f64, f64) {
    const TURNS: u32 = 20;
    const COUNT: u64 = 500;
    let mut spent = [Duration::ZERO; 2];
    for _ in 0..TURNS {
        for (time, side) in spent.iter_mut().zip(["proved", "plain"]) {
            let start = Instant::now();
            make(side, file, COUNT);
            *time += start.elapsed();
        }
    }
    let made = f64::from(TURNS) * COUNT as f64;
    (made / spent[0].as_secs_f64(), made / spent[1].as_secs_f64())
}

fn print_run(desk: &str) {
    let bench = std::env::current_exe().expect("this program");
    let text = day::text();
    let proved = counted(
        "runs::run*",
        Command::new("valgrind"),
        Path::new(desk),
        &[],
        Some(&text),
    );
    let plain = counted(
        "plain_run",
        Command::new("valgrind"),
        &bench,
        &["run"],
        None,
    );
    println!(
        "\nA run of {} calls on {} levels: {proved} instructions proved (`run` in the program desk), {plain} plain: {:.2}",
        day::CALLS,
        day::LEVELS,
        proved as f64 / plain as f64
    );
}
