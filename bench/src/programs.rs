//! Runs this program, and the same linked with another archive, to count instructions and to compare the two.

use crate::{above, by_call, Call, Case};
use std::path::{Path, PathBuf};
use std::process::{Command, Stdio};

/// Runs of each program in a comparison, and the seconds that each takes.
const RUNS: usize = 9;
const SECONDS: &str = "0.5";

fn this() -> PathBuf {
    std::env::current_exe().expect("a program has a path")
}

fn printed(command: &mut Command) -> String {
    let output = command.stderr(Stdio::inherit()).output().unwrap_or_else(|error| panic!("{command:?}: {error}"));
    assert!(output.status.success(), "{command:?}: {}", output.status);
    String::from_utf8(output.stdout).expect("these programs print text")
}

/// Instructions of one call. Our count is the same in each run; the Rust's is not quite, as its hashes are not.
fn instructions(program: &Path, case: &Case, who: &str) -> f64 {
    let function = match case.call {
        Call::Alike { .. } if who != "counting" => format!("bench::alike::{who}"),
        _ => format!("bench::{who}"),
    };
    let mut valgrind = Command::new("valgrind");
    valgrind.args(["--tool=callgrind", "--callgrind-out-file=/dev/null", "--log-fd=1"]);
    valgrind.arg(format!("--toggle-collect={function}")).arg(program).args(["once", case.name, who]);
    let log = printed(&mut valgrind);
    let (_, count) = log.rsplit_once("Collected : ").expect("callgrind prints what it collected");
    count.split_whitespace().next().and_then(|count| count.parse().ok()).expect("a number")
}

pub fn count(cases: &[&Case]) {
    let (reads, searches) = by_call(cases);
    if !reads.is_empty() {
        println!("{:<24} {:>14} {:>14} {:>6}", "reading", "ours", "Rust", "ratio");
    }
    for case in reads {
        let [ours, rust] = ["ours", "rust"].map(|who| instructions(&this(), case, who));
        println!("{:<24} {ours:>14} {rust:>14} {:>6.2}", case.name, ours / rust);
    }
    if !searches.is_empty() {
        println!(
            "{:<26} {:>14} {:>14} {:>6} {:>9} {:>14} {:>6} {:>6}",
            "search", "ours", "Rust", "ratio", "readings", "instructions", "ratio", "limit"
        );
    }
    for (case, readings) in searches {
        let [ours, rust, one] = ["ours", "rust", "counting"].map(|who| instructions(&this(), case, who));
        let counting = one * f64::from(readings);
        let ratio = ours / counting;
        println!(
            "{:<26} {ours:>14} {rust:>14} {:>6.2} {readings:>9} {counting:>14} {ratio:>6.2} {:>6}{}",
            case.name,
            ours / rust,
            case.limit,
            above(ratio, case.limit)
        );
    }
}

/// Microseconds, with enough digits to tell readings of the smallest pack apart.
fn shown(time: f64) -> String {
    let digits = if time < 10.0 { 4 } else { 1 };
    format!("{time:.digits$}")
}

/// The least, the median and the greatest of the times.
fn spread(mut times: Vec<f64>) -> [f64; 3] {
    times.sort_by(f64::total_cmp);
    [times[0], times[times.len() / 2], times[times.len() - 1]]
}

/// Ours in both programs, which take turns, so that what else the machine does falls on both. A median within the old
/// program's own spread is no difference.
pub fn compare(old: &str, cases: &[&Case]) {
    let programs = [PathBuf::from(old), this()];
    let rows = printed(Command::new(old).arg("names"));
    println!(
        "{:<26} {:>14} {:>14} {:>6} {:>12} {:>24} {:>12} {:>24} {:>6}",
        "row", "instr., old", "new", "ratio", "old, us", "least..greatest", "new, us", "least..greatest", "ratio"
    );
    for case in cases.iter().filter(|case| rows.lines().any(|row| row == case.name)) {
        let [was, is] = programs.each_ref().map(|program| instructions(program, case, "ours"));
        let mut times = [Vec::new(), Vec::new()];
        for _ in 0..RUNS {
            for (program, times) in programs.iter().zip(&mut times) {
                let time = printed(Command::new(program).args(["ours", SECONDS, case.name]));
                times.push(time.trim().parse().expect("a number"));
            }
        }
        let [before, now] = times.map(spread);
        let range = |[least, _, greatest]: [f64; 3]| format!("{}..{}", shown(least), shown(greatest));
        let verdict = match now[1] {
            time if time > before[2] => "  slower",
            time if time < before[0] => "  faster",
            _ => "",
        };
        println!(
            "{:<26} {was:>14} {is:>14} {:>6.3} {:>12} {:>24} {:>12} {:>24} {:>6.3}{verdict}",
            case.name,
            is / was,
            shown(before[1]),
            range(before),
            shown(now[1]),
            range(now),
            now[1] / before[1]
        );
    }
}
