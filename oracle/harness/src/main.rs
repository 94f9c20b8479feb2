//! The oracle's program. Called without arguments it says what it can do.

use harness::answer::{self, Answer, RUST_BUDGET};
use harness::{cases, packs, record, sizes};
use std::io::{Read, Write};

const USAGE: &str = "usage:
  oracle read FILE [BUDGET [TAPE]]                       a whole pack: answer, tape, charges, sections
  oracle section FILE NUMBER PLACE BUDGET [FUNCTIONS [TAPE]]   one section (1 to 17) alone
  oracle lookup FILE NAME                                start and length of a payload
  oracle alike FILE                                      start and length of two names that print alike, or none
  oracle sizes [--check FILE...]                         the sizes of charges, or whether FILE holds them
  oracle pack KIND SIZE SEED > FILE                      a pack of exactly SIZE bytes (mixed, names, slots, texts, code)
  oracle time FILE [RUNS]                                how long the unpatched Module::deserialize takes
  oracle store FOLDER                                    write the stored answers
  oracle scale FOLDER                                    write larger lists of answers
FILE may be - for standard input. Numbers are decimal.";

fn main() {
    let args: Vec<String> = std::env::args().skip(1).collect();
    let args: Vec<&str> = args.iter().map(String::as_str).collect();
    match args[..] {
        ["read", file, ref rest @ ..] if rest.len() <= 2 => {
            print(&reading_text(&load(file), number(rest, 0, RUST_BUDGET), number(rest, 1, u64::MAX)));
        }
        ["section", file, ref rest @ ..] if (3..=5).contains(&rest.len()) => {
            let (section, place, budget) = (number(rest, 0, 0) as usize, number(rest, 1, 0), number(rest, 2, 0));
            if !(1..=17).contains(&section) {
                stop("a section's number is 1 to 17");
            }
            let reading =
                answer::section(&load(file), section, place, budget, number(rest, 3, 0), number(rest, 4, u64::MAX));
            print(&format!("{}\n{}", reading.answer, words_text(&reading.tape())));
        }
        ["lookup", file, name] => match answer::lookup(&load(file), name.as_bytes()) {
            Ok((start, length)) => println!("found {start} {length}"),
            Err(answer) => println!("{answer}"),
        },
        ["alike", file] => match answer::alike_names(&load(file)) {
            Ok(Some(pair)) => println!("pair {}", pair.map(|number| number.to_string()).join(" ")),
            Ok(None) => println!("none"),
            Err(answer) => println!("{answer}"),
        },
        ["sizes"] => print(&sizes_text()),
        ["sizes", "--check", ref files @ ..] if !files.is_empty() => {
            let mut good = true;
            for file in files {
                let text = String::from_utf8(load(file)).unwrap_or_else(|_| stop(&format!("{file} is no text")));
                let verdict = sizes::check(&text);
                println!(
                    "{file}: {}",
                    verdict.as_ref().map_or_else(|error| error.as_str(), |()| "the 33 measured sizes")
                );
                good &= verdict.is_ok();
            }
            std::process::exit(!good as i32);
        }
        ["pack", kind, ref rest @ ..] if rest.len() == 2 => {
            let pack = packs::large(kind, number(rest, 0, 0) as usize, number(rest, 1, 0));
            let pack = pack.unwrap_or_else(|| stop("no such kind of pack, or too small a size"));
            std::io::stdout().write_all(&pack).unwrap_or_else(|error| stop(&error.to_string()));
        }
        ["time", file, ref rest @ ..] if rest.len() <= 1 => time(&load(file), number(rest, 0, 20)),
        ["store", folder] => write(folder, cases::stored()),
        ["scale", folder] => write(folder, cases::scale()),
        _ => stop(USAGE),
    }
}

fn write(folder: &str, books: Vec<(&str, record::Book)>) {
    std::fs::create_dir_all(folder).unwrap_or_else(|error| stop(&format!("{folder}: {error}")));
    for (name, book) in books {
        let numbers: Vec<String> = book.numbers.iter().map(|(number, count)| format!("{number}:{count}")).collect();
        println!("{name}: {} records; by number, 0 for taken: {}", book.records(), numbers.join(" "));
        let path = std::path::Path::new(folder).join(name);
        std::fs::write(&path, book.finish()).unwrap_or_else(|error| stop(&format!("{}: {error}", path.display())));
    }
}

fn stop(message: &str) -> ! {
    eprintln!("{message}");
    std::process::exit(2)
}

fn load(file: &str) -> Vec<u8> {
    let mut bytes = Vec::new();
    let read = match file {
        "-" => std::io::stdin().read_to_end(&mut bytes).map(|_| bytes),
        _ => std::fs::read(file),
    };
    read.unwrap_or_else(|error| stop(&format!("{file}: {error}")))
}

fn number(args: &[&str], at: usize, default: u64) -> u64 {
    args.get(at).map_or(default, |text| text.parse().unwrap_or_else(|_| stop(&format!("{text} is no number"))))
}

/// Printed at once, so that a reader who closes early gets what he asked for.
fn print(text: &str) {
    match std::io::stdout().write_all(text.as_bytes()) {
        Err(error) if error.kind() != std::io::ErrorKind::BrokenPipe => stop(&error.to_string()),
        _ => {}
    }
}

fn reading_text(pack: &[u8], budget: u64, tape: u64) -> String {
    let reading = answer::read(pack, budget, tape);
    let mut out = format!("{}\ncharges: context amount place\n", reading.answer);
    for charge in &reading.charges {
        out += &format!("  {} {} {}\n", answer::charge_context(charge), charge.amount, charge.place);
    }
    out += "sections: number place left\n";
    for (i, at) in reading.sections.iter().enumerate() {
        out += &format!("  {} {} {}\n", i + 1, at.place, at.left);
    }
    if let Answer::Taken { .. } = reading.answer {
        out += &words_text(&reading.tape());
    }
    out
}

fn words_text(words: &[u32]) -> String {
    let mut out = String::from("tape:\n");
    for row in words.chunks(16) {
        out += &format!("  {}\n", row.iter().map(u32::to_string).collect::<Vec<_>>().join(" "));
    }
    out
}

fn sizes_text() -> String {
    let mut out = format!("rustc {}, {}-bit, feature std\n", env!("RUSTC_VERSION"), usize::BITS);
    for (i, (name, size)) in sizes::table().iter().enumerate() {
        out += &format!("{:2} {size:4} {name}\n", i + 1);
    }
    for (name, size) in sizes::externs() {
        out += &format!(" - {size:4} {name}\n");
    }
    out
}

/// The original alone, without the self-check: the shortest and the middle of the runs.
fn time(pack: &[u8], runs: u64) {
    let run = |_| {
        let start = std::time::Instant::now();
        let module = original::bytecode::Module::deserialize(pack);
        let time = start.elapsed();
        drop(module);
        time.as_nanos()
    };
    let mut times: Vec<u128> = (0..runs.max(1)).map(run).collect();
    times.sort_unstable();
    let micros = |nanos: u128| nanos as f64 / 1000.0;
    println!(
        "{} bytes, {} runs: shortest {:.1} us, middle {:.1} us",
        pack.len(),
        times.len(),
        micros(times[0]),
        micros(times[times.len() / 2])
    );
}
