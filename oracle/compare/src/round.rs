//! One round: inputs are made, each call's answer is compared, and the cases are counted.

use crate::calls::{alike, fields, found, Call, Fields, Reader};
use crate::inputs::{self, Family};
use crate::memory::{Pack, Tape};
use harness::answer::{self, opening_part, Reading, NO_END, RUST_BUDGET};
use harness::cases;
use harness::packs::{self, Chance};
use measured::serialize::MAX_VOB_BYTES;
use std::time::{Duration, Instant};

#[derive(Clone, Copy, Debug, PartialEq, Eq)]
pub enum Class {
    /// Packs by the Rust's writer.
    Written,
    /// Damaged copies of those.
    Damaged,
    /// Two packs put together.
    Spliced,
    /// Opening parts of a pack.
    Cut,
    /// Inputs of a few bytes, all of them.
    Short,
    /// One byte changed, each way.
    Byte,
    /// Texts, packed numbers, packed words and counts, at the ends of their ranges.
    Leaf,
    /// Texts around the edges of parts of 16 and of 240 bytes, at the start and the end of a pack among them.
    Text,
    /// The packs of the stored lists.
    Listed,
    /// Packs with accents in each kind of table.
    Accented,
    /// At limits that only a long pack reaches.
    Long,
    /// Starting budgets around the sum of each opening part of the charge list.
    Budget,
    /// Tapes exactly long enough, one word short, empty.
    Tape,
    /// Sections alone.
    Section,
    /// Lookups.
    Lookup,
    /// Names that print alike.
    Alike,
}

const CLASSES: usize = Class::Alike as usize + 1;
const NUMBERS: usize = 28;

/// A derived answer in so many is asked of the Rust itself.
const RUN_AFTER: u64 = 8;
/// The longest pack that is run a second time: the self-check writes it out as text.
const LONGEST_RUN: usize = 1 << 20;
/// The turn at which the few inputs come that take a tenth of a second each.
const SLOW_TURN: u64 = 200;

/// How many calls an input gets beside the one on the whole pack.
#[derive(Clone, Copy)]
struct Effort {
    budgets: u64,
    tapes: u64,
    sections: u64,
    lookups: u64,
    alike: bool,
}

pub enum Stop {
    /// Cases or time are used up.
    Enough,
    Difference(Case),
}

type Go = Result<(), Stop>;

/// A call on a pack, and what a reader did wrong.
pub struct Case {
    pub class: Class,
    pub pack: Vec<u8>,
    pub call: Call,
}

/// Answer and tape where they are not what is expected.
pub struct Difference {
    pub expected: Fields,
    pub got: Fields,
    pub memory: Option<String>,
}

/// A reader and the memory it is lent.
pub struct Bench<'r> {
    reader: &'r mut dyn Reader,
    pub pack: Pack,
    tape: Tape,
}

impl<'r> Bench<'r> {
    pub fn new(reader: &'r mut dyn Reader) -> Self {
        Bench { reader, pack: Pack::new(), tape: Tape::default() }
    }

    /// One case: the call on the pack that was filled in, of which `pack` is a copy.
    pub fn put(&mut self, pack: &[u8], call: &Call, expected: Fields, words: &[u32]) -> Option<Difference> {
        let length = call.tape();
        let tape = self.tape.lend(length);
        // SAFETY: pack and tape are valid, and the memory around the tape is this bench's.
        let got = unsafe { call.put(self.reader, self.pack.lend(), tape) };
        let counted = if expected[0] == 0 { words } else { &[] };
        let mut memory = self.tape.judge(length, counted);
        if self.pack.bytes() != pack {
            memory = Some("the pack was changed".to_string());
            self.pack.fill(pack);
        }
        (got != expected || memory.is_some()).then_some(Difference { expected, got, memory })
    }
}

pub struct Round<'r> {
    pub bench: Bench<'r>,
    chance: Chance,
    families: Vec<Family>,
    counts: [[u64; NUMBERS]; CLASSES],
    pub cases: u64,
    /// Cases whose expected answer is a run of the Rust under just this budget, tape and place.
    runs: u64,
    most: u64,
    until: Option<Instant>,
    start: Instant,
}

impl<'r> Round<'r> {
    pub fn new(reader: &'r mut dyn Reader, seed: u64, most: u64, time: Option<Duration>) -> Self {
        let start = Instant::now();
        Round {
            bench: Bench::new(reader),
            chance: Chance(seed),
            families: inputs::families(),
            counts: [[0; NUMBERS]; CLASSES],
            cases: 0,
            runs: 0,
            most,
            until: time.map(|time| start + time),
            start,
        }
    }

    pub fn run(&mut self) -> Stop {
        for turn in 0.. {
            if let Err(stop) = self.turn(turn) {
                return stop;
            }
        }
        Stop::Enough
    }

    fn turn(&mut self, turn: u64) -> Go {
        let pack = inputs::written(&mut self.chance);
        let other = inputs::written(&mut self.chance);
        let all = Effort { budgets: 12, tapes: 4, sections: 6, lookups: 4, alike: true };
        let reading = self.input(Class::Written, &pack, all)?;
        let second = answer::read(&other, NO_END as u64, u64::MAX);
        let some = Effort { budgets: 4, tapes: 1, sections: 1, lookups: 0, alike: true };
        for i in 0..8 {
            let damaged = inputs::damaged(&pack, &reading, &mut self.chance);
            self.input(Class::Damaged, &damaged, Effort { lookups: (i == 0) as u64, ..some })?;
        }
        for (a, b) in [((&pack[..], &reading), (&other[..], &second)), ((&other, &second), (&pack, &reading))] {
            let spliced = inputs::spliced(a, b, &mut self.chance);
            self.input(Class::Spliced, &spliced, some)?;
        }
        for _ in 0..4 {
            let length = self.chance.below(pack.len() as u64) as usize;
            self.input(Class::Cut, &pack[..length], some)?;
        }
        const ALIKE: Effort = Effort { budgets: 0, tapes: 0, sections: 0, lookups: 0, alike: true };
        for _ in 0..16 {
            let pack = inputs::accented(&mut self.chance);
            let reading = self.input(Class::Accented, &pack, ALIKE)?;
            for _ in 0..2 {
                let damaged = inputs::damaged(&pack, &reading, &mut self.chance);
                self.input(Class::Damaged, &damaged, ALIKE)?;
            }
        }
        if turn.is_multiple_of(16) {
            let pack = inputs::wide(&mut self.chance);
            let reading = self.input(Class::Written, &pack, Effort { lookups: 0, ..all })?;
            for _ in 0..4 {
                let damaged = inputs::damaged(&pack, &reading, &mut self.chance);
                self.input(Class::Damaged, &damaged, some)?;
            }
        }
        for i in 0..self.families.len() {
            for j in 0..self.families[i].share {
                let Some(pack) = self.families[i].next() else { break };
                let class = self.families[i].class;
                if class == Class::Text {
                    self.text(class, &pack)?;
                    continue;
                }
                let sections = (j % 4 == 0) as u64;
                let effort = match class {
                    Class::Listed => Effort { budgets: 64, tapes: 4, sections: 17, lookups: 4, alike: true },
                    Class::Accented => Effort { budgets: 2, tapes: 1, sections: 1, lookups: 0, alike: true },
                    Class::Short => Effort { budgets: 0, tapes: 0, sections, lookups: 0, alike: false },
                    _ => Effort { budgets: 1, tapes: 1, sections, lookups: (j % 16 == 0) as u64, alike: j % 16 == 8 },
                };
                self.input(class, &pack, effort)?;
            }
        }
        if turn == SLOW_TURN {
            self.long()?;
            self.many_functions()?;
        }
        Ok(())
    }

    /// All calls on one pack. Gives its reading without end of budget and tape.
    fn input(&mut self, class: Class, pack: &[u8], effort: Effort) -> Result<Reading, Stop> {
        self.bench.pack.fill(pack);
        let reading = answer::read(pack, NO_END as u64, u64::MAX);
        let words = reading.tape();
        let room = words.len() + self.chance.below(6) as usize;
        self.whole(class, pack, &reading, &words, RUST_BUDGET, room)?;
        for budget in self.budgets(&reading, effort.budgets) {
            self.whole(Class::Budget, pack, &reading, &words, budget, room)?;
        }
        for tape in self.tapes(words.len(), effort.tapes) {
            let budget = if self.chance.flag() { RUST_BUDGET } else { cost(&reading) };
            self.whole(Class::Tape, pack, &reading, &words, budget, tape)?;
        }
        self.sections(pack, &reading, effort.sections)?;
        self.lookups(pack, &reading, effort.lookups)?;
        if effort.alike {
            let expected = alike(reading.alike(reading.under(RUST_BUDGET, u64::MAX)));
            self.case(Class::Alike, pack, Call::AlikeNames, expected, &[])?;
        }
        Ok(reading)
    }

    /// A text as the name in a pack, as a name section at the pack's end, as all of the pack, between bytes that look like
    /// the start and the rest of a character, and, where it is short enough, as an artifact's name.
    fn text(&mut self, class: Class, text: &[u8]) -> Go {
        const NOTHING_MORE: Effort = Effort { budgets: 0, tapes: 0, sections: 0, lookups: 0, alike: false };
        let stored = cases::text(text);
        self.input(class, &cases::with_section(1, 4, &stored), NOTHING_MORE)?;
        for (before, after) in [(&opening_part(1, 0)[..], &[][..]), (&[], &[]), (&[0xF0; 12], &[0x80; 3])] {
            let pack = [before, &stored, after].concat();
            self.bench.pack.fill(&pack);
            let place = before.len() as u64;
            let reading = answer::section(&pack, 1, place, u64::MAX, 0, u64::MAX);
            let call = Call::Section { number: 1, place, budget: RUST_BUDGET, functions: 0, tape: 2 };
            self.case(class, &pack, call, fields(reading.under(RUST_BUDGET, 2)), &reading.tape())?;
        }
        if text.len() <= 128 {
            let artifact = [&[1, 0, 0, 0], &stored[..], &[0; 8]].concat();
            self.input(class, &cases::with_section(14, 4, &artifact), NOTHING_MORE)?;
        }
        Ok(())
    }

    /// At, one below and one above the sum of an opening part of the charge list: all of them, or as many as asked for.
    fn budgets(&mut self, reading: &Reading, most: u64) -> Vec<u64> {
        let mut sum = 0;
        let sums = reading.charges.iter().map(|charge| {
            sum += charge.amount as u64;
            sum
        });
        let mut all: Vec<u64> = sums.flat_map(|sum| [sum.saturating_sub(1), sum, sum + 1]).collect();
        all.dedup();
        while all.len() as u64 > most {
            let at = self.chance.below(all.len() as u64) as usize;
            all.swap_remove(at);
        }
        if most > 1 {
            all.extend([0, u64::MAX]);
        }
        all
    }

    fn tapes(&mut self, needed: usize, most: u64) -> Vec<usize> {
        let mut all = vec![needed, needed.saturating_sub(1), 0, needed + 1, needed / 2];
        let at = self.chance.below(5) as usize;
        all.rotate_left(at);
        all.truncate(most as usize);
        all
    }

    fn whole(&mut self, class: Class, pack: &[u8], reading: &Reading, words: &[u32], budget: u64, tape: usize) -> Go {
        let expected = fields(reading.under(budget, tape as u64));
        self.case(class, pack, Call::Whole { budget, tape }, expected, words)
    }

    /// Sections where the pack has them, and others; each with budgets and tapes around what it needs.
    fn sections(&mut self, pack: &[u8], reading: &Reading, count: u64) -> Go {
        let begun = reading.sections.len() as u64;
        for i in 0..count {
            let mut number = 1 + self.chance.below(17);
            let mut place = self.chance.below(pack.len() as u64 + 3);
            // Most at a section's start, the last one begun among them: there the pack was refused.
            if begun > 0 && self.chance.below(8) != 0 {
                number = if i == 0 { begun } else { 1 + self.chance.below(begun) };
                place = reading.sections[number as usize - 1].place as u64;
            }
            let functions = self.functions(pack, reading);
            self.section(pack, number as usize, place, functions)?;
        }
        Ok(())
    }

    /// A function count near the pack's own.
    fn functions(&mut self, pack: &[u8], reading: &Reading) -> u64 {
        let count = reading.sections.get(9).and_then(|at| pack.get(at.place..at.place + 4));
        let own = count.map_or(0, |bytes| u32::from_le_bytes(bytes.try_into().expect("four bytes")) as u64).min(16);
        match self.chance.below(4) {
            0 => own + 1,
            1 => own.saturating_sub(1),
            2 => self.chance.below(4),
            _ => own,
        }
    }

    fn section(&mut self, pack: &[u8], number: usize, place: u64, functions: u64) -> Go {
        let reading = answer::section(pack, number, place, u64::MAX, functions, u64::MAX);
        let words = reading.tape();
        let room = words.len() + self.chance.below(4) as usize;
        let mut calls = vec![(RUST_BUDGET, room)];
        calls.extend(self.budgets(&reading, 2).into_iter().map(|budget| (budget, room)));
        calls.extend(self.tapes(words.len(), 1).into_iter().map(|tape| (cost(&reading), tape)));
        for (budget, tape) in calls {
            let expected = fields(reading.under(budget, tape as u64));
            let call = Call::Section { number, place, budget, functions, tape };
            self.case(Class::Section, pack, call, expected, &words)?;
        }
        Ok(())
    }

    fn lookups(&mut self, pack: &[u8], reading: &Reading, count: u64) -> Go {
        let answer = reading.under(RUST_BUDGET, u64::MAX);
        for _ in 0..count {
            let artifacts = &reading.artifacts;
            let mut name = match artifacts.len() as u64 {
                0 => self.chance.text().into_bytes(),
                most => artifacts[self.chance.below(most) as usize].0.clone(),
            };
            match self.chance.below(8) {
                0 => drop(name.pop()),
                1 => name.push(self.chance.next() as u8),
                2 => name = String::from_utf8_lossy(&name).replace('\u{e9}', "e\u{301}").into_bytes(),
                3 => name = packs::TEXTS[self.chance.below(packs::TEXTS.len() as u64) as usize].as_bytes().to_vec(),
                _ => {}
            }
            let expected = found(reading.find(answer, &name));
            self.case(Class::Lookup, pack, Call::Lookup { name }, expected, &[])?;
        }
        Ok(())
    }

    /// Packs of up to the longest length and one byte more; sections where the oracle's opening part fits too.
    fn long(&mut self) -> Go {
        for pack in inputs::long() {
            self.input(Class::Long, &pack, Effort { budgets: 4, tapes: 2, sections: 0, lookups: 1, alike: true })?;
            if pack.len() > MAX_VOB_BYTES {
                for number in 1..=17 {
                    self.section(&pack, number, 9, 1)?;
                }
                self.section(&pack, 1, u64::MAX, 1)?;
            }
        }
        for i in 0..inputs::LONG_TEXTS {
            self.text(Class::Long, &inputs::long_text(i))?;
        }
        Ok(())
    }

    /// Function counts at the inline limit: the oracle's opening part has as many functions.
    fn many_functions(&mut self) -> Go {
        for (functions, count) in [(131_071, 131_072), (131_072, 131_072), (131_072, 131_073), (u64::MAX, 131_073)] {
            let pack = [[0; 4], u32::to_le_bytes(count)].concat();
            self.bench.pack.fill(&pack);
            self.section(&pack, 17, 0, functions)?;
        }
        Ok(())
    }

    /// One case. Now and then the oracle is run on just this call, to check what was derived.
    fn case(&mut self, class: Class, pack: &[u8], call: Call, expected: Fields, words: &[u32]) -> Go {
        if self.cases.is_multiple_of(RUN_AFTER) && pack.len() <= LONGEST_RUN {
            let (answer, tape) = call.expected(pack);
            assert_eq!(answer, expected, "what was derived for {call} is not what the oracle says");
            assert!(answer[0] != 0 || tape == words, "the words of {call} are not what the oracle says");
            self.runs += 1;
        }
        self.cases += 1;
        if self.bench.put(pack, &call, expected, words).is_some() {
            return Err(Stop::Difference(Case { class, pack: pack.to_vec(), call }));
        }
        self.counts[class as usize][expected[0] as usize] += 1;
        let late = || self.until.is_some_and(|until| Instant::now() >= until);
        if self.cases >= self.most || (self.cases.is_multiple_of(1024) && late()) {
            return Err(Stop::Enough);
        }
        Ok(())
    }

    pub fn report(&self) -> String {
        const ALL: [Class; CLASSES] = [
            Class::Written,
            Class::Damaged,
            Class::Spliced,
            Class::Cut,
            Class::Short,
            Class::Byte,
            Class::Leaf,
            Class::Text,
            Class::Listed,
            Class::Accented,
            Class::Long,
            Class::Budget,
            Class::Tape,
            Class::Section,
            Class::Lookup,
            Class::Alike,
        ];
        let row = |label: &str, counts: &[u64]| {
            let numbers = counts.iter().enumerate().filter(|(_, count)| **count > 0);
            let numbers: Vec<String> = numbers.map(|(number, count)| format!("{number}:{count}")).collect();
            let sum: u64 = counts.iter().sum();
            format!("{label}: {sum} cases; by number, 0 for taken: {}\n", numbers.join(" "))
        };
        let mut out: String =
            ALL.iter().map(|class| row(&format!("{class:?}").to_lowercase(), &self.counts[*class as usize])).collect();
        let total: Vec<u64> = (0..NUMBERS).map(|n| self.counts.iter().map(|counts| counts[n]).sum()).collect();
        out += &row("all", &total);
        for family in &self.families {
            out += &format!("{}: {} of {}\n", family.label, family.done, family.count);
        }
        let seconds = self.start.elapsed().as_secs_f64();
        out + &format!(
            "{} cases, {} of them by a run of the Rust on just this call, {seconds:.0} s",
            self.cases, self.runs
        )
    }
}

fn cost(reading: &Reading) -> u64 {
    reading.charges.iter().map(|charge| charge.amount as u64).sum()
}
