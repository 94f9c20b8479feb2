//! A difference made small: the input with the fewest bytes found that still shows one.

use crate::calls::{hex, Call};
use crate::inputs::{marks, set_text, set_word};
use crate::round::{Bench, Case, Difference};
use harness::answer::{self, Reading, BARE, NO_END};
use std::time::{Duration, Instant};

fn differs(bench: &mut Bench, case: &Case) -> Option<Difference> {
    let run = std::panic::AssertUnwindSafe(|| case.call.expected(&case.pack));
    // An input that the oracle has no answer for shows nothing.
    let (expected, words) = std::panic::catch_unwind(run).ok()?;
    bench.pack.fill(&case.pack);
    bench.put(&case.pack, &case.call, expected, &words)
}

/// A pack that has to stay long is slow to try, so trying ends after this time.
const PATIENCE: Duration = Duration::from_secs(20);

struct Trial<'b, 'r> {
    bench: &'b mut Bench<'r>,
    until: Instant,
}

/// Takes `change` where the changed case still differs.
fn try_change(trial: &mut Trial, case: &mut Case, change: impl FnOnce(&mut Case)) -> bool {
    let mut other = Case { class: case.class, pack: case.pack.clone(), call: case.call.clone() };
    change(&mut other);
    let better = Instant::now() < trial.until && differs(trial.bench, &other).is_some();
    if better {
        *case = other;
    }
    better
}

fn without_bytes(trial: &mut Trial, case: &mut Case) -> bool {
    let mut changed = false;
    let mut width = case.pack.len().next_power_of_two();
    while width > 0 {
        let mut at = 0;
        while at < case.pack.len() {
            let end = (at + width).min(case.pack.len());
            let gone = try_change(trial, case, |case| {
                case.pack.drain(at..end);
                if let Call::Section { place, .. } = &mut case.call {
                    *place -= (*place).min(end as u64) - (*place).min(at as u64);
                }
            });
            changed |= gone;
            at = if gone { at } else { end };
        }
        width /= 2;
    }
    changed
}

fn reading(case: &Case) -> Option<Reading> {
    let run = std::panic::AssertUnwindSafe(|| match case.call {
        Call::Section { number, place, functions, .. } => {
            answer::section(&case.pack, number, place, u64::MAX, functions, u64::MAX)
        }
        _ => answer::read(&case.pack, NO_END as u64, u64::MAX),
    });
    std::panic::catch_unwind(run).ok()
}

/// Sections bare, texts empty, and lists an entry shorter.
fn without_parts(trial: &mut Trial, case: &mut Case) -> bool {
    let mut changed = false;
    for (section, width) in BARE.iter().enumerate() {
        let Some(reading) = reading(case) else { break };
        let (Some(start), Some(end)) = (reading.sections.get(section), reading.sections.get(section + 1)) else {
            break;
        };
        let (start, end) = (start.place, end.place);
        changed |=
            end - start > *width && try_change(trial, case, |case| drop(case.pack.splice(start..end, vec![0; *width])));
    }
    for i in 0.. {
        let Some(text) = reading(case).and_then(|reading| marks(&reading).texts.get(i).copied()) else { break };
        changed |= text.1 > 0 && try_change(trial, case, |case| set_text(&mut case.pack, text, b""));
    }
    for i in 0.. {
        let Some(at) = reading(case).and_then(|reading| marks(&reading).counts.get(i).copied()) else { break };
        while shorter_list(trial, case, at) {
            changed = true;
        }
    }
    changed
}

/// An entry of any width taken out after the count word at `at`.
fn shorter_list(trial: &mut Trial, case: &mut Case, at: usize) -> bool {
    const WIDEST: usize = 64;
    let count = u32::from_le_bytes(case.pack[at..at + 4].try_into().expect("four bytes"));
    let length = case.pack.len();
    count > 0
        && (at + 4..length).any(|start| {
            (1..=WIDEST.min(length - start)).any(|width| {
                try_change(trial, case, |case| {
                    set_word(&mut case.pack, at, count - 1);
                    case.pack.drain(start..start + width);
                })
            })
        })
}

fn with_zeros(trial: &mut Trial, case: &mut Case) -> bool {
    let mut changed = false;
    for at in 0..case.pack.len() {
        changed |= case.pack[at] != 0 && try_change(trial, case, |case| case.pack[at] = 0);
    }
    changed
}

/// Budget, tape, function count and name as small as they can be.
fn with_less(trial: &mut Trial, case: &mut Case) -> bool {
    let mut changed = false;
    let numbers: [fn(&mut Call, u64) -> Option<u64>; 3] = [
        |call, value| match call {
            Call::Whole { budget, .. } | Call::Section { budget, .. } => Some(std::mem::replace(budget, value)),
            Call::Lookup { .. } | Call::AlikeNames => None,
        },
        |call, value| match call {
            Call::Whole { tape, .. } | Call::Section { tape, .. } => {
                Some(std::mem::replace(tape, value as usize) as u64)
            }
            Call::Lookup { .. } | Call::AlikeNames => None,
        },
        |call, value| match call {
            Call::Section { functions, .. } => Some(std::mem::replace(functions, value)),
            _ => None,
        },
    ];
    for set in numbers {
        let Some(mut high) = set(&mut case.call.clone(), 0) else { continue };
        let mut low = 0;
        while low < high {
            let middle = low + (high - low) / 2;
            if try_change(trial, case, |case| _ = set(&mut case.call, middle)) {
                high = middle;
                changed = true;
            } else {
                low = middle + 1;
            }
        }
    }
    while let Call::Lookup { name } = &case.call {
        let length = name.len();
        let shorter = |at: usize| {
            move |case: &mut Case| {
                if let Call::Lookup { name } = &mut case.call {
                    name.remove(at);
                }
            }
        };
        if !(0..length).any(|at| try_change(trial, case, shorter(at))) {
            break;
        }
        changed = true;
    }
    changed
}

/// The case made small, and what is different about it.
pub fn smallest(bench: &mut Bench, mut case: Case) -> (Case, Option<Difference>) {
    // The oracle is asked about inputs that it may have no answer for; its complaints are of no use here.
    let hook = std::panic::take_hook();
    std::panic::set_hook(Box::new(|_| {}));
    // The longest packs are zeros, and slow to try.
    if case.pack.len() <= 1 << 20 {
        let mut trial = Trial { bench: &mut *bench, until: Instant::now() + PATIENCE };
        while with_less(&mut trial, &mut case)
            | without_bytes(&mut trial, &mut case)
            | without_parts(&mut trial, &mut case)
            | with_zeros(&mut trial, &mut case)
        {}
    }
    let difference = differs(bench, &case);
    std::panic::set_hook(hook);
    (case, difference)
}

pub fn report(bench: &mut Bench, case: Case) -> String {
    let (case, difference) = smallest(bench, case);
    let Some(Difference { expected, got, memory }) = difference else {
        return format!("a difference that is gone when asked again: {}, {} bytes", case.call, case.pack.len());
    };
    format!(
        "difference, found among the class {:?}: {}, {} bytes\n  {}\n  expected {}\n  got      {}\n  {}",
        case.class,
        case.call,
        case.pack.len(),
        hex(&case.pack[..case.pack.len().min(4096)]),
        case.call.text(expected),
        case.call.text(got),
        memory.unwrap_or_else(|| "memory as expected".to_string()),
    )
}
