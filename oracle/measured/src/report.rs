//! What the patched reader reports. One reading at a time on each thread.

use std::cell::RefCell;
use std::panic::Location;

include!(concat!(env!("OUT_DIR"), "/sites.rs"));

#[derive(Clone, Debug)]
pub struct Charge {
    pub context: &'static str,
    pub amount: usize,
    pub place: usize,
}

#[derive(Clone, Copy, Debug)]
pub struct Span {
    pub start: usize,
    pub len: usize,
    pub site: Site,
}

#[derive(Clone, Copy, Debug)]
pub struct Mark {
    pub place: usize,
    pub left: usize,
}

#[derive(Clone, Debug, Default)]
pub struct Report {
    budget: usize,
    /// Each charge asked for, in order; the last one may be the one that was refused.
    pub charges: Vec<Charge>,
    /// Each text and payload whose charge went through.
    pub spans: Vec<Span>,
    /// The sections that were begun.
    pub sections: Vec<Mark>,
    /// None where no byte was looked at.
    pub end: Option<Mark>,
}

thread_local! {
    static REPORT: RefCell<Report> = RefCell::default();
}

/// Run `read` with a starting budget, and give what it answers with its report.
pub fn with_budget<T>(budget: usize, read: impl FnOnce() -> T) -> (T, Report) {
    REPORT.with(|report| *report.borrow_mut() = Report { budget, ..Report::default() });
    let answer = read();
    (answer, REPORT.with(|report| report.take()))
}

pub(crate) fn budget() -> usize {
    REPORT.with(|report| report.borrow().budget)
}

pub(crate) fn charge(context: &'static str, amount: usize, place: usize) {
    REPORT.with(|report| report.borrow_mut().charges.push(Charge { context, amount, place }));
}

#[track_caller]
pub(crate) fn span(start: usize, len: usize) {
    let site = site(Location::caller().line());
    REPORT.with(|report| report.borrow_mut().spans.push(Span { start, len, site }));
}

pub(crate) fn section(place: usize, left: usize) {
    REPORT.with(|report| report.borrow_mut().sections.push(Mark { place, left }));
}

pub(crate) fn end(place: usize, left: usize) {
    REPORT.with(|report| report.borrow_mut().end = Some(Mark { place, left }));
}
