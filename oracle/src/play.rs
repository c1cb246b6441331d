//! Plays a schedule and prints what came out.

use crate::judge::{Answer, Judge, Outcome};
use crate::record::{read_all, Record};
use crate::state::{describe, Book};
use std::fmt::Write as _;
use std::io::Write as _;

#[derive(Clone, Copy, Default)]
pub(crate) struct Switches {
    pub(crate) whole: bool,
    pub(crate) accesses: bool,
    pub(crate) state: bool,
    pub(crate) recorded: bool,
}

const KINDS: [&str; 6] = ["none", "load", "store", "exchange done", "exchange failed", "fetch_or"];
const WORDS: [&str; 7] =
    ["global epoch", "list head", "entry next", "participant word", "queue head", "queue tail", "node next"];

pub(crate) fn play(bytes: &[u8], n: usize, m: usize, switches: Switches) {
    let mut out = std::io::BufWriter::new(std::io::stdout().lock());
    let mut judge = Judge::start(n, m, switches.whole);
    let mut book = Book::fresh();
    if switches.recorded {
        writeln!(out, "=").expect("output");
    }
    for record in read_all(bytes) {
        let outcome = judge.play(record);
        let text = if switches.recorded {
            recorded_line(record, &outcome, &mut book, &judge)
        } else {
            lines(&outcome, &judge, switches)
        };
        out.write_all(text.as_bytes()).expect("output");
    }
}

fn lines(outcome: &Outcome, judge: &Judge, switches: Switches) -> String {
    let mut text = outcome.line() + "\n";
    if let (true, Some(seen)) = (switches.accesses, outcome.seen) {
        let access = outcome.access;
        let (kind, word) = (KINDS[access.kind as usize], WORDS[access.word as usize]);
        let (index, read, stored) = (access.index, access.read, access.stored);
        let place = seen.place.name();
        let _ = writeln!(text, "    {kind}, {word} {index}, read {read}, stored {stored} ({place}, {})", seen.outcome);
    }
    if switches.state {
        text += &describe(judge);
    }
    text
}

/// One line of the recorded answers; see the README for the form.
pub(crate) fn recorded_line(record: Record, outcome: &Outcome, book: &mut Book, judge: &Judge) -> String {
    let (answer, value) = match outcome.answer {
        Answer::More => (0, 0),
        Answer::Done(value) => (1, value),
        Answer::Refused(number) => (2, u64::from(number)),
    };
    let mut text = format!("{} {} {} {answer} {value}", record.action, record.participant, record.token);
    let _ = write!(text, " {}", outcome.freed.len());
    for token in &outcome.freed {
        let _ = write!(text, " {token}");
    }
    let a = outcome.access;
    let _ = write!(text, " {} {} {} {} {}", a.kind, a.word, a.index, a.read, a.stored);
    let changes = book.changes(judge);
    let _ = write!(text, " {}", changes.len());
    for (cell, value) in changes {
        let _ = write!(text, " {cell} {value}");
    }
    text + "\n"
}
