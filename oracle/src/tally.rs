//! Counts of what was seen, by place and outcome, and their tables.

use crate::place::{Place, Then, PLACES, THENS};
use crate::seen::{Seen, Within, SPURIOUS};
use std::collections::BTreeMap;
use std::fmt::Write as _;

/// What is told apart: the place, what its push belongs to, what its collect belongs to, what came of it.
pub(crate) type Key = (Place, Option<Then>, Option<Within>, &'static str);

#[derive(Default, Clone)]
pub(crate) struct Tally {
    pub(crate) counts: BTreeMap<Key, u64>,
    pub(crate) distances: BTreeMap<i64, u64>,
    pub(crate) tagged_nulls: u64,
    pub(crate) bags_gone: u64,
    pub(crate) freed: u64,
    pub(crate) steps: u64,
    pub(crate) marked: u64,
    pub(crate) records: u64,
}

pub(crate) fn key(seen: &Seen) -> Key {
    (seen.place, seen.then, seen.within, seen.outcome)
}

impl Tally {
    pub(crate) fn note(&mut self, seen: Option<&Seen>, freed: usize) {
        self.records += 1;
        self.freed += freed as u64;
        let Some(seen) = seen else { return };
        self.steps += 1;
        self.marked += u64::from(seen.marked);
        *self.counts.entry(key(seen)).or_default() += 1;
        self.tagged_nulls += u64::from(seen.tagged_null);
        self.bags_gone += u64::from(seen.bag_gone);
        if let Some(distance) = seen.distance {
            *self.distances.entry(distance).or_default() += 1;
        }
    }

    pub(crate) fn add(&mut self, other: &Tally) {
        for (key, count) in &other.counts {
            *self.counts.entry(*key).or_default() += count;
        }
        for (distance, count) in &other.distances {
            *self.distances.entry(*distance).or_default() += count;
        }
        self.tagged_nulls += other.tagged_nulls;
        self.bags_gone += other.bags_gone;
        self.freed += other.freed;
        self.steps += other.steps;
        self.marked += other.marked;
        self.records += other.records;
    }

    pub(crate) fn of(&self, place: Place, outcome: &str) -> u64 {
        self.counts.iter().filter(|(key, _)| key.0 == place && key.3 == outcome).map(|(_, count)| count).sum()
    }

    /// Marked steps whose weak exchange failed although the value agreed.
    pub(crate) fn spurious(&self) -> u64 {
        self.of(Place::RegisterLink, SPURIOUS)
    }

    /// Place by outcome; a push is given for each thing that it can belong to.
    pub(crate) fn table(&self) -> String {
        let mut text = String::from("| place | belongs to | outcome | in pin | in flush | in finalize | all |\n");
        text += "|---|---|---|---|---|---|---|\n";
        for (place, name) in PLACES {
            let thens: Vec<Option<Then>> = if place.in_push() { THENS.map(|(then, _)| Some(then)).to_vec() } else { vec![None] };
            for then in thens {
                self.rows(place, name, then, &mut text);
            }
        }
        text
    }

    fn rows(&self, place: Place, name: &str, then: Option<Then>, text: &mut String) {
        let belongs = then.map_or("", |then| THENS[then as usize].1);
        for outcome in outcomes(place) {
            let count = |within: Option<Within>| self.counts.get(&(place, then, within, *outcome)).copied().unwrap_or(0);
            let columns = [Within::Pin, Within::Flush, Within::Finalize].map(|within| count(Some(within)));
            let all = columns.iter().sum::<u64>() + count(None);
            let shown = columns.map(|count| if count == 0 { String::new() } else { count.to_string() });
            let _ = writeln!(text, "| {name} | {belongs} | {outcome} | {} | {all} |", shown.join(" | "));
        }
    }

    /// Rows of the table that count nothing.
    pub(crate) fn never(&self) -> Vec<String> {
        let table = self.table();
        table.lines().filter(|line| line.ends_with("| 0 |")).map(String::from).collect()
    }

    /// The numbers beside the table.
    pub(crate) fn summary(&self) -> String {
        let (same, new) = (self.of(Place::AdvanceStore, "same value"), self.of(Place::AdvanceStore, "new value"));
        let distances: Vec<String> = self.distances.iter().map(|(d, count)| format!("{d}: {count}")).collect();
        let mut text = format!("Records {}, steps {}, tokens freed {}.\n", self.records, self.steps, self.freed);
        let _ = writeln!(text, "Marked steps {}, of which {} failed for no reason.", self.marked, self.spurious());
        let _ = writeln!(text, "Epoch stores {}: {same} of them write the value that stands there.", same + new);
        let _ = writeln!(text, "Epoch stores that lower the epoch: {}.", self.of(Place::AdvanceStore, "LOWER VALUE"));
        let _ = writeln!(text, "Distances at `pop next`: {}.", distances.join(", "));
        let _ = writeln!(text, "Nodes judged by `pop next` whose bag had been freed before: {}.", self.bags_gone);
        let _ = writeln!(text, "Accesses that read or wrote a tagged null: {}.", self.tagged_nulls);
        text
    }
}

/// What can come of a step at a place.
fn outcomes(place: Place) -> &'static [&'static str] {
    match place {
        Place::RegisterLink => &["won", "lost", SPURIOUS],
        Place::PopExchange | Place::PopTailMove => &["won", "lost"],
        Place::PushHelp | Place::PushLink | Place::PushMove => &["won", "lost"],
        Place::PinWord => &["done", "collects", "pushes"],
        Place::RepinEpoch => &["equal", "unequal"],
        Place::UnpinWord => &["done", "finalizes"],
        Place::AdvanceHead => &["entry", "null"],
        Place::AdvanceNext => &["live", "tagged"],
        Place::AdvanceWord => &["goes on", "pinned elsewhere"],
        Place::Unlink => &["won", "won, bag full", "lost, untagged", "lost, tagged"],
        Place::AdvanceStore => &["new value", "same value", "LOWER VALUE"],
        Place::PopNext => &["null", "not expired", "expired"],
        Place::PopTail => &["another", "another, bag full", "the old head"],
        Place::PushNext => &["null", "set"],
        Place::FinalTag => &["on a link", "on null"],
        _ => &["made"],
    }
}
