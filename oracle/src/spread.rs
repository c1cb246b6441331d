//! Makes the spread of recorded answers: the worked runs, then short generated schedules, chosen one after another so that
//! every place and every outcome that was ever seen is in the file.

use crate::generate::{generate, nearly_full_round, Profile, Wish, PROFILES};
use crate::judge::Judge;
use crate::place::{Place, THENS};
use crate::play::recorded_line;
use crate::record::Record;
use crate::seen::Seen;
use crate::state::Book;
use crate::tally::{key, Key, Tally};
use crate::worked::{self, Worked};
use std::collections::{BTreeMap, BTreeSet};

const SHORT: usize = 350;
const PER_PROFILE: u64 = 500;
const ROUNDS: u64 = 4000;
/// Of 1000 steps, in the schedules that have marks.
const MARKS: usize = 100;

#[derive(Clone, Copy, PartialEq, Eq, PartialOrd, Ord)]
enum Feature {
    Step(Key),
    Distance(i64),
    TaggedNull,
    BagGone,
    /// More than one token freed in a step.
    Several,
    /// A marked step, by its place and what came of it.
    Marked(Place, &'static str),
}

struct Candidate {
    name: String,
    log: Vec<Record>,
    /// Number of the record that shows a feature first.
    first: BTreeMap<Feature, usize>,
}

fn features(seen: &Seen, freed: usize) -> [Option<Feature>; 6] {
    [
        Some(Feature::Step(key(seen))),
        seen.distance.map(Feature::Distance),
        seen.tagged_null.then_some(Feature::TaggedNull),
        seen.bag_gone.then_some(Feature::BagGone),
        (freed > 1).then_some(Feature::Several),
        seen.marked.then_some(Feature::Marked(seen.place, seen.outcome)),
    ]
}

fn candidate(name: String, log: Vec<Record>) -> Candidate {
    let mut judge = Judge::start(32, 128, false);
    let mut first = BTreeMap::new();
    for (at, record) in log.iter().enumerate() {
        let outcome = judge.play(*record);
        let Some(seen) = outcome.seen else { continue };
        for feature in features(&seen, outcome.freed.len()).into_iter().flatten() {
            first.entry(feature).or_insert(at);
        }
    }
    Candidate { name, log, first }
}

fn candidates(seed: u64, marked: usize) -> Vec<Candidate> {
    let marks = if marked == 0 { String::new() } else { format!(", marked {marked}") };
    let mut made = Vec::new();
    for (profile, name) in PROFILES.into_iter().filter(|(profile, _)| *profile != Profile::NearlyFull) {
        for number in seed..seed + PER_PROFILE {
            let wish = Wish { marked, ..Wish::new(number, profile, SHORT) };
            made.push(candidate(format!("{name}, seed {number}{marks}"), generate(wish).log));
        }
    }
    for number in seed..seed + ROUNDS {
        let log = nearly_full_round(number, marked).log;
        made.push(candidate(format!("nearly-full, one round, seed {number}{marks}"), log));
    }
    made
}

/// Features that are new, and how many records are needed to show them all.
fn worth(candidate: &Candidate, have: &BTreeSet<Feature>) -> (usize, usize) {
    let new = candidate.first.iter().filter(|(feature, _)| !have.contains(feature));
    new.fold((0, 0), |(count, records), (_, at)| (count + 1, records.max(at + 1)))
}

/// The one that shows most for its length, cut off behind its last new feature.
fn best(made: &[Candidate], have: &BTreeSet<Feature>) -> Option<(usize, usize)> {
    let mut found: Option<(usize, usize, usize)> = None;
    for (at, candidate) in made.iter().enumerate() {
        let (new, records) = worth(candidate, have);
        let better = found.is_none_or(|(_, its_new, its_records)| new * its_records > its_new * records);
        if new > 0 && better {
            found = Some((at, new, records));
        }
    }
    found.map(|(at, _, records)| (at, records))
}

fn describe(feature: &Feature) -> String {
    match feature {
        Feature::Step((place, then, within, outcome)) => {
            let push = then.map_or(String::new(), |then| format!(" of {}", THENS[then as usize].1));
            let collect = within.map_or(String::new(), |within| format!(" in {within:?}").to_lowercase());
            format!("{}{push}{collect}: {outcome}", place.name())
        }
        Feature::Distance(distance) => format!("distance {distance}"),
        Feature::TaggedNull => String::from("tagged null"),
        Feature::BagGone => String::from("a node judged whose bag is gone"),
        Feature::Several => String::from("several tokens freed in a step"),
        Feature::Marked(place, outcome) => format!("marked, {}: {outcome}", place.name()),
    }
}

/// How much was written. As text it is what the program `replay` has to say of it.
#[derive(Default)]
pub(crate) struct Written {
    schedules: usize,
    records: usize,
    words: usize,
}

impl std::fmt::Display for Written {
    fn fmt(&self, form: &mut std::fmt::Formatter) -> std::fmt::Result {
        let Written { schedules, records, words } = self;
        writeln!(form, "{schedules} schedules\n{records} records\n{words} words\n0 lines not understood\n0 differences")
    }
}

/// The lines of one schedule, and what it shows.
pub(crate) fn write_schedule(
    (name, shows): (&str, &str),
    log: &[Record],
    (n, m): (usize, usize),
    written: &mut Written,
    text: &mut String,
) -> Tally {
    let sizes = if (n, m) == (32, 128) { String::new() } else { format!(" {n} {m}") };
    *text += &format!("# {name}: {shows}\n={sizes}\n");
    let mut judge = Judge::start(n, m, false);
    let mut book = Book::fresh();
    let mut tally = Tally::default();
    for record in log {
        let outcome = judge.play(*record);
        tally.note(outcome.seen.as_ref(), outcome.freed.len());
        *text += &recorded_line(*record, &outcome, &mut book, &judge);
        written.words += book.words(&judge);
    }
    written.schedules += 1;
    written.records += log.len();
    tally
}

/// What is written so far, and what it shows.
struct Spread {
    text: String,
    tally: Tally,
    have: BTreeSet<Feature>,
    written: Written,
}

impl Spread {
    fn begin(seed: u64) -> Spread {
        let text = format!("# Answers of crossbeam-epoch 0.9.21, recorded by `oracle record --seed {seed}`. Form: oracle/README.md.\n");
        Spread { text, tally: Tally::default(), have: BTreeSet::new(), written: Written::default() }
    }

    fn write(&mut self, name: &str, shows: &str, log: &[Record]) {
        self.tally.add(&write_schedule((name, shows), log, (32, 128), &mut self.written, &mut self.text));
    }

    fn work(&mut self, runs: impl Iterator<Item = Worked>) {
        for worked in runs.filter(|worked| worked.usual) {
            let log = worked.run.log.clone();
            self.have.extend(candidate(String::new(), log.clone()).first.into_keys());
            self.write(worked.name, worked.says, &log);
        }
    }

    fn choose(&mut self, made: &[Candidate]) {
        while let Some((at, records)) = best(made, &self.have) {
            let new: Vec<&Feature> = made[at].first.keys().filter(|feature| !self.have.contains(feature)).collect();
            let shows: Vec<String> = new.into_iter().map(describe).collect();
            self.write(&made[at].name, &shows.join("; "), &made[at].log[..records]);
            self.have.extend(made[at].first.keys());
        }
    }
}

/// The answers, their table, and how much was written. What has marked steps stands behind all that has none.
pub(crate) fn record(seed: u64) -> (String, String, Written) {
    let mut spread = Spread::begin(seed);
    spread.work(worked::all());
    spread.choose(&candidates(seed, 0));
    spread.work(worked::marked());
    spread.choose(&candidates(seed, MARKS));
    let Spread { text, tally, written, .. } = spread;
    let table = coverage_page(seed, written.schedules, text.len(), &tally);
    (text, table, written)
}

fn coverage_page(seed: u64, schedules: usize, bytes: usize, tally: &Tally) -> String {
    let mut page = String::from("# What the recorded answers show\n\n");
    page += &format!("Made by `oracle record --seed {seed}` together with `answers.txt` ({schedules} schedules, {bytes} bytes).\n\n");
    page += &tally.summary();
    page += "\nNot seen here, nor in any generated schedule (`oracle coverage`):\n\n";
    page += "- `pop tail` giving the old head, and so `pop tail move`: believed unreachable from a fresh start. Whoever has\n";
    page += "  linked the last node and not yet moved the tail is pinned, so the bag in that node cannot expire.\n";
    page += "- `advance head` giving null: whoever walks is registered and not yet deleted, so the list is not empty.\n";
    page += "- `advance store` with a lower value than the one that stands.\n\n";
    page + &tally.table()
}
