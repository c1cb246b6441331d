//! The Rust as judge: crossbeam-epoch 0.9.21, its own files unmodified, played by the schedules of document 01.

extern crate alloc;

/// `atomic.rs` wraps one constructor in it.
macro_rules! const_fn {
    (const_if: #[cfg($($condition:tt)+)]; $($function:tt)*) => { $($function)* };
}

mod agree;
mod alone;
mod arena;
mod coroutine;
mod coverage;
mod generate;
mod judge;
mod layout;
mod marks;
mod noise;
mod place;
mod play;
#[allow(dead_code)]
mod primitive;
mod record;
mod run;
mod seen;
mod shrink;
mod single;
mod spread;
mod state;
mod steer;
mod tally;
mod worked;
mod world;

// The crate's own files, where they lie.
include!(concat!(env!("OUT_DIR"), "/crossbeam_epoch.rs"));

// The names that they look for at the root of their crate.
use crate::atomic::{Atomic, Owned, Shared};
use crate::guard::{unprotected, Guard};

use std::io::{Read, Write};

/// Words of the command line, and the options with their values.
struct Arguments {
    words: Vec<String>,
}

impl Arguments {
    fn flag(&mut self, name: &str) -> bool {
        let found = self.words.iter().position(|word| word == name);
        found.map(|at| self.words.remove(at)).is_some()
    }
    fn text(&mut self, name: &str) -> Option<String> {
        let at = self.words.iter().position(|word| word == name)?;
        if at + 1 == self.words.len() {
            fail(&format!("{name} wants a value"));
        }
        self.words.remove(at);
        Some(self.words.remove(at))
    }
    fn number(&mut self, name: &str, default: u64) -> u64 {
        match self.text(name).map(|text| text.parse()) {
            None => default,
            Some(Ok(number)) => number,
            Some(Err(_)) => fail(&format!("{name} wants a number")),
        }
    }
    fn word(&mut self) -> Option<String> {
        (!self.words.is_empty()).then(|| self.words.remove(0))
    }
}

fn fail(message: &str) -> ! {
    eprintln!("{message}");
    std::process::exit(2)
}

fn main() {
    let mut arguments = Arguments { words: std::env::args().skip(1).collect() };
    match arguments.word().as_deref() {
        Some("play") => play_command(arguments),
        Some("worked") => std::process::exit(i32::from(!worked::worked())),
        Some("generate") => generate_command(arguments),
        Some("coverage") => {
            let (seed, records) = (arguments.number("--seed", 1), arguments.number("--records", 100_000));
            coverage::coverage(seed, records, marked(&mut arguments));
        }
        Some("agree") => {
            let agrees = agree::agree(arguments.number("--seed", 1), arguments.number("--records", 100_000));
            std::process::exit(i32::from(!agrees))
        }
        Some("alone") => alone_command(arguments),
        Some("stream") => stream_command(arguments),
        Some("noise") => noise_command(arguments),
        Some("record") => record_command(arguments),
        _ => fail("usage: oracle play|worked|generate|stream|noise|record|coverage|agree|alone, see README.md"),
    }
}

fn play_command(mut arguments: Arguments) {
    let switches = play::Switches {
        whole: arguments.flag("--whole"),
        accesses: arguments.flag("--accesses"),
        state: arguments.flag("--state"),
        recorded: arguments.flag("--recorded"),
    };
    let (n, m) = (arguments.number("--n", 32), arguments.number("--m", 128));
    let bytes = match arguments.word() {
        Some(file) => std::fs::read(&file).unwrap_or_else(|error| fail(&format!("{file}: {error}"))),
        None => {
            let mut bytes = Vec::new();
            std::io::stdin().read_to_end(&mut bytes).unwrap_or_else(|error| fail(&error.to_string()));
            bytes
        }
    };
    play::play(&bytes, n as usize, m as usize, switches);
}

/// What is wanted of generated schedules; the profile is given apart.
fn wish(arguments: &mut Arguments, profile: generate::Profile) -> generate::Wish {
    generate::Wish {
        seed: arguments.number("--seed", 1),
        profile,
        records: arguments.number("--records", 1000) as usize,
        n: arguments.number("--n", 32) as usize,
        m: arguments.number("--m", 128) as usize,
        wild: arguments.number("--wild", 0) as usize,
        marked: marked(arguments),
    }
}

/// Of 1000, since a registering whose every link is marked does not end.
fn marked(arguments: &mut Arguments) -> usize {
    match arguments.number("--marked", 0) {
        few @ 0..=999 => few as usize,
        _ => fail("--marked wants a number below 1000"),
    }
}

fn profile(arguments: &mut Arguments) -> Option<generate::Profile> {
    let name = arguments.text("--profile")?;
    Some(generate::Profile::named(&name).unwrap_or_else(|| fail("no such profile")))
}

fn generate_command(mut arguments: Arguments) {
    let profile = profile(&mut arguments).unwrap_or_else(|| fail("--profile is wanted"));
    let run = generate::generate(wish(&mut arguments, profile));
    let bytes: Vec<u8> = run.log.iter().flat_map(|record| record.bytes()).collect();
    std::io::stdout().write_all(&bytes).unwrap_or_else(|error| fail(&error.to_string()));
}

/// Many generated schedules with their answers, in the form of the recorded ones, for a large comparison.
fn stream_command(mut arguments: Arguments) {
    let schedules = arguments.number("--schedules", 100);
    let only = profile(&mut arguments);
    let first = wish(&mut arguments, generate::Profile::Whole);
    let mut out = std::io::BufWriter::new(std::io::stdout().lock());
    let mut written = spread::Written::default();
    let mut tally = tally::Tally::default();
    for number in 0..schedules {
        let (turn, name) = generate::PROFILES[(number % 7) as usize];
        let wish = generate::Wish { seed: first.seed + number, profile: only.unwrap_or(turn), ..first };
        let mut text = String::new();
        let name = only.map_or(name, |profile| generate::PROFILES[profile as usize].1);
        let marks = if wish.marked == 0 { String::new() } else { format!(" marked {}", wish.marked) };
        let shows = format!("N {} M {} wild {}{marks}", wish.n, wish.m, wish.wild);
        let run = generate::generate(wish);
        let name = format!("{name}, seed {}", wish.seed);
        tally.add(&spread::write_schedule((&name, &shows), &run.log, (wish.n, wish.m), &mut written, &mut text));
        out.write_all(text.as_bytes()).unwrap_or_else(|error| fail(&error.to_string()));
    }
    eprint!("{written}");
    if first.marked > 0 {
        eprintln!("{} marked steps, {} failed for no reason", tally.marked, tally.spurious());
    }
}

/// Bytes for the schedule program that nobody asked for: records of which half are random bytes, and half have one thing wrong or nothing.
fn noise_command(mut arguments: Arguments) {
    let mut rng = generate::Rng(arguments.number("--seed", 1));
    let records = arguments.number("--records", 1000);
    let bytes: Vec<u8> = (0..records).flat_map(|_| noise::record(&mut rng)).collect();
    std::io::stdout().write_all(&bytes).unwrap_or_else(|error| fail(&error.to_string()));
}

fn alone_command(mut arguments: Arguments) {
    let asked = alone::Asked {
        seed: arguments.number("--seed", 1),
        states: arguments.number("--states", 4_000_000),
        n: arguments.number("--n", 32) as usize,
        m: arguments.number("--m", 128) as usize,
        worst: arguments.text("--worst"),
    };
    if !(1..=32).contains(&asked.n) || !(2..=128).contains(&asked.m) {
        fail("--n wants 1 to 32, --m 2 to 128");
    }
    std::process::exit(i32::from(!alone::alone(&asked)))
}

fn record_command(mut arguments: Arguments) {
    let seed = arguments.number("--seed", 1);
    let file = arguments.text("--out").unwrap_or_else(|| fail("--out is wanted"));
    let (answers, table, written) = spread::record(seed);
    eprint!("{written}");
    std::fs::write(&file, &answers).unwrap_or_else(|error| fail(&format!("{file}: {error}")));
    match arguments.text("--table") {
        Some(file) => std::fs::write(&file, &table).unwrap_or_else(|error| fail(&format!("{file}: {error}"))),
        None => println!("{table}"),
    }
}
