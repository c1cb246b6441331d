//! Counts place by outcome over generated schedules of all profiles.

use crate::generate::{generate, Wish, PROFILES};
use crate::tally::Tally;

/// Schedules are kept short, so that many fresh starts are among them.
const SHORT: usize = 2500;

pub(crate) fn coverage(seed: u64, records: u64, marked: usize) {
    let mut all = Tally::default();
    let mut schedules = 0;
    for (profile, name) in PROFILES {
        let mut of_profile = Tally::default();
        let mut round = 0;
        while of_profile.records < records {
            let of_round = seed.wrapping_add(round).wrapping_mul(0x1000_0001);
            let run = generate(Wish { marked, ..Wish::new(of_round, profile, SHORT) });
            of_profile.add(&run.tally);
            round += 1;
        }
        schedules += round;
        println!("## {name}\n\n{round} schedules. {}", of_profile.summary());
        all.add(&of_profile);
    }
    println!("## all profiles\n\n{schedules} schedules. {}\n{}", all.summary(), all.table());
    println!("Never seen:\n\n{}", all.never().join("\n"));
}
