//! The runs that document 01 works by hand, [P] or not, each with what the document says and what came out; two of a double retirement;
//! and some with marked steps. A defer is done with the places left in the bag (document 02, No. 9).

use crate::epoch::Epoch;
use crate::judge::Answer;
use crate::place::Place;
use crate::marks::Marks;
use crate::record::*;
use crate::run::Run;
use crate::world::{self, Access, Item};
use core::fmt::Debug;

/// A run by name. `says` is what the document says.
pub(crate) struct Worked {
    pub(crate) name: &'static str,
    pub(crate) says: &'static str,
    pub(crate) run: Run,
    pub(crate) notes: Vec<String>,
    pub(crate) same: bool,
    /// Made with the schedule program's sizes, so that it can be recorded.
    pub(crate) usual: bool,
}

impl Worked {
    fn new(name: &'static str, says: &'static str) -> Worked {
        Worked::sized(name, says, 128)
    }
    fn sized(name: &'static str, says: &'static str, m: usize) -> Worked {
        Worked { name, says, run: Run::start(32, m), notes: Vec::new(), same: true, usual: m == 128 }
    }
    fn expect<T: PartialEq + Debug>(&mut self, what: &str, came: T, said: T) {
        let same = came == said;
        self.same &= same;
        let tail = if same { String::from("ok") } else { format!("DIFFERENT, the document says {said:?}") };
        self.notes.push(format!("{what}: {came:?} {tail}"));
    }
    /// Number of steps of a whole operation.
    fn count(&mut self, action: u8, slot: usize, token: u32) -> usize {
        self.run.operation(action, slot, token).len()
    }
    fn freed(&mut self, action: u8, slot: usize) -> Vec<(usize, Vec<u32>)> {
        let steps = self.run.operation(action, slot, 0);
        let freeing = steps.into_iter().enumerate().filter(|(_, step)| !step.freed.is_empty());
        freeing.map(|(at, step)| (at + 1, step.freed)).collect()
    }
    fn refused<const COUNT: usize>(&mut self, number: u8, records: [Record; COUNT]) {
        for record in records {
            let answer = self.run.play(record).answer;
            self.expect(&format!("{:?}", record.bytes()), answer, Answer::Refused(number));
        }
    }
    /// A token that is accepted, and done at once, with so many places left.
    fn retires(&mut self, slot: usize, token: u32, left: u64) {
        let answer = self.run.call(DEFER, slot, token).answer;
        self.expect(&format!("{slot} retires {token}"), answer, Answer::Done(left));
    }
    fn registered(mut self) -> Worked {
        self.run.register();
        self
    }
    /// Registered and pinned once: own word 1, global word 2.
    fn pinned(self) -> Worked {
        let mut worked = self.registered();
        worked.run.operation(PIN, 0, 0);
        worked
    }
}

const ALL: [fn() -> Worked; 24] = [
    whole_case,
    first_pins,
    seven_freed,
    without_repin,
    register_release,
    full_bag,
    pins_that_collect,
    nine_bags,
    two_nodes,
    stale_pin,
    node_item,
    slot_item,
    counts_inside,
    registered_anew,
    late_distance,
    bag_gone,
    same_index_again,
    nested_guards,
    refusals,
    double_retirement,
    double_without_a_node,
    full_table,
    full_counts,
    nobody_left,
];

/// Runs with marked steps (document 02, No. 2).
const MARKS: [fn() -> Worked; 4] = [marked_link, marked_elsewhere, marked_and_lost, marked_refusals];

pub(crate) fn all() -> impl Iterator<Item = Worked> {
    ALL.iter().map(|make| make())
}

pub(crate) fn marked() -> impl Iterator<Item = Worked> {
    MARKS.iter().map(|make| make())
}

fn whole_case() -> Worked {
    let mut w = Worked::new("schedule program, whole case", "more, more, more, done 0, refused 5");
    let mut bytes = vec![1, 0, 0, 0, 0, 0, 0, 0];
    bytes.extend([0; 32]);
    let lines: Vec<String> = read_all(&bytes).into_iter().map(|record| w.run.play(record).line()).collect();
    let said: Vec<String> = ["more", "more", "more", "done 0", "refused 5"].map(String::from).to_vec();
    w.expect("lines", lines, said);
    w
}

fn first_pins() -> Worked {
    let mut w = Worked::new(
        "sole participant, first pins",
        "first pin 9 steps, own word 1, global word 2; unpin 1 step; second pin 2 steps, word 3",
    )
    .registered();
    let steps = w.count(PIN, 0, 0);
    w.expect("steps of the first pin", steps, 9);
    w.expect("own word", world::own_word(0), 1);
    w.expect("global word", world::epoch(), 2);
    let steps = w.count(UNPIN, 0, 0);
    w.expect("steps of unpin", steps, 1);
    let steps = w.count(PIN, 0, 0);
    w.expect("steps of the second pin", steps, 2);
    w.expect("own word", world::own_word(0), 3);
    w
}

fn seven_freed() -> Worked {
    let mut w = Worked::new(
        "defer 7, flush, and how it is freed",
        "flush 11 steps, sealed with word 2; unpin, pin, flush 7 steps, global word 4; repin 3 steps, word 5; \
         flush 11 steps, 7 freed in the 9th, node 0 now held",
    )
    .pinned();
    w.retires(0, 7, 63);
    let first = w.run.operation(FLUSH, 0, 0);
    w.expect("steps of the first flush", first.len(), 11);
    w.expect("freed by it", first.iter().map(|step| step.freed.len()).sum(), 0);
    w.expect("sealed with word", world::sealed(1), 2);
    w.count(UNPIN, 0, 0);
    w.count(PIN, 0, 0);
    let steps = w.count(FLUSH, 0, 0);
    w.expect("steps of the second flush", steps, 7);
    w.expect("global word", world::epoch(), 4);
    let steps = w.count(REPIN, 0, 0);
    w.expect("steps of repin", steps, 3);
    w.expect("own word", world::own_word(0), 5);
    let last = w.run.operation(FLUSH, 0, 0);
    w.expect("steps of the last flush", last.len(), 11);
    w.expect("freed in the 9th", last[8].freed.clone(), vec![7]);
    w.expect("freed in all", last.iter().map(|step| step.freed.len()).sum(), 1);
    w.expect("held", w.run.judge.bag(0), vec![Item::Node(0)]);
    w
}

fn without_repin() -> Worked {
    let mut w = Worked::new("the same without the repin", "without that repin nothing is freed").pinned();
    w.run.call(DEFER, 0, 7);
    for action in [FLUSH, UNPIN, PIN, FLUSH] {
        w.run.operation(action, 0, 0);
    }
    let freed = w.freed(FLUSH, 0);
    w.expect("freed by the last flush", freed, vec![]);
    w
}

fn register_release() -> Worked {
    let mut w = Worked::new("register, release, pin", "release in 16 steps, an empty bag queued; a pin then gives 3").registered();
    let steps = w.count(RELEASE, 0, 0);
    w.expect("steps of release", steps, 16);
    w.expect("queued behind the sentinel (node 1 is 4)", world::node_next(0), 4);
    w.expect("length of its bag", world::node_bag(1).len(), 0);
    let refused = w.run.call(PIN, 0, 0).answer;
    w.expect("pin", refused, Answer::Refused(3));
    w
}

fn full_bag() -> Worked {
    let says = "64 finish at once; the 65th takes 5 steps and is alone in the bag; (document 02, No. 9) with 63 to 0 places left, and 63";
    let mut w = Worked::new("sixty-five defers", says).pinned();
    let answers: Vec<Answer> = (0..64).map(|token| w.run.call(DEFER, 0, token).answer).collect();
    w.expect("finished at once, with", answers, (0..64).rev().map(Answer::Done).collect());
    let steps = w.run.operation(DEFER, 0, 64);
    w.expect("steps of the 65th, and its answer", (steps.len(), steps[4].answer), (5, Answer::Done(63)));
    w.expect("bag", w.run.judge.bag(0), vec![Item::Token(64)]);
    w.expect("length of the queued bag", world::node_bag(1).len(), 64);
    for action in [REPIN, FLUSH, REPIN] {
        w.run.operation(action, 0, 0);
    }
    let freed = w.freed(FLUSH, 0);
    w.expect("freed in one step, in bag order", freed[0].1.clone(), (0..64).collect());
    w.expect("freed in the next pop", freed[1].1.clone(), vec![64]);
    w
}

fn pins_that_collect() -> Worked {
    let mut w = Worked::new("pins that collect", "pins 1 and 129 collect, 128 doesn't").registered();
    let mut collecting = Vec::new();
    for pin in 1..=130 {
        let steps = w.run.operation(PIN, 0, 0);
        let collects = steps.iter().any(|step| step.seen.is_some_and(|seen| seen.place == Place::AdvanceEpoch));
        if collects {
            collecting.push(pin);
        }
        w.run.operation(UNPIN, 0, 0);
    }
    w.expect("collecting pins of 130", collecting, vec![1, 129]);
    w
}

/// Own word 1 while the global word is 2: no flush advances, so all nine are sealed with 2.
fn nine_bags() -> Worked {
    let mut w = Worked::new("nine expired bags", "one flush frees eight").pinned();
    for token in 1..=9 {
        w.run.call(DEFER, 0, token);
        w.run.operation(FLUSH, 0, 0);
    }
    for action in [REPIN, FLUSH, REPIN] {
        w.run.operation(action, 0, 0);
    }
    let freed: Vec<u32> = w.freed(FLUSH, 0).into_iter().flat_map(|(_, tokens)| tokens).collect();
    w.expect("freed by one flush", freed, (1..=8).collect());
    w.expect("length of the bag left in the queue", world::node_bag(9).len(), 1);
    w
}

fn two_nodes() -> Worked {
    let mut w = Worked::sized("M 2", "pin, defer 7, flush, defer 8, flush gives 11", 2).pinned();
    w.run.call(DEFER, 0, 7);
    let steps = w.count(FLUSH, 0, 0);
    w.expect("steps of the first flush", steps, 11);
    w.run.call(DEFER, 0, 8);
    let refused = w.run.call(FLUSH, 0, 0).answer;
    w.expect("the second flush", refused, Answer::Refused(11));
    w
}

fn stale_pin() -> Worked {
    let mut w = Worked::new(
        "the stale pin",
        "A loads epoch 0, B advances to word 6, A stores word 1: no later try advances until A's word changes",
    );
    let (a, b) = (w.run.register(), w.run.register());
    w.run.call(PIN, a, 0);
    w.run.step(a);
    for action in [PIN, REPIN, FLUSH, REPIN, FLUSH] {
        w.run.operation(action, b, 0);
    }
    w.expect("global word before A's store", world::epoch(), 6);
    let stored = w.run.step(a).access.stored;
    w.expect("word A stores", stored, 1);
    w.run.finish(a);
    for action in [REPIN, FLUSH, UNPIN, PIN, FLUSH] {
        w.run.operation(action, b, 0);
    }
    w.run.operation(FLUSH, a, 0);
    let c = w.run.register();
    w.run.operation(PIN, c, 0);
    w.expect("global word after five tries of A, B and a third", world::epoch(), 6);
    w.run.operation(REPIN, a, 0);
    w.run.operation(FLUSH, b, 0);
    w.expect("global word after A's repin and a try of B", world::epoch(), 8);
    w
}

fn node_item() -> Worked {
    let mut w = Worked::new("defer_destroy reaches Local::defer: a node", "node items fill bag places like tokens").pinned();
    w.run.call(DEFER, 0, 7);
    for action in [FLUSH, REPIN, FLUSH, REPIN] {
        w.run.operation(action, 0, 0);
    }
    w.run.call(DEFER, 0, 8);
    w.run.operation(FLUSH, 0, 0);
    w.expect("popper's bag after the pop", w.run.judge.bag(0), vec![Item::Node(0)]);
    w.retires(0, 9, 62);
    w.expect("and with a token behind it", w.run.judge.bag(0), vec![Item::Node(0), Item::Token(9)]);
    w
}

fn slot_item() -> Worked {
    let mut w = Worked::new("defer_destroy reaches Local::defer: a slot", "slot items fill bag places like tokens");
    let (a, b) = (w.run.register(), w.run.register());
    w.run.operation(RELEASE, b, 0);
    w.run.operation(PIN, a, 0);
    w.expect("unlinker's bag after the walk", w.run.judge.bag(a), vec![Item::Slot(1)]);
    let taken = w.run.register();
    w.expect("slot 1 is not free yet, register takes", taken, 2);
    for _ in 0..3 {
        w.run.operation(REPIN, a, 0);
        w.run.operation(FLUSH, a, 0);
    }
    let taken = w.run.register();
    w.expect("after its item was freed, register takes", taken, 1);
    w
}

/// Where the private counts change. Document 01 leaves it open; the survey shows them.
fn counts_inside() -> Worked {
    let mut w = Worked::new(
        "counts in the middle of operations",
        "(not in the document) guards change in the call of pin and unpin; finalize: guards 0 at push move, handles 0 at final word",
    )
    .registered();
    w.run.call(PIN, 0, 0);
    w.expect("guards after the call of pin", world::guards(0), 1);
    w.run.finish(0);
    w.run.call(RELEASE, 0, 0);
    w.expect("handles after release while pinned", world::handles(0), 0);
    w.run.call(UNPIN, 0, 0);
    w.expect("guards after the call of unpin", world::guards(0), 0);
    let mut last = (world::guards(0), world::handles(0));
    let mut changes = Vec::new();
    while w.run.judge.running(0) {
        let seen = w.run.step(0).seen.expect("a step");
        let now = (world::guards(0), world::handles(0));
        if now != last {
            changes.push((seen.place, now.0, now.1));
        }
        last = now;
    }
    let said = vec![(Place::UnpinWord, 1, 1), (Place::PushMove, 0, 1), (Place::FinalWord, 0, 0)];
    w.expect("steps of the finalize that change guards, handles", changes, said);
    w
}

/// Participant a pins, and repins and flushes until the deleted slot b is freed; then b is registered again.
fn taken_again(w: &mut Worked, a: usize, b: usize) {
    w.run.operation(PIN, a, 0);
    for _ in 0..3 {
        w.run.operation(REPIN, a, 0);
        w.run.operation(FLUSH, a, 0);
    }
    let again = w.run.register();
    w.expect("slot taken again", again, b);
}

fn registered_anew() -> Worked {
    let mut w = Worked::new("a slot used again", "(not in the document) registering sets everything anew, the pin count too");
    let (a, b) = (w.run.register(), w.run.register());
    w.run.operation(PIN, b, 0);
    w.run.operation(UNPIN, b, 0);
    w.run.operation(RELEASE, b, 0);
    w.expect("pins of the deleted slot", world::pins(b), 2);
    taken_again(&mut w, a, b);
    w.expect("its pins, guards, handles", (world::pins(b), world::guards(b), world::handles(b)), (0, 0, 1));
    let steps = w.run.operation(PIN, b, 0);
    let collects = steps.iter().any(|step| step.seen.is_some_and(|seen| seen.place == Place::AdvanceEpoch));
    w.expect("its first pin collects", collects, true);
    w
}

/// A holds the loaded epoch 0 while B advances, repins and links a bag sealed with 2; A then meets B pinned elsewhere.
fn late_distance() -> Worked {
    let mut w = Worked::new("a late collector", "(not in the document) a seal of 2 judged by a late epoch of 0: distance -1");
    let (a, b) = (w.run.register(), w.run.register());
    w.run.call(PIN, a, 0);
    for _ in 0..3 {
        w.run.step(a);
    }
    w.run.operation(PIN, b, 0);
    w.run.operation(REPIN, b, 0);
    w.run.call(DEFER, b, 7);
    w.run.call(FLUSH, b, 0);
    for _ in 0..4 {
        w.run.step(b);
    }
    let steps = w.run.finish(a);
    let distance = steps.last().and_then(|step| step.seen).and_then(|seen| seen.distance);
    w.expect("distance at A's pop next", distance, Some(-1));
    w
}

/// B has loaded the queue's head; A pops behind it and frees the bag. B still judges that node, by its seal, and loses.
fn bag_gone() -> Worked {
    let mut w = Worked::new("a seal outlives its bag", "(not in the document) a late pop judges a node whose bag was freed").pinned();
    w.run.call(DEFER, 0, 7);
    for action in [FLUSH, REPIN, FLUSH, REPIN] {
        w.run.operation(action, 0, 0);
    }
    let b = w.run.register();
    w.run.call(PIN, b, 0);
    while w.run.judge.course(b).is_some_and(|course| course.place != Some(Place::PopNext)) {
        w.run.step(b);
    }
    let freed: Vec<u32> = w.freed(FLUSH, 0).into_iter().flat_map(|(_, tokens)| tokens).collect();
    w.expect("freed by A meanwhile", freed, vec![7]);
    let seen = w.run.step(b).seen.expect("a step");
    w.expect("B's pop next: outcome, distance, bag gone", (seen.outcome, seen.distance, seen.bag_gone), ("expired", Some(2), true));
    let lost = w.run.step(b).access.kind;
    w.expect("B's exchange (4 is failed)", lost, 4);
    w.run.finish(b);
    w
}

/// C has loaded the head, B; then B goes, its slot is freed, taken again and linked again. C's exchange notices nothing.
fn same_index_again() -> Worked {
    let mut w = Worked::new("register's exchange", "(not in the document) it compares indices: a slot that came back is not noticed");
    let (a, b) = (w.run.register(), w.run.register());
    w.run.call(REGISTER, 0, 0);
    let seen = w.run.step(2).access.read;
    w.expect("head that C loads (slot 1 is 4)", seen, 4);
    w.run.operation(RELEASE, b, 0);
    taken_again(&mut w, a, b);
    w.run.step(2);
    let last = w.run.step(2);
    w.expect("C's exchange (3 is done)", last.access.kind, 3);
    w.expect("C's answer", last.answer, Answer::Done(2));
    w
}

fn nested_guards() -> Worked {
    let mut w = Worked::new("operations without an access", "finish in their call; repin acts only at guard count 1").pinned();
    for (action, name) in [(PIN, "second pin"), (REPIN, "repin at guard count 2"), (UNPIN, "unpin of two"), (ACQUIRE, "acquire")] {
        let answer = w.run.call(action, 0, 0).answer;
        w.expect(name, answer, Answer::Done(0));
    }
    for (action, name) in [(RELEASE, "release of two"), (RELEASE, "last release while pinned")] {
        let answer = w.run.call(action, 0, 0).answer;
        w.expect(name, answer, Answer::Done(0));
    }
    let refused = w.run.call(PIN, 0, 0).answer;
    w.expect("pin without a handle", refused, Answer::Refused(7));
    let steps = w.count(UNPIN, 0, 0);
    w.expect("steps of the unpin that finalizes", steps, 10);
    w
}

/// Refusals that a schedule can show at N 32, M 128; 8, 11 and 16 have runs of their own.
fn refusals() -> Worked {
    let mut w = Worked::new("refusals", "3, 4, 5, 6, 7, 9, 10, 13 by the table, in its order");
    let large = Record::new(DEFER, 0, 2_147_483_648);
    w.refused(3, [Record::new(PIN, 0, 0), Record::new(STEP, 32, 0), large]);
    w.refused(13, [[10, 0, 0, 0, 0, 0, 0, 0], [REGISTER, 1, 0, 0, 0, 0, 0, 0], [PIN, 0, 0, 0, 1, 0, 0, 0]].map(|b| Record::read(&b)));
    w.run.call(REGISTER, 0, 0);
    w.refused(4, [PIN, FLUSH].map(|action| Record::new(action, 0, 0)));
    w.run.finish(0);
    w.refused(5, [Record::new(STEP, 0, 0)]);
    w.refused(6, [UNPIN, REPIN, FLUSH].map(|action| Record::new(action, 0, 0)));
    w.refused(6, [large]);
    w.run.operation(PIN, 0, 0);
    w.refused(9, [large]);
    w.run.operation(RELEASE, 0, 0);
    w.refused(7, [PIN, ACQUIRE, RELEASE].map(|action| Record::new(action, 0, 0)));
    w.run.call(UNPIN, 0, 0);
    w.refused(4, [UNPIN, PIN].map(|action| Record::new(action, 0, 0)));
    w.run.finish(0);
    w.refused(3, [STEP, UNPIN, PIN].map(|action| Record::new(action, 0, 0)));
    for _ in 0..31 {
        w.run.register();
    }
    w.refused(10, [Record::new(REGISTER, 0, 0)]);
    w
}

/// A token is refused in the bag that holds it, as long as it does, and nowhere else.
fn double_retirement() -> Worked {
    let mut w = Worked::new(
        "a double retirement",
        "(document 02, No. 6) a token that the own bag holds: 16, after 9 and before 11, nothing changed; in another bag or in the queue: accepted",
    );
    let (a, b, gone) = (w.run.register(), w.run.register(), w.run.register());
    w.run.operation(RELEASE, gone, 0);
    w.refused(6, [Record::new(DEFER, a, 7)]);
    w.run.operation(PIN, a, 0);
    w.run.operation(PIN, b, 0);
    w.retires(a, 7, 62);
    w.refused(16, [Record::new(DEFER, a, 7)]);
    w.refused(9, [Record::new(DEFER, a, 2_147_483_655)]);
    w.expect("bag after these", w.run.judge.bag(a), vec![Item::Slot(2), Item::Token(7)]);
    // The slot of that number, which its pin unlinked, is another item.
    w.retires(a, 2, 61);
    w.retires(b, 7, 63);
    w.run.operation(FLUSH, a, 0);
    w.retires(a, 7, 63);
    w.refused(16, [Record::new(DEFER, a, 7)]);
    double_in_a_full_bag(&mut w, a);
    node_of_that_number(&mut w, a, b);
    w
}

/// A full bag is not pushed for a token that it holds. Once another has it pushed, its tokens are in the queue.
fn double_in_a_full_bag(w: &mut Worked, a: usize) {
    for token in 100..163 {
        w.run.call(DEFER, a, token);
    }
    let room = w.run.judge.free_nodes();
    w.refused(16, [7, 100, 162].map(|token| Record::new(DEFER, a, token)));
    let after = (w.run.judge.bag(a).len(), w.run.judge.running(a), w.run.judge.free_nodes());
    w.expect("items held, running, free nodes", after, (64, false, room));
    let steps = w.count(DEFER, a, 163);
    w.expect("steps of the 65th", steps, 5);
    w.expect("bag", w.run.judge.bag(a), vec![Item::Token(163)]);
    w.refused(16, [Record::new(DEFER, a, 163)]);
    w.retires(a, 7, 62);
}

/// Nor does a node of that number count. What was refused is not freed: 7 was accepted four times.
fn node_of_that_number(w: &mut Worked, a: usize, b: usize) {
    for (action, slot) in [(FLUSH, b), (UNPIN, b), (REPIN, a), (FLUSH, a), (REPIN, a)] {
        w.run.operation(action, slot, 0);
    }
    let freed: Vec<u32> = w.freed(FLUSH, a).into_iter().flat_map(|(_, tokens)| tokens).collect();
    w.expect("tokens freed, and how often 7", (freed.len(), freed.iter().filter(|token| **token == 7).count()), (69, 4));
    w.expect("bag", w.run.judge.bag(a), (1..=4).map(Item::Node).collect());
    w.retires(a, 4, 59);
    w.refused(16, [Record::new(DEFER, a, 4)]);
}

fn double_without_a_node() -> Worked {
    let says = "(document 02, No. 6) a full bag, and no node is free: 16 for what it holds, 11 for another";
    let mut w = Worked::sized("a double retirement at M 2", says, 2).pinned();
    w.run.call(DEFER, 0, 7);
    w.run.operation(FLUSH, 0, 0);
    for token in 0..64 {
        w.run.call(DEFER, 0, token);
    }
    w.refused(16, [0, 63].map(|token| Record::new(DEFER, 0, token)));
    w.refused(11, [Record::new(DEFER, 0, 64)]);
    w
}

/// A stale pin keeps every bag in the queue until no node is left.
fn full_table() -> Worked {
    let mut w = Worked::new("a full table at M 128", "free minus set aside is below the need: 11").pinned();
    let mut flushes = 0;
    loop {
        w.run.call(DEFER, 0, flushes);
        let answer = w.run.call(FLUSH, 0, 0).answer;
        if answer != Answer::More {
            w.expect("the flush that was refused", (flushes + 1, answer), (128, Answer::Refused(11)));
            break;
        }
        w.run.finish(0);
        flushes += 1;
    }
    w.count(UNPIN, 0, 0);
    let refused = w.run.call(RELEASE, 0, 0).answer;
    w.expect("release, which would finalize", refused, Answer::Refused(11));
    let steps = w.count(PIN, 0, 0);
    w.expect("steps of a pin that does not collect", steps, 2);
    w
}

/// Not recorded: it takes 131,070 records.
fn full_counts() -> Worked {
    let mut w = Worked::new("full counts", "pin or acquire at 65,535 gives 8").pinned();
    w.usual = false;
    for (action, name) in [(PIN, "pin"), (ACQUIRE, "acquire")] {
        let mut answer = Answer::Done(0);
        let mut done = 0;
        while answer == Answer::Done(0) {
            answer = w.run.call(action, 0, 0).answer;
            done += 1;
        }
        w.expect(name, (done, answer), (65_535, Answer::Refused(8)));
    }
    w
}

/// With N 1: the only slot is deleted, nobody can unlink it, nobody can register.
fn nobody_left() -> Worked {
    let mut w = Worked::new("nobody left", "(a full table may stay full) N 1: register, release, then every call is refused for ever");
    w.run = Run::start(1, 128);
    w.usual = false;
    w.run.register();
    w.run.operation(RELEASE, 0, 0);
    w.refused(10, [Record::new(REGISTER, 0, 0)]);
    w.refused(3, [STEP, ACQUIRE, RELEASE, PIN, UNPIN, REPIN, DEFER, FLUSH].map(|action| Record::new(action, 0, 0)));
    w
}

/// The access of a link that fails for no reason: kind 4, list head, index 0, the value that stands there, nothing stored.
fn failed_on(read: u64) -> Access {
    Access { kind: 4, word: world::LIST_HEAD, index: 0, read, stored: 0 }
}

fn marked_link() -> Worked {
    let mut w = Worked::new(
        "a marked link",
        "(document 02, No. 2) register, step, step, marked step: more, then more, done 0; twice in a row for the second slot",
    );
    w.run.call(REGISTER, 0, 0);
    let marks = [false, false, true, false, false];
    let steps: Vec<_> = marks.iter().map(|mark| if *mark { w.run.marked_step(0) } else { w.run.step(0) }).collect();
    let lines: Vec<String> = steps.iter().map(|step| step.line()).collect();
    w.expect("lines", lines, ["more", "more", "more", "more", "done 0"].map(String::from).to_vec());
    w.expect("access of the marked step", steps[2].access, failed_on(0));
    w.expect("access of the last step, kind and value stored", (steps[4].access.kind, steps[4].access.stored), (3, 2));
    w.run.call(REGISTER, 0, 0);
    w.run.step(1);
    for _ in 0..2 {
        w.run.step(1);
        let failed = w.run.marked_step(1);
        w.expect("answer and access of a failure", (failed.answer, failed.access), (Answer::More, failed_on(2)));
        w.expect("list head and own next after it", (world::list_head(), world::entry_next(1)), (2, 2));
    }
    let steps = w.run.finish(1).len();
    w.expect("steps from there to the end", steps, 2);
    w
}

/// The life of a token and a release, every step of them marked: document 01's numbers.
fn marked_elsewhere() -> Worked {
    let mut w = Worked::new(
        "marks that have no effect",
        "(document 02, No. 2) at every other access: 9 steps; 11, 1, 2, 7, 3, and 11 with 7 freed in the 9th; 1 and 9 for unpin and release",
    )
    .registered();
    w.run.marks = Marks::every();
    let steps = w.count(PIN, 0, 0);
    w.expect("steps of the first pin", steps, 9);
    w.expect("own word, global word", (world::own_word(0), world::epoch()), (1, 2));
    w.run.call(DEFER, 0, 7);
    let steps = [FLUSH, UNPIN, PIN, FLUSH, REPIN].map(|action| w.count(action, 0, 0));
    w.expect("steps of flush, unpin, pin, flush, repin", steps, [11, 1, 2, 7, 3]);
    w.expect("own word, global word", (world::own_word(0), world::epoch()), (5, 4));
    let last = w.run.operation(FLUSH, 0, 0);
    w.expect("steps of the last flush, and what the 9th frees", (last.len(), last[8].freed.clone()), (11, vec![7]));
    let steps = [UNPIN, RELEASE].map(|action| w.count(action, 0, 0));
    w.expect("steps of unpin and release", steps, [1, 9]);
    w.expect("marked steps, and those that failed", (w.run.tally.marked, w.run.tally.spurious()), (54, 0));
    w
}

/// B links between A's load of the head and A's link: there the mark has no effect, the value differs.
fn marked_and_lost() -> Worked {
    let mut w = Worked::new("a marked link that is lost", "(document 02, No. 2) where the value differs, marked and unmarked agree");
    w.run.call(REGISTER, 0, 0);
    w.run.call(REGISTER, 0, 0);
    w.run.step(0);
    w.run.step(0);
    w.run.finish(1);
    let lost = w.run.marked_step(0);
    w.expect("access of A's link", lost.access, failed_on(4));
    w.expect("what came of it", lost.seen.map(|seen| seen.outcome), Some("lost"));
    w.run.step(0);
    w.expect("A's own next (slot 1 is 4)", world::entry_next(0), 4);
    let last = w.run.step(0).answer;
    w.expect("A's last step", last, Answer::Done(0));
    w
}

fn marked_refusals() -> Worked {
    let mut w = Worked::new("a marked step that is refused", "(document 02, No. 2) as one without a mark; 10 and above are no actions");
    w.refused(3, [0, 31, 32].map(|slot| Record::new(MARKED, slot, 0)));
    w.run.call(REGISTER, 0, 0);
    w.refused(13, [[10, 0, 0, 0, 0, 0, 0, 0], [MARKED, 0, 0, 0, 1, 0, 0, 0], [255, 0, 0, 0, 0, 0, 0, 0]].map(|b| Record::read(&b)));
    w.run.finish(0);
    w.refused(5, [Record::new(MARKED, 0, 0)]);
    w
}

/// The seven distances, through the crate's own `wrapping_sub`.
fn distances() -> bool {
    let word = |data: u64| unsafe { core::mem::transmute::<u64, Epoch>(data) };
    let cases: [(u64, u64, i64); 7] = [
        (6, 2, 2),
        (7, 2, 2),
        (0, 2, -1),
        (3, 3, 0),
        (0, u64::MAX - 1, 1),
        (1 << 63, 0, -(1 << 62)),
        ((1 << 63) - 1, 0, (1 << 62) - 1),
    ];
    println!("distances");
    let mut same = true;
    for (a, b, said) in cases {
        let came = word(a).wrapping_sub(word(b));
        same &= came == said;
        println!("  ({a}, {b}): {came} {}", if came == said { "ok" } else { "DIFFERENT" });
    }
    same
}

/// Prints every run; false if one came out differently.
pub(crate) fn worked() -> bool {
    let mut same = distances();
    for w in all().chain(marked()) {
        println!("{} ({} records)\n  document: {}", w.name, w.run.log.len(), w.says);
        w.notes.iter().for_each(|note| println!("  {note}"));
        println!("  {}", if w.same { "ok" } else { "DIFFERENT" });
        same &= w.same;
    }
    same
}
