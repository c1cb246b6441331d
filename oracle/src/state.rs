//! The state in cells, as the recorded answers number them, and in words for a reader.

use crate::arena::{ARENA, NODES, SLOTS};
use crate::judge::Judge;
use crate::world::{self, Item};

const SLOT_CELLS: usize = 16;
const NODE_CELLS: usize = 4112;
const BLOCK: usize = 128;
const ITEMS: usize = 8;
const LENGTH_OF_SLOT: usize = 6;
const LENGTH_OF_NODE: usize = 3;
const CELLS: usize = NODE_CELLS + NODES * BLOCK;

/// The cells after the last record.
pub(crate) struct Book {
    cells: Vec<u64>,
}

impl Book {
    /// The cells of a fresh start: node 0 is the sentinel, all else is 0.
    pub(crate) fn fresh() -> Book {
        let mut cells = vec![0; CELLS];
        cells[2] = 2;
        cells[3] = 2;
        cells[NODE_CELLS] = 1;
        Book { cells }
    }

    /// Brings the cells up to date and gives those that changed.
    pub(crate) fn changes(&mut self, judge: &Judge) -> Vec<(usize, u64)> {
        let mut changed = Vec::new();
        let globals = [world::epoch(), world::list_head(), world::queue_head(), world::queue_tail()];
        for (cell, value) in globals.into_iter().enumerate() {
            self.put(cell, value, &mut changed);
        }
        for slot in 0..judge.n {
            let base = SLOT_CELLS + slot * BLOCK;
            let block = ARENA.slot_taken(slot).then(|| slot_cells(judge, slot));
            self.put_block(base, LENGTH_OF_SLOT, block, &mut changed);
        }
        for node in 0..judge.m {
            let base = NODE_CELLS + node * BLOCK;
            let block = ARENA.node_taken(node).then(|| node_cells(judge, node));
            self.put_block(base, LENGTH_OF_NODE, block, &mut changed);
        }
        changed
    }

    /// How many words there are to compare: four global ones, the free bits, and the words, counts and items of what is taken.
    pub(crate) fn words(&self, judge: &Judge) -> usize {
        let taken = |base: usize, length: usize| if self.cells[base] == 0 { 0 } else { length + self.cells[base + length] as usize };
        let slots = (0..judge.n).map(|slot| 1 + taken(SLOT_CELLS + slot * BLOCK, LENGTH_OF_SLOT));
        let nodes = (0..judge.m).map(|node| 1 + taken(NODE_CELLS + node * BLOCK, LENGTH_OF_NODE));
        4 + slots.chain(nodes).sum::<usize>()
    }

    fn put(&mut self, cell: usize, value: u64, changed: &mut Vec<(usize, u64)>) {
        if self.cells[cell] != value {
            self.cells[cell] = value;
            changed.push((cell, value));
        }
    }

    fn put_block(&mut self, base: usize, length: usize, block: Option<Cells>, changed: &mut Vec<(usize, u64)>) {
        let Some((head, items)) = block else {
            if self.cells[base] != 0 {
                changed.push((base, 0));
                self.cells[base..base + BLOCK].fill(0);
            }
            return;
        };
        let before = self.cells[base + length] as usize;
        for (cell, value) in head.into_iter().enumerate() {
            self.put(base + cell, value, changed);
        }
        for k in 0..before.max(items.len()) {
            let code = items.get(k).map_or(0, |item| item.code());
            self.put(base + ITEMS + k, code, changed);
        }
    }
}

/// The cells before the items, and the items.
type Cells = (Vec<u64>, Vec<Item>);

fn slot_cells(judge: &Judge, slot: usize) -> Cells {
    let items = judge.bag(slot);
    let counts = [world::guards(slot), world::handles(slot), world::pins(slot), items.len() as u64];
    let mut head = vec![1, world::own_word(slot), world::entry_next(slot)];
    head.extend(counts);
    (head, items)
}

fn node_cells(judge: &Judge, node: usize) -> Cells {
    let items = if judge.holds[node] { world::node_bag(node).items() } else { Vec::new() };
    let seal = if judge.seals[node] { world::sealed(node) } else { 0 };
    (vec![1, world::node_next(node), seal, items.len() as u64], items)
}

/// The state in words.
pub(crate) fn describe(judge: &Judge) -> String {
    let mut text = format!(
        "    epoch {} list head {} queue head {} queue tail {} free nodes less set aside {}\n",
        world::epoch(),
        link(world::list_head()),
        link(world::queue_head()),
        link(world::queue_tail()),
        judge.free_nodes()
    );
    for slot in (0..SLOTS).filter(|slot| ARENA.slot_taken(*slot)) {
        let place = judge.course(slot).and_then(|course| course.place).map_or("rest", |place| place.name());
        text += &format!("    slot {slot}: word {} next {}", world::own_word(slot), link(world::entry_next(slot)));
        text += &format!(" guards {} handles {}", world::guards(slot), world::handles(slot));
        text += &format!(" pins {} bag {} place {place}\n", world::pins(slot), list(&judge.bag(slot)));
    }
    for node in (0..NODES).filter(|node| ARENA.node_taken(*node)) {
        let (head, items) = node_cells(judge, node);
        text += &format!("    node {node}: next {} sealed {} bag {}\n", link(head[1]), head[2], list(&items));
    }
    text
}

fn link(code: u64) -> String {
    let mark = if code & 1 == 1 { "'" } else { "" };
    match code / 2 {
        0 => format!("null{mark}"),
        place => format!("{}{mark}", place - 1),
    }
}

fn list(items: &[Item]) -> String {
    let word = |item: &Item| match item {
        Item::Token(v) => format!("t{v}"),
        Item::Node(v) => format!("node{v}"),
        Item::Slot(v) => format!("slot{v}"),
    };
    let words: Vec<String> = items.iter().map(word).collect();
    format!("[{}]", words.join(" "))
}
