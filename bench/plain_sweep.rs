//! The drill as a plain Rust program that goes over the nodes once, to measure the proved one against. Nothing here is proved.
//!
//! `plain_sweep drill A S P N` reads a damage list and prints what `aea drill A S P N` prints. What peeling leaves is judged by
//! one pass that keeps at most one open word a strand, so its time grows with the lattice and with what is printed.

mod plain_archive;
mod plain_lists;

use plain_lists::{Prefix, read_list, report};
use std::io;

/// The strands on which an odd number of a word's nodes lie: a bit a strand, of which there are s + 2p at most.
#[derive(Clone, Copy, Default)]
struct Heads([u64; 3]);

impl Heads {
    fn has(&self, strand: usize) -> bool {
        self.0[strand / 64] >> (strand % 64) & 1 == 1
    }

    fn turn(&mut self, strand: usize) {
        self.0[strand / 64] ^= 1 << (strand % 64);
    }

    fn add(&mut self, other: Heads) {
        self.0.iter_mut().zip(other.0).for_each(|(x, y)| *x ^= y);
    }

    /// The first strand.
    fn first(&self) -> Option<usize> {
        (0..3).find(|k| self.0[*k] != 0).map(|k| 64 * k + self.0[k].trailing_zeros() as usize)
    }
}

/// A rising list of nodes whose codeword contains no block that is there, up to where the pass has come.
#[derive(Default)]
struct Word {
    nodes: Vec<u32>,
    heads: Heads,
}

/// The pass: the open words, each in the slot of a strand on which it alone has a head, and the closed ones.
struct Pass {
    slots: Vec<Option<Word>>,
    closed: Vec<Vec<u32>>,
    spare: Vec<u32>,
}

impl Pass {
    fn new(strands: usize) -> Pass {
        Pass { slots: (0..strands).map(|_| None).collect(), closed: Vec::new(), spare: Vec::new() }
    }

    /// Adds a word to another: the nodes that are in one of them.
    fn add(spare: &mut Vec<u32>, into: &mut Word, from: &Word) {
        spare.clear();
        let (mut rest, mut others) = (&into.nodes[..], &from.nodes[..]);
        while let (Some((x, ours)), Some((y, theirs))) = (rest.split_first(), others.split_first()) {
            if x < y {
                spare.push(*x);
                rest = ours;
            } else if y < x {
                spare.push(*y);
                others = theirs;
            } else {
                (rest, others) = (ours, theirs);
            }
        }
        spare.extend_from_slice(rest);
        spare.extend_from_slice(others);
        std::mem::swap(spare, &mut into.nodes);
        into.heads.add(from.heads);
    }

    /// Adds the word to each open one with a head on this strand.
    fn spread(&mut self, word: &Word, strand: usize) {
        for other in self.slots.iter_mut().flatten() {
            if other.heads.has(strand) {
                Pass::add(&mut self.spare, other, word);
            }
        }
    }

    /// Puts the word into the slot of the first strand on which it has a head; without a head it is closed.
    fn settle(&mut self, word: Word) {
        match word.heads.first() {
            Some(strand) => {
                self.spread(&word, strand);
                self.slots[strand] = Some(word);
            }
            None => self.closed.push(word.nodes),
        }
    }

    /// Begins a word with the datum of this node, which is on these strands.
    fn begin(&mut self, node: usize, strands: &[usize]) {
        let mut word = Word { nodes: vec![node as u32], heads: Heads::default() };
        for strand in strands {
            word.heads.turn(*strand);
        }
        for strand in strands {
            if let Some(other) = &self.slots[*strand] {
                Pass::add(&mut self.spare, &mut word, other);
            }
        }
        self.settle(word);
    }

    /// The word that is to go at a parity of the strand: that of its slot, or else the first with a head on it, added to the
    /// others before it goes.
    fn take(&mut self, strand: usize) -> Option<Word> {
        if let Some(word) = self.slots[strand].take() {
            return Some(word);
        }
        let with_head = |slot: &Option<Word>| slot.as_ref().is_some_and(|word| word.heads.has(strand));
        let place = self.slots.iter().position(with_head)?;
        let word = self.slots[place].take()?;
        self.spread(&word, strand);
        Some(word)
    }

    /// Ends a strand whose last parity is not there.
    fn end(&mut self, strand: usize) {
        if let Some(mut word) = self.take(strand) {
            word.heads.turn(strand);
            self.settle(word);
        }
    }
}

/// The words that are closed by a pass over all blocks, each with the blocks of its codeword among those that are not there.
fn words_of(prefix: &Prefix, there: &[bool]) -> Vec<Vec<u32>> {
    let mut pass = Pass::new(prefix.lattice.strands());
    for node in 1..=prefix.n {
        let mut strands = [0; 3];
        let strands = &mut strands[..prefix.lattice.alpha];
        for (k, strand) in strands.iter_mut().enumerate() {
            *strand = prefix.lattice.strand(node, k + 1);
        }
        if !there[prefix.number(node, 0)] {
            pass.begin(node, strands);
        }
        for (k, strand) in strands.iter().enumerate() {
            if there[prefix.number(node, k + 1)] {
                pass.take(*strand);
            } else if prefix.next(node, k + 1) == 0 {
                pass.end(*strand);
            }
        }
    }
    pass.closed
}

/// For each block 1 more than the place of the first word whose codeword contains it, 0 where there is none.
struct Marks<'a> {
    prefix: &'a Prefix,
    first: Vec<u32>,
    /// for a parity that has a word, the node of a later one of its strand, before which none is without a word
    skip: Vec<u32>,
    /// the node at which a stretch of a strand began, 0 where none is open
    starts: Vec<u32>,
}

impl Marks<'_> {
    /// The node of the first parity without a word on the strand, from this node on, after the last node where there is none.
    fn without(&mut self, mut node: usize, class: usize) -> usize {
        while node <= self.prefix.n {
            let number = self.prefix.number(node, class);
            if self.first[number] == 0 {
                break;
            }
            let next = self.skip[number] as usize;
            if next <= self.prefix.n {
                self.skip[number] = self.skip[self.prefix.number(next, class)].max(next as u32);
            }
            node = next;
        }
        node
    }

    /// Marks the parities of a strand from this node on and before that one.
    fn walk(&mut self, from: usize, before: usize, class: usize, label: u32) {
        let mut node = self.without(from, class);
        while node < before {
            let number = self.prefix.number(node, class);
            self.first[number] = label;
            self.skip[number] = (node + self.prefix.lattice.ahead(node, class)) as u32;
            node = self.without(node, class);
        }
    }

    fn add(&mut self, nodes: &[u32], label: u32) {
        for node in nodes {
            let datum = self.prefix.number(*node as usize, 0);
            if self.first[datum] == 0 {
                self.first[datum] = label;
            }
        }
        for class in 1..=self.prefix.lattice.alpha {
            self.add_class(nodes, class, label);
        }
    }

    /// Marks the parities of a class: those up to which an odd number of the nodes are on their strand.
    fn add_class(&mut self, nodes: &[u32], class: usize, label: u32) {
        for node in nodes {
            let node = *node as usize;
            let strand = self.prefix.lattice.strand(node, class);
            let start = std::mem::take(&mut self.starts[strand]) as usize;
            if start == 0 {
                self.starts[strand] = node as u32;
            } else {
                self.walk(start, node, class, label);
            }
        }
        for strand in 0..self.starts.len() {
            let start = std::mem::take(&mut self.starts[strand]) as usize;
            if start != 0 {
                self.walk(start, self.prefix.n + 1, class, label);
            }
        }
    }
}

fn drill(prefix: &Prefix) -> io::Result<i32> {
    let Some(known) = read_list(prefix)? else {
        return Ok(3);
    };
    let mut there = known.clone();
    prefix.peel(&mut there);
    let words = words_of(prefix, &there);
    let (blocks, strands) = (prefix.blocks(), prefix.lattice.strands());
    let mut marks = Marks { prefix, first: vec![0; blocks], skip: vec![0; blocks], starts: vec![0; strands] };
    for (k, nodes) in words.iter().enumerate() {
        marks.add(nodes, k as u32 + 1);
    }
    let first = marks.first;
    let nodes_of = |block: usize| (first[block] as usize).checked_sub(1).map(|k| &words[k][..]);
    report(prefix, &known, &there, (0..blocks).filter(|block| !there[*block]).map(nodes_of))
}

fn main() -> io::Result<()> {
    let words: Vec<String> = std::env::args().skip(1).collect();
    let number = |k: usize| words[k].parse::<usize>().unwrap();
    let lattice = plain_archive::Lattice { alpha: number(1), s: number(2), p: number(3) };
    std::process::exit(drill(&Prefix { lattice, n: number(4) })?)
}
