//! The losses of one and of two sites as a plain Rust program, to measure the proved one against. Nothing here is proved.
//!
//! `plain_sites A S P N SITES` prints a line for each site and then for each pair of sites, as `aea sites` does, with the number of
//! blocks that single equations do not bring back. Where that is 0, so is the number of lost blocks; where it is not, this program
//! looks no further, and names no block. No ledger is read.
//!
//! The blocks of a site are marked row by row; then they are gone over once, and a worklist is kept only where that leaves some.

mod plain_archive;

use plain_archive::Lattice;
use std::io::{BufWriter, Write, stdout};

/// A lattice of so many nodes, with a bit for each block: whether it is missing.
struct Missing {
    lattice: Lattice,
    nodes: usize,
    words: Vec<u64>,
}

impl Missing {
    fn blocks(&self) -> usize {
        self.nodes * self.lattice.classes()
    }

    fn has(&self, number: usize) -> bool {
        self.words[number / 64] >> (number % 64) & 1 == 1
    }

    fn turn(&mut self, number: usize) {
        self.words[number / 64] ^= 1 << (number % 64);
    }

    /// The missing block of the equation of this node and class, if it is the only one.
    fn single(&self, node: usize, class: usize) -> Option<usize> {
        let (datum, output) = (self.lattice.number(node, 0), self.lattice.number(node, class));
        let before = node.checked_sub(self.lattice.back(node, class)).filter(|it| *it > 0);
        let input = before.map(|it| self.lattice.number(it, class)).filter(|it| self.has(*it));
        match (self.has(datum), self.has(output), input) {
            (true, false, None) => Some(datum),
            (false, true, None) => Some(output),
            (false, false, it) => it,
            _ => None,
        }
    }

    fn around(&self, number: usize) -> impl Iterator<Item = (usize, usize)> + use<> {
        self.lattice.around(number, self.nodes)
    }

    /// Adds the blocks of a site, counted from 0, over so many. Gives their numbers to the list.
    fn add_site(&mut self, sites: usize, site: usize, list: &mut Vec<usize>) {
        let (blocks, mut row, mut column) = (self.blocks(), 0, site);
        while row < blocks {
            let number = row + column;
            if number < blocks {
                self.turn(number);
                list.push(number);
            }
            row += sites;
            column = if column == 0 { sites - 1 } else { column - 1 };
        }
    }

    /// Takes the listed blocks away that single equations bring back one after the other. Gives the number of those that are left.
    fn peel(&mut self, list: &[usize]) -> usize {
        let mut left = list.len();
        for &number in list {
            if self.around(number).any(|(node, class)| self.single(node, class) == Some(number)) {
                self.turn(number);
                left -= 1;
            }
        }
        if left == 0 {
            return 0;
        }
        let mut waiting: Vec<_> = list.iter().filter(|it| self.has(**it)).flat_map(|it| self.around(*it)).collect();
        while let Some((node, class)) = waiting.pop() {
            if let Some(number) = self.single(node, class) {
                self.turn(number);
                left -= 1;
                waiting.extend(self.around(number));
            }
        }
        left
    }
}

fn main() {
    let words: Vec<usize> = std::env::args().skip(1).map(|it| it.parse().unwrap()).collect();
    let [alpha, s, p, nodes, sites] = words[..] else { panic!("plain_sites A S P N SITES") };
    let lattice = Lattice { alpha, s, p };
    let mut missing = Missing { lattice, nodes, words: vec![0; (nodes * lattice.classes()).div_ceil(64)] };
    let mut lines = BufWriter::new(stdout());
    let mut list = Vec::new();
    let ones = (0..sites).map(|it| (it, it));
    let pairs = (0..sites).flat_map(|a| (a + 1..sites).map(move |b| (a, b)));
    for (a, b) in ones.chain(pairs) {
        list.clear();
        missing.add_site(sites, a, &mut list);
        if a == b {
            write!(lines, "site {}", a + 1).unwrap();
        } else {
            missing.add_site(sites, b, &mut list);
            write!(lines, "pair {} {}", a + 1, b + 1).unwrap();
        }
        let left = missing.peel(&list);
        writeln!(lines, " lost {left}").unwrap();
        if left > 0 {
            missing.words.fill(0);
        }
    }
}
