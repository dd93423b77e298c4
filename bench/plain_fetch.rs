//! A plain program that does over files what `aea fetch` does with an object of nodes of its own, with a SHA-256 of its own.
//!
//! `plain_fetch FOLDER FIRST COUNT LENGTH` reads the ledger in the folder, with the shape of the archive and the digests of its
//! blocks, and hashes it. It reads the cell of the datum of each of COUNT nodes from FIRST on, and compares the SHA-256 of head and
//! payload with the ledger's digest. From each damaged one it goes over the equations: each block of them that was not read yet is
//! read and judged, and a damaged one is gone around in turn. Which of the damaged blocks the others give it finds out by single
//! equations, one after the other, and by elimination of what these leave; with each block it keeps the equations that add up to it
//! and to intact blocks alone. Each damaged datum is computed by these once, hashed and compared. Then each datum is read or computed
//! once more, and the payloads are written, cut to LENGTH bytes, in pieces of 65,536 bytes. It writes nothing to the folder. Its
//! status is 3 where a datum is not given, which it names, and 8 where a payload has another digest. It knows one segment of a lattice
//! alone, and no fence.

mod plain_archive;
mod plain_ledger;
mod plain_sha256;

use plain_archive::{Lattice, site_file};
use plain_ledger::{Ledger, if_there};
use plain_sha256::digest;
use std::collections::HashMap;
use std::fs::File;
use std::io::{Result, Write, stdout};
use std::os::fd::AsFd;
use std::process::exit;

/// The bytes of a piece that is written.
const PIECE: usize = 65536;

/// What is known of a block.
#[derive(Clone, Copy, PartialEq)]
enum Found {
    Unread,
    Intact,
    Damaged,
}

/// Equations, each by the number of its parity, in order; of two such sets those that are in one alone.
fn added(first: &[usize], second: &[usize]) -> Vec<usize> {
    let mut sum = Vec::with_capacity(first.len() + second.len());
    let (mut a, mut b) = (first.iter().peekable(), second.iter().peekable());
    loop {
        match (a.peek(), b.peek()) {
            (Some(x), Some(y)) if x == y => {
                a.next();
                b.next();
            }
            (Some(x), Some(y)) if x > y => sum.extend(b.next()),
            (Some(_), _) => sum.extend(a.next()),
            (None, Some(_)) => sum.extend(b.next()),
            (None, None) => return sum,
        }
    }
}

/// A row of an elimination: the unknown blocks that are left in a sum of equations, a bit each, and these equations.
struct Row {
    bits: Vec<u64>,
    equations: Vec<usize>,
}

impl Row {
    fn has(&self, k: usize) -> bool {
        self.bits[k / 64] >> (k % 64) & 1 == 1
    }

    fn add(&mut self, other: &Row) {
        self.bits.iter_mut().zip(&other.bits).for_each(|(x, y)| *x ^= y);
        self.equations = added(&self.equations, &other.equations);
    }
}

/// The equations that add up to each of the damaged blocks that are given.
type Sums = HashMap<usize, Vec<usize>>;

struct Archive {
    ledger: Ledger,
    files: Vec<Option<File>>,
    found: Vec<Found>,
    cell: Vec<u8>,
    sum: Vec<u8>,
}

impl Archive {
    fn open(folder: &str) -> Result<Archive> {
        let ledger = Ledger::open(&format!("{folder}/ledger.aea"))?;
        let mut files = Vec::new();
        for site in 0..ledger.sites {
            files.push(if_there(File::open(site_file(folder, site)))?);
        }
        let (blocks, size) = (ledger.blocks(), ledger.size());
        let sum = vec![0; 16 + ledger.block];
        Ok(Archive { ledger, files, found: vec![Found::Unread; blocks], cell: vec![0; size], sum })
    }

    fn lattice(&self) -> Lattice {
        self.ledger.lattice
    }

    /// Reads the cell of a block that was not read yet, and whether it is damaged.
    fn is_new_damage(&mut self, number: usize) -> Result<bool> {
        if self.found[number] != Found::Unread {
            return Ok(false);
        }
        let intact = self.ledger.read(&self.files, number, &mut self.cell)?;
        self.found[number] = if intact { Found::Intact } else { Found::Damaged };
        Ok(!intact)
    }

    /// The damaged blocks that equations join with these damaged ones, which are among them, in number order.
    fn search(&mut self, mut damaged: Vec<usize>) -> Result<Vec<usize>> {
        let (lattice, mut at) = (self.lattice(), 0);
        while at < damaged.len() {
            for (node, class) in lattice.around(damaged[at], self.ledger.nodes()) {
                let (blocks, count) = lattice.equation(node, class);
                for number in &blocks[..count] {
                    if self.is_new_damage(*number)? {
                        damaged.push(*number);
                    }
                }
            }
            at += 1;
        }
        damaged.sort_unstable();
        Ok(damaged)
    }

    /// The blocks of an equation that are damaged.
    fn damaged_in(&self, node: usize, class: usize) -> impl Iterator<Item = usize> + '_ {
        let (blocks, count) = self.lattice().equation(node, class);
        IntoIterator::into_iter(blocks).take(count).filter(move |number| self.found[*number] == Found::Damaged)
    }

    /// What single equations give, one after the other.
    fn peel(&self, damaged: &[usize]) -> Sums {
        let (lattice, nodes) = (self.lattice(), self.ledger.nodes());
        let mut given = Sums::new();
        let mut waiting: Vec<_> = damaged.iter().flat_map(|number| lattice.around(*number, nodes)).collect();
        while let Some((node, class)) = waiting.pop() {
            let mut left = self.damaged_in(node, class).filter(|number| !given.contains_key(number));
            let (Some(number), None) = (left.next(), left.next()) else {
                continue;
            };
            drop(left);
            let equations = self.with_given(node, class, &given);
            given.insert(number, equations);
            waiting.extend(lattice.around(number, nodes));
        }
        given
    }

    /// An equation, and those of the damaged blocks in it that are given.
    fn with_given(&self, node: usize, class: usize, given: &Sums) -> Vec<usize> {
        let own = vec![self.lattice().number(node, class)];
        self.damaged_in(node, class).filter_map(|number| given.get(&number)).fold(own, |sum, more| added(&sum, more))
    }

    /// What elimination gives of the blocks that are left.
    fn eliminate(&self, left: &[usize], given: &mut Sums) {
        let (lattice, nodes) = (self.lattice(), self.ledger.nodes());
        let mut parities: Vec<_> = left.iter().flat_map(|number| lattice.around(*number, nodes)).collect();
        parities.sort_unstable();
        parities.dedup();
        let mut rows = Vec::new();
        for (node, class) in parities {
            let mut bits = vec![0; left.len().div_ceil(64)];
            for k in self.damaged_in(node, class).filter_map(|number| left.binary_search(&number).ok()) {
                bits[k / 64] |= 1 << (k % 64);
            }
            rows.push(Row { bits, equations: self.with_given(node, class, given) });
        }
        let mut used = 0;
        for k in 0..left.len() {
            let Some(found) = (used..rows.len()).find(|r| rows[*r].has(k)) else {
                continue;
            };
            rows.swap(used, found);
            let (before, rest) = rows.split_at_mut(used);
            let (pivot, behind) = rest.split_first_mut().unwrap();
            before.iter_mut().chain(behind).filter(|row| row.has(k)).for_each(|row| row.add(pivot));
            used += 1;
        }
        for row in &rows[..used] {
            let mut has = (0..left.len()).filter(|k| row.has(*k));
            if let (Some(k), None) = (has.next(), has.next()) {
                given.insert(left[k], row.equations.clone());
            }
        }
    }

    /// The equations of the damaged blocks that are given.
    fn plan(&self, damaged: &[usize]) -> Sums {
        let mut given = self.peel(damaged);
        let left: Vec<usize> = damaged.iter().copied().filter(|number| !given.contains_key(number)).collect();
        if !left.is_empty() {
            self.eliminate(&left, &mut given);
        }
        given
    }

    /// Computes a damaged block from the intact ones of its equations, and whether it has its digest.
    fn compute(&mut self, number: usize, equations: &[usize]) -> Result<bool> {
        let lattice = self.lattice();
        let mut summands = Vec::new();
        for parity in equations {
            let (node, class) = lattice.node_and_class(*parity);
            let (blocks, count) = lattice.equation(node, class);
            summands.extend_from_slice(&blocks[..count]);
        }
        summands.sort_unstable();
        self.sum[..16].copy_from_slice(&self.ledger.head(number));
        self.sum[16..].fill(0);
        let mut at = 0;
        while at < summands.len() {
            let other = summands[at];
            let many = summands[at..].iter().take_while(|it| **it == other).count();
            at += many;
            if many % 2 == 0 || other == number {
                continue;
            }
            if !self.ledger.read(&self.files, other, &mut self.cell)? {
                return Ok(false);
            }
            self.sum[16..].iter_mut().zip(&self.cell[16..]).for_each(|(byte, more)| *byte ^= more);
        }
        Ok(digest(&self.sum) == self.ledger.recorded(number))
    }

    /// The status; the payloads are written where it is 0.
    fn fetch(&mut self, first: usize, count: usize, length: usize) -> Result<i32> {
        let data: Vec<usize> = (first..first + count).map(|node| self.lattice().number(node, 0)).collect();
        let mut damaged = Vec::new();
        for number in &data {
            if self.is_new_damage(*number)? {
                damaged.push(*number);
            }
        }
        let around = self.search(damaged.clone())?;
        let given = self.plan(&around);
        if let Some(lost) = damaged.iter().find(|number| !given.contains_key(number)) {
            eprintln!("undetermined {}", self.lattice().text(*lost));
            return Ok(3);
        }
        for number in &damaged {
            if !self.compute(*number, &given[number])? {
                return Ok(8);
            }
        }
        // without the buffer of lines that standard output has
        let mut out = File::from(stdout().as_fd().try_clone_to_owned()?);
        let mut piece = Vec::with_capacity(PIECE + self.ledger.block);
        let mut left = length;
        for number in &data {
            let many = left.min(self.ledger.block);
            left -= many;
            match given.get(number) {
                None if self.ledger.read(&self.files, *number, &mut self.cell)? => piece.extend_from_slice(&self.cell[16..16 + many]),
                Some(equations) if self.compute(*number, equations)? => piece.extend_from_slice(&self.sum[16..16 + many]),
                _ => return Ok(8),
            }
            if piece.len() >= PIECE {
                out.write_all(&piece[..PIECE])?;
                piece.drain(..PIECE);
            }
        }
        out.write_all(&piece)?;
        Ok(0)
    }
}

fn main() -> Result<()> {
    let words: Vec<String> = std::env::args().skip(1).collect();
    let number = |k: usize| words[k].parse::<usize>().unwrap();
    exit(Archive::open(&words[0])?.fetch(number(1), number(2), number(3))?)
}
