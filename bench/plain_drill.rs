//! The drill as a plain Rust program with arrays, to measure the proved one against. Nothing here is proved.
//!
//! `plain_drill drill A S P N` reads a damage list and prints what `aea drill A S P N` prints; `plain_drill left A S P N` the
//! blocks of it that peeling leaves.
//! `plain_drill make SEED A N PERMILLE` prints a damage list: each block of a lattice with A parities a node and N
//! nodes stands on it with a chance of PERMILLE in a thousand, by a linear congruential generator.

mod plain_archive;
mod plain_lists;

use plain_archive::{LETTERS, Lattice};
use plain_lists::{Prefix, read_list, report};
use std::io::{self, Write};

/// What becomes of the blocks that are not there: for each, in number order, the nodes by which it is lost, or none where the
/// others determine it. Rows of bits, one for each equation, are reduced until the first bit of each is in no other.
fn solve(prefix: &Prefix, there: &[bool]) -> Vec<Option<Vec<u32>>> {
    let unknown: Vec<usize> = (0..there.len()).filter(|b| !there[*b]).collect();
    if unknown.is_empty() {
        return Vec::new();
    }
    let words = unknown.len().div_ceil(64);
    let has = |row: &[u64], k: usize| row[k / 64] >> (k % 64) & 1 == 1;
    let mut rows: Vec<Vec<u64>> = Vec::new();
    for node in 1..=prefix.n {
        for class in 1..=prefix.lattice.alpha {
            let before = prefix.input(node, class);
            let mut blocks = vec![prefix.number(node, 0), prefix.number(node, class)];
            if before != 0 {
                blocks.push(prefix.number(before, class));
            }
            let mut row = vec![0u64; words];
            for k in blocks.iter().filter_map(|b| unknown.binary_search(b).ok()) {
                row[k / 64] ^= 1 << (k % 64);
            }
            if row.iter().any(|word| *word != 0) {
                rows.push(row);
            }
        }
    }
    let mut leads: Vec<Option<usize>> = vec![None; unknown.len()];
    let mut used = 0;
    for (k, lead) in leads.iter_mut().enumerate() {
        let Some(found) = (used..rows.len()).find(|r| has(&rows[*r], k)) else {
            continue;
        };
        rows.swap(used, found);
        let pivot = rows[used].clone();
        for (r, row) in rows.iter_mut().enumerate() {
            if r != used && has(row, k) {
                row.iter_mut().zip(&pivot).for_each(|(x, y)| *x ^= y);
            }
        }
        *lead = Some(used);
        used += 1;
    }
    let classes = prefix.lattice.classes();
    let nodes_of = |end: usize| {
        let stands = |k: usize| leads[k].map_or(k == end, |r| has(&rows[r], end));
        let datum = |k: &usize| unknown[*k] % classes == 0 && stands(*k);
        (0..unknown.len()).filter(datum).map(|k| (unknown[k] / classes + 1) as u32).collect()
    };
    (0..unknown.len())
        .map(|k| match leads[k] {
            None => Some(nodes_of(k)),
            Some(r) => (k + 1..unknown.len()).find(|end| has(&rows[r], *end)).map(nodes_of),
        })
        .collect()
}

fn drill(prefix: &Prefix) -> io::Result<i32> {
    let Some(known) = read_list(prefix)? else {
        return Ok(3);
    };
    let mut there = known.clone();
    prefix.peel(&mut there);
    let fates = solve(prefix, &there);
    report(prefix, &known, &there, fates.iter().map(|nodes| nodes.as_deref()))
}

/// Prints the listed blocks that single equations do not give.
fn left(prefix: &Prefix) -> io::Result<i32> {
    let Some(mut there) = read_list(prefix)? else {
        return Ok(3);
    };
    prefix.peel(&mut there);
    let mut out = io::BufWriter::new(io::stdout().lock());
    for block in (0..there.len()).filter(|b| !there[*b]) {
        writeln!(out, "{}", prefix.lattice.text(block))?;
    }
    out.flush()?;
    Ok(0)
}

fn make(mut x: u64, alpha: usize, n: usize, permille: u64) -> io::Result<i32> {
    let mut out = io::BufWriter::new(io::stdout().lock());
    for node in 1..=n {
        for letter in &LETTERS[..=alpha] {
            x = x.wrapping_mul(6364136223846793005).wrapping_add(1442695040888963407);
            if (x >> 33) % 1000 < permille {
                writeln!(out, "{letter}{node}")?;
            }
        }
    }
    out.flush()?;
    Ok(0)
}

fn main() -> io::Result<()> {
    let words: Vec<String> = std::env::args().skip(1).collect();
    let number = |k: usize| words[k].parse::<usize>().unwrap();
    let prefix = || Prefix { lattice: Lattice { alpha: number(1), s: number(2), p: number(3) }, n: number(4) };
    let status = match words[0].as_str() {
        "drill" => drill(&prefix())?,
        "left" => left(&prefix())?,
        _ => make(number(1) as u64, number(2), number(3), number(4) as u64)?,
    };
    std::process::exit(status)
}
