//! A plain program that does over files what `aea verify` does in an archive of one object without fences, with a SHA-256 of its
//! own.
//!
//! `plain_verify FOLDER` reads the ledger in the folder, with the shape of the archive and the digests of its blocks, and hashes
//! it. It reads the cell of each block forward, and compares the SHA-256 of head and payload with the ledger's digest. Then it
//! reads a loss report from standard input, line by line, and judges it by the rules of docs/FORMATS.md: the codeword of a lost
//! block's nodes is walked from the first of them to where no strand has an odd number of them. It prints `accepted`, or
//! `rejected LINE WHY`, with status 1; and where the text is no report, or a line is too long, the first bad line, with status 3.

mod plain_archive;
mod plain_ledger;
mod plain_sha256;

use plain_archive::{Lattice, site_file};
use plain_ledger::Ledger;
use std::convert::TryInto;
use std::fs::File;
use std::io::{BufRead, ErrorKind, Read, Result, stdin};
use std::os::unix::fs::FileExt;
use std::process::exit;

const LONGEST_LINE: u64 = 16_777_216;

impl Ledger {
    /// Which blocks are intact, by their numbers. The cells are read a site at a time, forward.
    fn scan(&self, folder: &str) -> Result<Vec<bool>> {
        let mut intact = vec![false; self.blocks()];
        let mut cell = vec![0; self.size()];
        for site in 0..self.sites {
            let file = match File::open(site_file(folder, site)) {
                Ok(file) => file,
                Err(error) if error.kind() == ErrorKind::NotFound => continue,
                Err(error) => return Err(error),
            };
            for row in 0..self.blocks().div_ceil(self.sites) {
                let number = row * self.sites + (site + self.sites - row % self.sites) % self.sites;
                if number < self.blocks() && file.read_exact_at(&mut cell, (row * self.size()) as u64).is_ok() {
                    intact[number] = self.is_cell(number, &cell);
                }
            }
        }
        Ok(intact)
    }
}

/// A walk along the codeword of some nodes.
struct Walk<'a> {
    ledger: &'a Ledger,
    odd: Vec<bool>,
    open: usize,
}

impl Walk<'_> {
    fn new(ledger: &Ledger) -> Walk<'_> {
        Walk { ledger, odd: vec![false; ledger.lattice.strands()], open: 0 }
    }

    /// Whether the codeword of the nodes contains the block of this number, and the least intact block that it contains.
    fn judge(&mut self, nodes: &[usize], number: usize, intact: &[bool]) -> (bool, Option<usize>) {
        let (ledger, lattice, mut touched, mut contains) = (self.ledger, self.ledger.lattice, None, false);
        let mut rest = nodes.iter().peekable();
        for node in nodes[0]..=ledger.nodes() {
            let is_listed = rest.next_if(|next| **next == node).is_some();
            let datum = lattice.number(node, 0);
            if is_listed {
                self.meet(datum, number, intact, &mut contains, &mut touched);
            }
            for class in 1..=lattice.alpha {
                let strand = lattice.strand(node, class);
                if is_listed {
                    self.odd[strand] = !self.odd[strand];
                    self.open = if self.odd[strand] { self.open + 1 } else { self.open - 1 };
                }
                if self.odd[strand] {
                    self.meet(datum + class, number, intact, &mut contains, &mut touched);
                }
            }
            if rest.peek().is_none() && self.open == 0 {
                return (contains, touched);
            }
        }
        self.odd.fill(false);
        self.open = 0;
        (contains, touched)
    }

    fn meet(&self, block: usize, number: usize, intact: &[bool], contains: &mut bool, touched: &mut Option<usize>) {
        *contains |= block == number;
        if touched.is_none() && intact[block] {
            *touched = Some(block);
        }
    }
}

/// A number without sign and leading zeros, below 2^32.
fn number(text: &[u8]) -> Option<usize> {
    if text.is_empty() || text.len() > 10 || (text[0] == b'0' && text.len() > 1) || !text.iter().all(u8::is_ascii_digit) {
        return None;
    }
    let value = text.iter().fold(0, |sum, digit| 10 * sum + (digit - b'0') as usize);
    (value <= u32::MAX as usize).then_some(value)
}

/// The judge of a report.
struct Judge<'a> {
    ledger: &'a Ledger,
    intact: &'a [bool],
    walk: Walk<'a>,
    least: usize,
    counts: [usize; 3],
    wrong: Option<(usize, String)>,
    nodes: Vec<usize>,
}

impl Judge<'_> {
    fn missing(&self, end: usize) -> Option<usize> {
        (self.least..end).find(|number| !self.intact[*number])
    }

    /// Reads a line behind the fourth, and judges it where none before it is wrong. None where it is no line of a report.
    fn read(&mut self, line: &[u8], at: usize) -> Option<()> {
        let space = line.iter().position(|byte| *byte == b' ')?;
        let (word, rest) = (&line[..space], &line[space + 1..]);
        let end = rest.iter().position(|byte| *byte == b' ').unwrap_or(rest.len());
        let block = self.ledger.lattice.block(&rest[..end], self.ledger.nodes())?;
        let kind = [&b"peeled"[..], b"solved", b"lost"].iter().position(|it| *it == word)?;
        self.nodes.clear();
        if kind == 2 {
            let mut last = 0;
            for text in rest[end..].strip_prefix(b" by ")?.split(|byte| *byte == b' ') {
                let node = number(text).filter(|node| last < *node && *node <= self.ledger.nodes())?;
                self.nodes.push(node);
                last = node;
            }
        } else if end < rest.len() {
            return None;
        }
        if block < self.least {
            return None;
        }
        if self.wrong.is_none() {
            self.wrong = self.judge(block, kind).map(|why| (at, why));
        }
        self.counts[kind] += 1;
        self.least = block + 1;
        Some(())
    }

    fn judge(&mut self, block: usize, kind: usize) -> Option<String> {
        let text = |number| self.ledger.lattice.text(number);
        if let Some(other) = self.missing(block) {
            return Some(format!("missing {}", text(other)));
        }
        if kind < 2 {
            return (!self.intact[block]).then(|| format!("still-bad {}", text(block)));
        }
        if self.intact[block] {
            return Some(format!("not-damaged {}", text(block)));
        }
        let (contains, touched) = self.walk.judge(&self.nodes, block, self.intact);
        if !contains {
            return Some(format!("word-misses {}", self.ledger.lattice.text(block)));
        }
        touched.map(|other| format!("word-touches {}", self.ledger.lattice.text(other)))
    }

    /// The verdict behind the last line, whose number is one less than this.
    fn verdict(mut self, at: usize, told: [usize; 4]) -> String {
        if self.wrong.is_none() {
            self.wrong = self.missing(self.ledger.blocks()).map(|other| (at, format!("missing {}", self.ledger.lattice.text(other))));
        }
        let [peeled, solved, lost] = self.counts;
        if self.wrong.is_none() && told != [peeled + solved + lost, peeled, solved, lost] {
            self.wrong = Some((4, "wrong-count".to_string()));
        }
        match self.wrong {
            Some((line, why)) => format!("rejected {line} {why}"),
            None => "accepted".to_string(),
        }
    }
}

/// The lines of a report, one at a time; Err is a line that is too long, None a text that ends in the middle of one.
struct Lines<R> {
    from: R,
    line: Vec<u8>,
}

impl<R: BufRead> Lines<R> {
    fn next(&mut self) -> std::result::Result<Option<&[u8]>, ()> {
        self.line.clear();
        self.from.by_ref().take(LONGEST_LINE + 1).read_until(b'\n', &mut self.line).map_err(drop)?;
        match self.line.split_last() {
            Some((b'\n', line)) => Ok(Some(line)),
            _ if self.line.len() as u64 > LONGEST_LINE => Err(()),
            _ => Ok(None),
        }
    }

    fn is_at_end(&mut self) -> bool {
        self.from.fill_buf().map(|it| it.is_empty()).unwrap_or(false)
    }
}

fn counts(line: &[u8]) -> Option<[usize; 4]> {
    let numbers: Option<Vec<usize>> = line.strip_prefix(b"counts ")?.split(|byte| *byte == b' ').map(number).collect();
    numbers?.try_into().ok()
}

/// Which lines a head may have, and whether they are those of this archive.
fn head(ledger: &Ledger, at: usize, line: &[u8]) -> Option<bool> {
    match at {
        1 => (line == b"aea-report 1").then_some(true),
        2 => {
            let numbers: Option<Vec<usize>> = line.strip_prefix(b"lattice ")?.split(|byte| *byte == b' ').map(number).collect();
            let numbers = numbers.filter(|it| it.len() == 4)?;
            let Lattice { alpha, s, p } = ledger.lattice;
            Some(numbers == [alpha, s, p, ledger.nodes()])
        }
        _ => {
            let seal = line.strip_prefix(b"ledger ")?;
            let is_seal = seal.len() == 64 && seal.iter().all(|byte| byte.is_ascii_digit() || (b'a'..=b'f').contains(byte));
            (seal == b"none" || is_seal).then(|| seal == ledger.seal.as_bytes())
        }
    }
}

/// What is told of a report, and the status.
fn answer(ledger: &Ledger, intact: &[bool], from: impl BufRead) -> (String, i32) {
    let mut lines = Lines { from, line: Vec::new() };
    let mut judge = Judge { ledger, intact, walk: Walk::new(ledger), least: 0, counts: [0; 3], wrong: None, nodes: Vec::new() };
    let (mut at, mut told) = (1, [0; 4]);
    while at < 5 || !lines.is_at_end() {
        let line = match lines.next() {
            Ok(Some(line)) => line,
            Ok(None) => return (format!("bad line {at}"), 3),
            Err(()) => return (format!("line too long {at}"), 3),
        };
        let is_well = match at {
            1..4 => match head(ledger, at, line) {
                Some(false) if judge.wrong.is_none() => {
                    judge.wrong = Some((at, "other-archive".to_string()));
                    true
                }
                other => other.is_some(),
            },
            4 => counts(line).map(|it| told = it).is_some(),
            _ => judge.read(line, at).is_some(),
        };
        if !is_well {
            return (format!("bad line {at}"), 3);
        }
        at += 1;
    }
    let verdict = judge.verdict(at, told);
    let status = (verdict != "accepted") as i32;
    (verdict, status)
}

fn main() -> Result<()> {
    let folder = std::env::args().nth(1).unwrap();
    let ledger = Ledger::open(&format!("{folder}/ledger.aea"))?;
    let intact = ledger.scan(&folder)?;
    let (told, status) = answer(&ledger, &intact, stdin().lock());
    println!("{told}");
    exit(status)
}
