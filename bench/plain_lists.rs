//! What the plain programs that drill share: the nodes of a lattice, damage lists, what single steps reach, and the report.
//! Nothing here is proved.

use crate::plain_archive::Lattice;
use std::io::{self, Read, Write};

/// The first n nodes of a lattice.
pub struct Prefix {
    pub lattice: Lattice,
    pub n: usize,
}

impl Prefix {
    /// The node before `node` on its strand of the class, 0 where the strand begins here.
    pub fn input(&self, node: usize, class: usize) -> usize {
        node.saturating_sub(self.lattice.back(node, class))
    }

    /// The node after `node` on its strand of the class, 0 where there is none.
    pub fn next(&self, node: usize, class: usize) -> usize {
        let next = node + self.lattice.ahead(node, class);
        if next <= self.n { next } else { 0 }
    }

    pub fn number(&self, node: usize, class: usize) -> usize {
        self.lattice.number(node, class)
    }

    /// How many blocks there are.
    pub fn blocks(&self) -> usize {
        self.n * self.lattice.classes()
    }

    /// The only block of the equation that is not there, if it is one.
    fn forced(&self, there: &[bool], node: usize, class: usize) -> Option<usize> {
        let datum = self.number(node, 0);
        let output = self.number(node, class);
        let before = self.input(node, class);
        let input_there = before == 0 || there[self.number(before, class)];
        match (input_there, there[datum], there[output]) {
            (true, true, false) => Some(output),
            (true, false, true) => Some(datum),
            (false, true, true) => Some(self.number(before, class)),
            _ => None,
        }
    }

    pub fn peel(&self, there: &mut [bool]) {
        let mut waiting = Vec::with_capacity(self.n * self.lattice.alpha);
        for node in 1..=self.n {
            for class in 1..=self.lattice.alpha {
                waiting.push((node as u32, class as u8));
            }
        }
        while let Some((node, class)) = waiting.pop() {
            let Some(block) = self.forced(there, node as usize, class as usize) else {
                continue;
            };
            there[block] = true;
            let (node, class) = self.lattice.node_and_class(block);
            if class == 0 {
                for class in 1..=self.lattice.alpha {
                    waiting.push((node as u32, class as u8));
                }
            } else {
                waiting.push((node as u32, class as u8));
                let next = self.next(node, class);
                if next != 0 {
                    waiting.push((next as u32, class as u8));
                }
            }
        }
    }
}

/// A damage list: for each block whether it is there, or nothing where a line names no block.
pub fn read_list(prefix: &Prefix) -> io::Result<Option<Vec<bool>>> {
    let mut list = Vec::new();
    io::stdin().lock().take(4_194_305).read_to_end(&mut list)?;
    let mut there = vec![true; prefix.blocks()];
    let mut rest = &list[..];
    while !rest.is_empty() {
        let end = rest.iter().position(|x| *x == b'\n').unwrap_or(rest.len());
        match prefix.lattice.block(&rest[..end], prefix.n) {
            Some(block) => there[block] = false,
            None => return Ok(None),
        }
        rest = &rest[(end + 1).min(rest.len())..];
    }
    Ok(Some(there))
}

/// Prints the report on the listed blocks, and returns the status: `there` has those that are reached too, and `fates` says of
/// each of the others, in number order, by which nodes it is lost, if it is.
pub fn report<'a, F>(prefix: &Prefix, known: &[bool], there: &[bool], fates: F) -> io::Result<i32>
where
    F: Iterator<Item = Option<&'a [u32]>> + Clone,
{
    let (damaged, left) = (known.iter().filter(|x| !**x).count(), there.iter().filter(|x| !**x).count());
    let lost = fates.clone().filter(|x| x.is_some()).count();
    let mut out = io::BufWriter::with_capacity(8192, io::stdout().lock());
    let (Lattice { alpha, s, p }, n) = (prefix.lattice, prefix.n);
    writeln!(out, "aea-report 1\nlattice {alpha} {s} {p} {n}\nledger none")?;
    writeln!(out, "counts {damaged} {} {} {lost}", damaged - left, left - lost)?;
    let mut fates = fates;
    for block in (0..known.len()).filter(|b| !known[*b]) {
        if there[block] {
            writeln!(out, "peeled {}", prefix.lattice.text(block))?;
            continue;
        }
        match fates.next().unwrap() {
            None => writeln!(out, "solved {}", prefix.lattice.text(block))?,
            Some(nodes) => {
                write!(out, "lost {} by", prefix.lattice.text(block))?;
                for node in nodes {
                    write_number(&mut out, *node)?;
                }
                writeln!(out)?;
            }
        }
    }
    out.flush()?;
    Ok(i32::from(lost > 0))
}

/// A blank and a number, as `write!(out, " {number}")` writes it, which takes more than twice as long.
fn write_number(out: &mut impl Write, mut number: u32) -> io::Result<()> {
    let (mut text, mut first) = ([b' '; 11], 11);
    while first == 11 || number > 0 {
        first -= 1;
        text[first] = b'0' + (number % 10) as u8;
        number /= 10;
    }
    out.write_all(&text[first - 1..])
}
