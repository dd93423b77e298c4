//! What the plain programs know of archives, by docs/FORMATS.md: the strands of a lattice, the texts of its blocks, and where
//! their cells stand. Each of the programs uses a part of it.
#![allow(dead_code)]

use std::fmt::{Display, Formatter, Result, Write};

/// The letters of the classes in the texts of blocks.
pub const LETTERS: [char; 4] = ['d', 'h', 'r', 'l'];

/// The text of a block, which is printed without memory for it.
pub struct Text {
    letter: char,
    node: usize,
}

impl Display for Text {
    fn fmt(&self, to: &mut Formatter) -> Result {
        to.write_char(self.letter)?;
        self.node.fmt(to)
    }
}

#[derive(Clone, Copy)]
pub struct Lattice {
    pub alpha: usize,
    pub s: usize,
    pub p: usize,
}

impl Lattice {
    pub fn classes(&self) -> usize {
        1 + self.alpha
    }

    /// How far the node before on a strand is; the strand begins where that is no node.
    pub fn back(&self, node: usize, class: usize) -> usize {
        let (s, p, row) = (self.s, self.p, (node - 1) % self.s);
        match class {
            1 => s,
            2 if row == 0 => s * p + 1 - s * s,
            2 => s + 1,
            _ if row + 1 == s => s * p - (s - 1) * (s - 1),
            _ => s - 1,
        }
    }

    /// How far the next node on a strand is.
    pub fn ahead(&self, node: usize, class: usize) -> usize {
        let (s, p, row) = (self.s, self.p, (node - 1) % self.s);
        match class {
            1 => s,
            2 if row + 1 == s => s * p + 1 - s * s,
            2 => s + 1,
            _ if row == 0 => s * p - (s - 1) * (s - 1),
            _ => s - 1,
        }
    }

    /// How many strands there are: of class 1 there are s, and of each other one p.
    pub fn strands(&self) -> usize {
        self.s + self.p * (self.alpha - 1)
    }

    /// The place of the strand of a node on a class among all strands.
    pub fn strand(&self, node: usize, class: usize) -> usize {
        let (column, row) = ((node - 1) / self.s, (node - 1) % self.s);
        match class {
            1 => row,
            2 => self.s + (column + self.p - row) % self.p,
            _ => self.s + self.p + (column + row) % self.p,
        }
    }

    pub fn number(&self, node: usize, class: usize) -> usize {
        (node - 1) * self.classes() + class
    }

    /// The numbers of the blocks of the equation of a node's parity: datum, parity, and the parity before it, where there is one.
    pub fn equation(&self, node: usize, class: usize) -> ([usize; 3], usize) {
        let (datum, back) = (self.number(node, 0), self.back(node, class));
        if node > back {
            ([datum, datum + class, self.number(node - back, class)], 3)
        } else {
            ([datum, datum + class, 0], 2)
        }
    }

    /// The equations of a block, node and class of each, in a lattice of so many nodes. A datum has one for each class, a parity its
    /// own and that of the next node.
    pub fn around(&self, number: usize, nodes: usize) -> impl Iterator<Item = (usize, usize)> + use<> {
        let (node, class) = self.node_and_class(number);
        let next = if class > 0 { node + self.ahead(node, class) } else { 0 };
        let own = if class == 0 { 1..=self.alpha } else { class..=class };
        own.map(move |it| (node, it)).chain((0 < next && next <= nodes).then_some((next, class)))
    }

    /// The node and the class of the block of a number.
    pub fn node_and_class(&self, number: usize) -> (usize, usize) {
        (number / self.classes() + 1, number % self.classes())
    }

    pub fn text(&self, number: usize) -> Text {
        let (node, class) = self.node_and_class(number);
        Text { letter: LETTERS[class], node }
    }

    /// The number of the block with this text, in a lattice of so many nodes.
    pub fn block(&self, text: &[u8], nodes: usize) -> Option<usize> {
        let (letter, digits) = text.split_first()?;
        let class = LETTERS[..self.classes()].iter().position(|it| *it as u8 == *letter)?;
        if digits.is_empty() || digits[0] == b'0' || digits.len() > 10 {
            return None;
        }
        let mut node = 0;
        for digit in digits {
            if !digit.is_ascii_digit() {
                return None;
            }
            node = 10 * node + usize::from(digit - b'0');
        }
        (node <= nodes).then(|| self.number(node, class))
    }
}

/// The site of a block's home, counted from 0, and the place in its file, for cells of this size.
pub fn home(number: usize, sites: usize, size: usize) -> (usize, u64) {
    let (row, column) = (number / sites, number % sites);
    ((column + row) % sites, (row * size) as u64)
}

/// The folder of a site, counted from 0.
pub fn site_folder(folder: &str, site: usize) -> String {
    format!("{folder}/site-{:02}", site + 1)
}

/// The file of a site's cells.
pub fn site_file(folder: &str, site: usize) -> String {
    format!("{}/blocks.aea", site_folder(folder, site))
}

/// The head of the cell of a node's block of this class.
pub fn head(node: usize, class: usize) -> [u8; 16] {
    let mut head = [0; 16];
    head[..4].copy_from_slice(b"AEB1");
    head[4] = class as u8;
    head[8..].copy_from_slice(&(node as u64).to_be_bytes());
    head
}
