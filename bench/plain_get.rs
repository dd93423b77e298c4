//! A plain program that does over files what `aea get` does with an object that has all nodes of an archive, with a SHA-256 of
//! its own.
//!
//! `plain_get FOLDER A B M LENGTH` reads the cell of the datum of each node, with blocks of B bytes, from the files of M sites in
//! the folder, and compares the SHA-256 of head and payload with the digest behind them; then it does so once more, and writes
//! the payloads, cut to LENGTH bytes, in pieces of 65,536 bytes. A is the number of parities of a node. It reads no ledger, so the
//! digest is that of the cell itself. Its status is 1 where a cell is damaged.

mod plain_archive;
mod plain_sha256;

use plain_archive::{head, home, site_file};
use plain_sha256::digest;
use std::fs::File;
use std::io::{Result, Write, stdout};
use std::os::fd::AsFd;
use std::os::unix::fs::FileExt;
use std::process::exit;

/// The bytes of a piece that is written.
const PIECE: usize = 65536;

struct Archive {
    files: Vec<File>,
    classes: usize,
    block: usize,
    nodes: usize,
}

impl Archive {
    /// Reads the cell of a node's datum, and whether it is intact.
    fn read(&self, node: usize, cell: &mut [u8]) -> Result<bool> {
        let (site, place) = home((node - 1) * self.classes, self.files.len(), cell.len());
        self.files[site].read_exact_at(cell, place)?;
        let (body, behind) = cell.split_at(16 + self.block);
        Ok(body[..16] == head(node, 0) && digest(body) == behind)
    }

    /// Whether all data are intact; the payloads are written.
    fn get(&self, length: usize) -> Result<bool> {
        let mut cell = vec![0u8; self.block + 48];
        for node in 1..=self.nodes {
            if !self.read(node, &mut cell)? {
                return Ok(false);
            }
        }
        // without the buffer of lines that standard output has
        let mut out = File::from(stdout().as_fd().try_clone_to_owned()?);
        let mut piece = Vec::with_capacity(PIECE + self.block);
        let mut left = length;
        for node in 1..=self.nodes {
            if !self.read(node, &mut cell)? {
                return Ok(false);
            }
            let count = left.min(self.block);
            piece.extend_from_slice(&cell[16..16 + count]);
            left -= count;
            if piece.len() >= PIECE {
                out.write_all(&piece[..PIECE])?;
                piece.drain(..PIECE);
            }
        }
        out.write_all(&piece)?;
        Ok(true)
    }
}

fn main() -> Result<()> {
    let words: Vec<String> = std::env::args().skip(1).collect();
    let number = |k: usize| words[k].parse::<usize>().unwrap();
    let (block, length) = (number(2), number(4));
    let mut files = Vec::new();
    for site in 0..number(3) {
        files.push(File::open(site_file(&words[0], site))?);
    }
    let archive = Archive { files, classes: 1 + number(1), block, nodes: length.div_ceil(block) };
    exit(!archive.get(length)? as i32)
}
