//! The ledger of the plain programs: of an archive without fences, each of whose objects takes nodes of its own. Each of the
//! programs uses a part of it.
#![allow(dead_code)]

use crate::plain_archive::{Lattice, head, home};
use crate::plain_sha256::{digest, hex};
use std::fs::{File, read};
use std::io::{Error, ErrorKind, Result};
use std::os::unix::fs::FileExt;

pub fn wrong(what: &str) -> Error {
    Error::new(ErrorKind::InvalidData, what)
}

/// A file that was opened, or none where it is not there.
pub fn if_there(opened: Result<File>) -> Result<Option<File>> {
    match opened {
        Ok(file) => Ok(Some(file)),
        Err(error) if error.kind() == ErrorKind::NotFound => Ok(None),
        Err(error) => Err(error),
    }
}

/// The lattice of an archive, its sites and the bytes of its blocks, their digests in number order, and its seal in digits.
pub struct Ledger {
    pub lattice: Lattice,
    pub sites: usize,
    pub block: usize,
    pub digests: Vec<u8>,
    pub seal: String,
}

impl Ledger {
    pub fn open(path: &str) -> Result<Ledger> {
        let bytes = read(path)?;
        let number = |at: usize, count: usize| bytes[at..at + count].iter().fold(0, |sum, byte| sum << 8 | *byte as usize);
        if bytes.len() < 18 || !bytes.starts_with(b"\x01AEALEDG1") {
            return Err(wrong("no archive"));
        }
        let mut digests = Vec::new();
        let mut gate = 17;
        while bytes[gate] == 1 {
            let end = gate + 6 + number(gate + 2, 4);
            match bytes[gate + 1] {
                // an object whose nodes are all new: its digests stand behind its name and 48 bytes more
                1 => digests.extend_from_slice(&bytes[gate + 56 + number(gate + 6, 2)..end]),
                // a raise of the limit
                4 => (),
                _ => return Err(wrong("a record that the plain program does not know")),
            }
            gate = end;
        }
        Ok(Ledger {
            lattice: Lattice { alpha: bytes[9] as usize, s: bytes[10] as usize, p: bytes[11] as usize },
            sites: bytes[12] as usize,
            block: number(13, 4),
            digests,
            seal: hex(digest(&bytes[..gate])),
        })
    }

    pub fn blocks(&self) -> usize {
        self.digests.len() / 32
    }

    pub fn nodes(&self) -> usize {
        self.blocks() / self.lattice.classes()
    }

    /// The bytes of a cell: its head, the payload and the digest.
    pub fn size(&self) -> usize {
        self.block + 48
    }

    pub fn head(&self, number: usize) -> [u8; 16] {
        let (node, class) = self.lattice.node_and_class(number);
        head(node, class)
    }

    pub fn recorded(&self, number: usize) -> &[u8] {
        &self.digests[32 * number..32 * number + 32]
    }

    /// The site of a block's home, counted from 0, and the place in its file.
    pub fn home(&self, number: usize) -> (usize, u64) {
        home(number, self.sites, self.size())
    }

    /// Reads the cell of a block from the files of the sites, and whether it is intact.
    pub fn read(&self, files: &[Option<File>], number: usize, cell: &mut [u8]) -> Result<bool> {
        let (site, place) = self.home(number);
        let Some(file) = &files[site] else {
            return Ok(false);
        };
        match file.read_exact_at(cell, place) {
            Ok(()) => Ok(self.is_cell(number, cell)),
            Err(error) if error.kind() == ErrorKind::UnexpectedEof => Ok(false),
            Err(error) => Err(error),
        }
    }

    /// Whether a cell is that of the block: it has its head, and the digest that is recorded.
    pub fn is_cell(&self, number: usize, cell: &[u8]) -> bool {
        let (body, behind) = cell.split_at(16 + self.block);
        body[..16] == self.head(number) && behind == self.recorded(number) && digest(body) == behind
    }
}
