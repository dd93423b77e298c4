//! A plain program that does over files what `aea repair` does in an archive of which single equations bring everything back,
//! with a SHA-256 of its own.
//!
//! `plain_repair FOLDER` reads the ledger in the folder, with the shape of the archive and the digests of its blocks, and hashes
//! it. It reads the cell of each block and compares the SHA-256 of head and payload with the ledger's digest. Then it goes
//! through the blocks that are not intact, in number order, as often as it takes: each is rebuilt by its first equation whose
//! other blocks are there, the parity of its own node before the next one on the strand. The cells of these are read and
//! hashed once more, their payloads are added up by XOR, the sum is hashed and compared with the ledger's digest, and its cell
//! is written to its home. At the end the files that were written are made sure, and then the folders of those that were
//! missing. It prints the lines of the loss report. It knows one segment of a lattice alone, and no fence; and its status is 1
//! where a block is left that no single equation brings back.

mod plain_archive;
mod plain_ledger;
mod plain_sha256;

use plain_archive::{Lattice, site_file, site_folder};
use plain_ledger::{Ledger, if_there, wrong};
use plain_sha256::digest;
use std::fs::{File, OpenOptions, create_dir_all};
use std::io::{BufWriter, Result, Write, stdout};
use std::os::unix::fs::FileExt;
use std::process::exit;

struct Archive {
    ledger: Ledger,
    folder: String,
    files: Vec<Option<File>>,
    made: Vec<bool>,
    written: Vec<bool>,
    read: Vec<u8>,
    write: Vec<u8>,
}

impl Archive {
    fn open(folder: &str) -> Result<Archive> {
        let ledger = Ledger::open(&format!("{folder}/ledger.aea"))?;
        let mut files = Vec::new();
        for site in 0..ledger.sites {
            files.push(if_there(OpenOptions::new().read(true).write(true).open(site_file(folder, site)))?);
        }
        let (size, sites) = (ledger.size(), ledger.sites);
        Ok(Archive {
            ledger,
            folder: folder.to_string(),
            files,
            made: vec![false; sites],
            written: vec![false; sites],
            read: vec![0; size],
            write: vec![0; size],
        })
    }

    /// Reads the cell of a block, and whether it is intact.
    fn read(&mut self, number: usize) -> Result<bool> {
        self.ledger.read(&self.files, number, &mut self.read)
    }

    /// Computes a block from others, and writes its cell.
    fn rebuild(&mut self, number: usize, others: &[usize]) -> Result<()> {
        let block = self.ledger.block;
        self.write[..16].copy_from_slice(&self.ledger.head(number));
        self.write[16..16 + block].fill(0);
        for other in others {
            if !self.read(*other)? {
                return Err(wrong("a block has changed"));
            }
            for (byte, more) in self.write[16..16 + block].iter_mut().zip(&self.read[16..16 + block]) {
                *byte ^= more;
            }
        }
        let told = digest(&self.write[..16 + block]);
        if told != self.ledger.recorded(number) {
            return Err(wrong("a sum has another digest"));
        }
        self.write[16 + block..].copy_from_slice(&told);
        let (site, place) = self.ledger.home(number);
        if self.files[site].is_none() {
            create_dir_all(site_folder(&self.folder, site))?;
            let path = site_file(&self.folder, site);
            self.files[site] = Some(OpenOptions::new().read(true).write(true).create_new(true).open(path)?);
            self.made[site] = true;
        }
        self.written[site] = true;
        self.files[site].as_ref().unwrap().write_all_at(&self.write, place)
    }

    /// The first equation of a block whose other blocks are there.
    fn others(&self, number: usize, is_there: &[bool]) -> Option<([usize; 3], usize)> {
        let ledger = &self.ledger;
        for (node, class) in ledger.lattice.around(number, ledger.nodes()) {
            let (blocks, count) = ledger.lattice.equation(node, class);
            let mut others = [0; 3];
            let mut found = 0;
            for block in blocks[..count].iter().filter(|block| **block != number) {
                if is_there[*block] {
                    others[found] = *block;
                    found += 1;
                }
            }
            if found + 1 == count {
                return Some((others, found));
            }
        }
        None
    }

    fn make_sure(&self) -> Result<()> {
        for (file, written) in self.files.iter().zip(&self.written) {
            if let (Some(file), true) = (file, written) {
                file.sync_all()?;
            }
        }
        for (site, made) in self.made.iter().enumerate() {
            if *made {
                File::open(site_folder(&self.folder, site))?.sync_all()?;
                File::open(&self.folder)?.sync_all()?;
            }
        }
        Ok(())
    }

    fn print(&self, damaged: &[usize]) -> Result<()> {
        let ledger = &self.ledger;
        let mut out = BufWriter::new(stdout().lock());
        let Lattice { alpha, s, p } = ledger.lattice;
        writeln!(out, "aea-report 1\nlattice {alpha} {s} {p} {}\nledger {}", ledger.nodes(), ledger.seal)?;
        writeln!(out, "counts {0} {0} 0 0", damaged.len())?;
        for number in damaged {
            writeln!(out, "peeled {}", ledger.lattice.text(*number))?;
        }
        out.flush()
    }

    /// Whether all is brought back; the report is printed then.
    fn repair(&mut self) -> Result<bool> {
        let mut is_there = Vec::with_capacity(self.ledger.blocks());
        for number in 0..self.ledger.blocks() {
            let intact = self.read(number)?;
            is_there.push(intact);
        }
        let damaged: Vec<usize> = (0..is_there.len()).filter(|number| !is_there[*number]).collect();
        let mut left = damaged.clone();
        while !left.is_empty() {
            let before = left.len();
            let mut still = Vec::new();
            for number in left {
                match self.others(number, &is_there) {
                    Some((others, count)) => {
                        self.rebuild(number, &others[..count])?;
                        is_there[number] = true;
                    }
                    None => still.push(number),
                }
            }
            if still.len() == before {
                return Ok(false);
            }
            left = still;
        }
        self.make_sure()?;
        self.print(&damaged)?;
        Ok(true)
    }
}

fn main() -> Result<()> {
    let folder = std::env::args().nth(1).unwrap();
    exit(!Archive::open(&folder)?.repair()? as i32)
}
