//! A plain program that does over files what `aea put` does in an archive without objects, with a SHA-256 of its own.
//!
//! `plain_put hash` prints the SHA-256 of its input. `plain_put put FOLDER A S P B M RAISED NAME` hashes its input, weaves it
//! into AE(A,S,P) in blocks of B bytes, writes the cells to the files of M sites in the folder, makes them sure, and then
//! writes the ledger with the object NAME and makes it sure; where RAISED is 1, with a raise of the limit before it.
//! `plain_put frames FOLDER A S P B M` does what `aea create A S P B M` and then `aea ingest` do: it stores the objects of a
//! stream of frames, with the heads kept from one to the next, and prints the same lines.
//! `plain_put session FOLDER A S P B M` does what `aea create A S P B M`, `aea upgrade` and then `aea session` do: it takes messages,
//! and replies to each before it reads the next one. It knows opens, chunks, closes and aborts, and checks no more than the slots.

mod plain_archive;
mod plain_sha256;

use plain_archive::{Lattice, head, home, site_file, site_folder};
use plain_sha256::{Digest, Sha256, digest, hex};
use std::fs::{File, OpenOptions, create_dir_all};
use std::io::{BufReader, ErrorKind, Read, Result, Write, stdin, stdout};
use std::os::unix::fs::FileExt;

fn fill(input: &mut impl Read, block: &mut [u8]) -> Result<usize> {
    let mut count = 0;
    while count < block.len() {
        match input.read(&mut block[count..])? {
            0 => break,
            more => count += more,
        }
    }
    Ok(count)
}

struct Shape {
    lattice: Lattice,
    block: usize,
    sites: usize,
}

/// An archive under way: the files of its sites, and of each strand what a next node adds its data to.
struct Archive {
    shape: Shape,
    files: Vec<File>,
    /// Which of the files changed since they were made sure.
    changed: Vec<bool>,
    heads: Vec<u8>,
    block: Vec<u8>,
    cell: Vec<u8>,
    nodes: usize,
}

/// What is woven of an object.
struct Woven {
    first: usize,
    nodes: usize,
    length: u64,
    digest: Digest,
    digests: Vec<Digest>,
}

impl Archive {
    fn new(folder: &str, shape: Shape) -> Result<Archive> {
        let mut files = Vec::new();
        for site in 0..shape.sites {
            create_dir_all(site_folder(folder, site))?;
            files.push(OpenOptions::new().write(true).create(true).truncate(true).open(site_file(folder, site))?);
        }
        let (changed, heads) = (vec![false; files.len()], vec![0; shape.lattice.strands() * shape.block]);
        let (block, cell) = (vec![0; shape.block], vec![0; shape.block + 48]);
        Ok(Archive { shape, files, changed, heads, block, cell, nodes: 0 })
    }

    /// Writes the cell of a block of the last node, whose payload stands in the buffer, and keeps its digest.
    fn write(&mut self, class: usize, digests: &mut Vec<Digest>) -> Result<()> {
        let (body, behind) = self.cell.split_at_mut(16 + self.shape.block);
        body[..16].copy_from_slice(&head(self.nodes, class));
        let digest = digest(body);
        behind.copy_from_slice(&digest);
        digests.push(digest);
        let (site, place) = home(self.shape.lattice.number(self.nodes, class), self.shape.sites, self.cell.len());
        self.changed[site] = true;
        self.files[site].write_all_at(&self.cell, place)
    }

    /// Adds a node whose datum stands in the block's buffer, and writes its cells.
    fn add_node(&mut self, digests: &mut Vec<Digest>) -> Result<()> {
        let size = self.shape.block;
        self.nodes += 1;
        self.cell[16..16 + size].copy_from_slice(&self.block);
        self.write(0, digests)?;
        for class in 1..=self.shape.lattice.alpha {
            let from = self.shape.lattice.strand(self.nodes, class) * size;
            let head = &mut self.heads[from..from + size];
            for (byte, other) in head.iter_mut().zip(&self.block) {
                *byte ^= other;
            }
            self.cell[16..16 + size].copy_from_slice(head);
            self.write(class, digests)?;
        }
        Ok(())
    }

    /// Weaves all that the input has, and writes its cells.
    fn weave(&mut self, input: &mut impl Read) -> Result<Woven> {
        let (size, first) = (self.shape.block, self.nodes + 1);
        let (mut digests, mut hash, mut length) = (Vec::new(), Sha256::new(), 0);
        loop {
            let count = fill(input, &mut self.block)?;
            if count == 0 {
                break;
            }
            self.block[count..].fill(0);
            hash.update(&self.block[..count]);
            length += count as u64;
            self.add_node(&mut digests)?;
            if count < size {
                break;
            }
        }
        Ok(Woven { first, nodes: self.nodes + 1 - first, length, digest: hash.finish(), digests })
    }

    /// Makes the files sure that changed.
    fn sync(&mut self) -> Result<()> {
        for (file, changed) in self.files.iter().zip(&mut self.changed) {
            if std::mem::take(changed) {
                file.sync_all()?;
            }
        }
        Ok(())
    }

    /// The ledger before its first gate.
    fn header(&self) -> Vec<u8> {
        let mut ledger = b"\x01AEALEDG1".to_vec();
        let Lattice { alpha, s, p } = self.shape.lattice;
        ledger.extend([alpha as u8, s as u8, p as u8, self.shape.sites as u8]);
        ledger.extend((self.shape.block as u32).to_be_bytes());
        ledger
    }
}

/// The record of an object behind its gate, without the digests.
fn record(name: &[u8], woven: &Woven) -> Vec<u8> {
    let mut bytes = vec![1];
    bytes.extend(((50 + name.len() + 32 * woven.digests.len()) as u32).to_be_bytes());
    bytes.extend((name.len() as u16).to_be_bytes());
    bytes.extend(name);
    bytes.extend(woven.length.to_be_bytes());
    bytes.extend(woven.digest);
    bytes.extend((woven.first as u32).to_be_bytes());
    bytes.extend((woven.nodes as u32).to_be_bytes());
    bytes
}

/// Makes the folders of the sites sure.
fn sync_folders(folder: &str, shape: &Shape) -> Result<()> {
    for site in 0..shape.sites {
        File::open(site_folder(folder, site))?.sync_all()?;
    }
    Ok(())
}

fn put(folder: &str, shape: Shape, raised: bool, name: &str) -> Result<()> {
    let mut archive = Archive::new(folder, shape)?;
    let woven = archive.weave(&mut stdin().lock())?;
    archive.sync()?;
    sync_folders(folder, &archive.shape)?;
    let mut ledger = archive.header();
    if raised {
        ledger.extend(b"\x01\x04\x00\x00\x00\x04\x00\x10\x00\x00");
    }
    ledger.push(1);
    ledger.extend(record(name.as_bytes(), &woven));
    let mut file = File::create(format!("{folder}/ledger.aea"))?;
    file.write_all(&ledger)?;
    file.write_all(woven.digests.as_flattened())?;
    file.write_all(&[0])?;
    file.sync_all()?;
    File::open(folder)?.sync_all()
}

/// Stores the objects of a stream of frames, one after the other. Each of three steps is made sure before the next: the cells, the
/// record with a closed gate behind it, and the gate before it, which is opened.
fn ingest(folder: &str, shape: Shape) -> Result<()> {
    let mut archive = Archive::new(folder, shape)?;
    let ledger = File::create(format!("{folder}/ledger.aea"))?;
    let mut bytes = archive.header();
    let mut gate = bytes.len() as u64;
    bytes.push(0);
    ledger.write_all_at(&bytes, 0)?;
    ledger.sync_all()?;
    sync_folders(folder, &archive.shape)?;
    File::open(folder)?.sync_all()?;
    let (mut input, mut out, mut count) = (stdin().lock(), stdout().lock(), 0);
    let (mut two, mut eight) = ([0; 2], [0; 8]);
    while fill(&mut input, &mut two)? == 2 {
        let mut name = vec![0; usize::from(u16::from_be_bytes(two))];
        input.read_exact(&mut name)?;
        input.read_exact(&mut eight)?;
        let length = u64::from_be_bytes(eight);
        let woven = archive.weave(&mut input.by_ref().take(length))?;
        if woven.length < length {
            return Err(ErrorKind::UnexpectedEof.into());
        }
        archive.sync()?;
        let mut bytes = record(&name, &woven);
        bytes.extend(woven.digests.as_flattened());
        bytes.push(0);
        ledger.write_all_at(&bytes, gate + 1)?;
        ledger.sync_all()?;
        ledger.write_all_at(&[1], gate)?;
        ledger.sync_all()?;
        gate += bytes.len() as u64;
        writeln!(out, "stored {} {} {} {}", woven.nodes, woven.length, hex(woven.digest), String::from_utf8_lossy(&name))?;
        out.flush()?;
        count += 1;
    }
    writeln!(out, "end {count}")
}

/// An upload in a slot of a session: what is kept of its bytes, and the longest runs of its nodes, the first and how many.
struct Upload {
    name: Vec<u8>,
    hash: Sha256,
    length: u64,
    filled: usize,
    rest: Vec<u8>,
    parts: Vec<(u32, u32)>,
}

/// A session: the archive, its ledger with the place of the gate that ends it, and the digests since the last record.
struct Session {
    archive: Archive,
    ledger: File,
    gate: u64,
    recorded: usize,
    digests: Vec<Digest>,
    slots: [Option<Upload>; 16],
}

impl Session {
    fn new(folder: &str, shape: Shape) -> Result<Session> {
        let archive = Archive::new(folder, shape)?;
        let ledger = File::create(format!("{folder}/ledger.aea"))?;
        let mut bytes = archive.header();
        bytes.extend(b"\x01\x04\x00\x00\x00\x04\x00\x10\x00\x00");
        let gate = bytes.len() as u64;
        bytes.push(0);
        ledger.write_all_at(&bytes, 0)?;
        ledger.sync_all()?;
        sync_folders(folder, &archive.shape)?;
        File::open(folder)?.sync_all()?;
        Ok(Session { archive, ledger, gate, recorded: 0, digests: Vec::new(), slots: [const { None }; 16] })
    }

    /// Adds the node of the block that an upload has filled.
    fn add_node(&mut self, upload: &mut Upload) -> Result<()> {
        self.archive.block[..upload.filled].copy_from_slice(&upload.rest[..upload.filled]);
        self.archive.block[upload.filled..].fill(0);
        upload.filled = 0;
        self.archive.add_node(&mut self.digests)?;
        let node = self.archive.nodes as u32;
        match upload.parts.last_mut() {
            Some((first, count)) if *first + *count == node => *count += 1,
            _ => upload.parts.push((node, 1)),
        }
        Ok(())
    }

    fn chunk(&mut self, upload: &mut Upload, mut bytes: &[u8]) -> Result<()> {
        upload.hash.update(bytes);
        upload.length += bytes.len() as u64;
        while upload.filled + bytes.len() >= upload.rest.len() {
            let (more, behind) = bytes.split_at(upload.rest.len() - upload.filled);
            upload.rest[upload.filled..].copy_from_slice(more);
            (upload.filled, bytes) = (upload.rest.len(), behind);
            self.add_node(upload)?;
        }
        upload.rest[upload.filled..upload.filled + bytes.len()].copy_from_slice(bytes);
        upload.filled += bytes.len();
        Ok(())
    }

    /// Stores the object of an upload, by the three steps of an ingest; gives what its reply tells.
    fn close(&mut self, mut upload: Upload) -> Result<Vec<u8>> {
        if upload.filled > 0 {
            self.add_node(&mut upload)?;
        }
        self.archive.sync()?;
        let (new, digest) = (self.archive.nodes - self.recorded, upload.hash.finish());
        let mut bytes = vec![3];
        bytes.extend(((54 + upload.name.len() + 8 * upload.parts.len() + 32 * self.digests.len()) as u32).to_be_bytes());
        bytes.extend((upload.name.len() as u16).to_be_bytes());
        bytes.extend(&upload.name);
        bytes.extend(upload.length.to_be_bytes());
        bytes.extend(digest);
        for number in [self.recorded as u32 + 1, new as u32, upload.parts.len() as u32].iter() {
            bytes.extend(number.to_be_bytes());
        }
        for (first, count) in &upload.parts {
            bytes.extend(first.to_be_bytes());
            bytes.extend(count.to_be_bytes());
        }
        self.ledger.write_all_at(&bytes, self.gate + 1)?;
        self.ledger.write_all_at(self.digests.as_flattened(), self.gate + 1 + bytes.len() as u64)?;
        let end = self.gate + 1 + (bytes.len() + 32 * self.digests.len()) as u64;
        self.ledger.write_all_at(&[0], end)?;
        self.ledger.sync_all()?;
        self.ledger.write_all_at(&[1], self.gate)?;
        self.ledger.sync_all()?;
        (self.gate, self.recorded) = (end, self.archive.nodes);
        self.digests.clear();
        let nodes: u32 = upload.parts.iter().map(|(_, count)| count).sum();
        Ok([&nodes.to_be_bytes()[..], &upload.length.to_be_bytes(), &digest].concat())
    }

    /// Takes a message, whose kind and slot were read; gives the code and the body of its reply.
    fn take(&mut self, kind: u8, slot: usize, input: &mut impl Read, chunk: &mut Vec<u8>) -> Result<(u8, Vec<u8>)> {
        let (mut two, mut four) = ([0; 2], [0; 4]);
        match kind {
            1 => {
                input.read_exact(&mut two)?;
                let mut name = vec![0; usize::from(u16::from_be_bytes(two))];
                input.read_exact(&mut name)?;
                let rest = vec![0; self.archive.shape.block];
                self.slots[slot] = Some(Upload { name, hash: Sha256::new(), length: 0, filled: 0, rest, parts: Vec::new() });
                Ok((0, Vec::new()))
            }
            2 => {
                input.read_exact(&mut four)?;
                chunk.resize(u32::from_be_bytes(four) as usize, 0);
                input.read_exact(chunk)?;
                let Some(mut upload) = self.slots[slot].take() else {
                    return Ok((3, Vec::new()));
                };
                self.chunk(&mut upload, chunk)?;
                self.slots[slot] = Some(upload);
                Ok((0, Vec::new()))
            }
            3 | 4 => match self.slots[slot].take() {
                None => Ok((3, Vec::new())),
                Some(upload) if kind == 3 => Ok((0, self.close(upload)?)),
                Some(_) => Ok((0, Vec::new())),
            },
            _ => Err(ErrorKind::InvalidInput.into()),
        }
    }
}

/// Takes messages to the end of the input.
fn session(folder: &str, shape: Shape) -> Result<()> {
    let mut session = Session::new(folder, shape)?;
    let (mut input, mut out, mut chunk) = (BufReader::with_capacity(8192, stdin().lock()), stdout().lock(), Vec::new());
    let mut begin = [0; 2];
    while fill(&mut input, &mut begin)? == 2 {
        let (code, body) = session.take(begin[0], usize::from(begin[1]), &mut input, &mut chunk)?;
        out.write_all(&[&[begin[0], code], &body[..]].concat())?;
        out.flush()?;
    }
    Ok(())
}

fn main() -> Result<()> {
    let words: Vec<String> = std::env::args().skip(1).collect();
    if words[0] == "hash" {
        let (mut hash, mut bytes) = (Sha256::new(), vec![0; 65536]);
        loop {
            let count = fill(&mut stdin().lock(), &mut bytes)?;
            hash.update(&bytes[..count]);
            if count < bytes.len() {
                break;
            }
        }
        println!("{}", hex(hash.finish()));
        return Ok(());
    }
    let number = |k: usize| words[k].parse::<usize>().unwrap();
    let lattice = Lattice { alpha: number(2), s: number(3), p: number(4) };
    let shape = Shape { lattice, block: number(5), sites: number(6) };
    if words[0] == "frames" {
        return ingest(&words[1], shape);
    }
    if words[0] == "session" {
        return session(&words[1], shape);
    }
    put(&words[1], shape, words[7] == "1", &words[8])
}
