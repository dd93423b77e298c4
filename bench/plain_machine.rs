//! The machine of a session over data in memory, by docs/FORMATS.md: what each message does, and the reply to it. It keeps the cells
//! and the ledger that the archive has to have, byte for byte. `bench/traffic.rs` compares the program with it.

use crate::plain_archive::{Lattice, head, home, site_file, site_folder};
use crate::plain_sha256::{Digest, digest};
use std::collections::BTreeMap;
use std::fs::{create_dir_all, write};
use std::io::Result;

pub const SLOTS: usize = 16;
pub const GREATEST_CHUNK: usize = 65536;
pub const GREATEST_PATROL: u64 = 4096;
/// The most nodes of an archive whose limit was raised, and the most objects.
pub const LIMIT: usize = 1 << 20;
pub const MOST_OBJECTS: usize = 65536;

#[derive(Clone, Copy)]
pub struct Shape {
    pub lattice: Lattice,
    pub block: usize,
    pub sites: usize,
}

/// A message. One with another kind, or whose chunk is too long, begins none.
pub enum Message {
    Open { slot: u8, name: Vec<u8> },
    Chunk { slot: u8, bytes: Vec<u8> },
    Close { slot: u8 },
    Abort { slot: u8 },
    Read { name: Vec<u8> },
    Patrol { first: u32, count: u32 },
}

impl Message {
    pub fn kind(&self) -> u8 {
        match self {
            Message::Open { .. } => 1,
            Message::Chunk { .. } => 2,
            Message::Close { .. } => 3,
            Message::Abort { .. } => 4,
            Message::Read { .. } => 5,
            Message::Patrol { .. } => 6,
        }
    }

    /// What it is, in a word.
    pub fn word(&self) -> &'static str {
        ["open", "chunk", "close", "abort", "read", "patrol"][usize::from(self.kind()) - 1]
    }

    /// Its bytes.
    pub fn spelled(&self) -> Vec<u8> {
        let mut bytes = vec![self.kind()];
        match self {
            Message::Open { slot, name } => {
                bytes.push(*slot);
                bytes.extend((name.len() as u16).to_be_bytes());
                bytes.extend(name);
            }
            Message::Chunk { slot, bytes: chunk } => {
                bytes.push(*slot);
                bytes.extend((chunk.len() as u32).to_be_bytes());
                bytes.extend(chunk);
            }
            Message::Close { slot } | Message::Abort { slot } => bytes.push(*slot),
            Message::Read { name } => {
                bytes.extend((name.len() as u16).to_be_bytes());
                bytes.extend(name);
            }
            Message::Patrol { first, count } => {
                bytes.extend(first.to_be_bytes());
                bytes.extend(count.to_be_bytes());
            }
        }
        bytes
    }
}

pub struct Object {
    pub bytes: Vec<u8>,
    pub nodes: Vec<usize>,
}

pub struct Upload {
    pub name: Vec<u8>,
    pub bytes: Vec<u8>,
    pub nodes: Vec<usize>,
}

/// The archive behind a record: how long its ledger is, how many nodes it has, and the name of the record's object.
pub struct Commit {
    pub ledger: usize,
    pub nodes: usize,
    pub name: Vec<u8>,
}

pub struct Machine {
    pub shape: Shape,
    /// The ledger before the gate that ends it.
    pub ledger: Vec<u8>,
    pub objects: BTreeMap<Vec<u8>, Object>,
    /// The cells of all blocks, of those that are recorded and of those woven since.
    pub cells: Vec<u8>,
    pub recorded: usize,
    pub slots: [Option<Upload>; SLOTS],
    /// The commits of this session.
    pub commits: Vec<Commit>,
    fences: Vec<usize>,
    heads: Vec<u8>,
}

/// Whether an object may have the name.
pub fn is_name(name: &[u8]) -> bool {
    (1..256).contains(&name.len()) && std::str::from_utf8(name).is_ok() && !name.iter().any(|byte| *byte < 32 || *byte == 127)
}

/// The longest runs of nodes that follow each other: the first of each, and how many they are.
fn runs_of(nodes: &[usize]) -> Vec<(usize, usize)> {
    let mut runs: Vec<(usize, usize)> = Vec::new();
    for node in nodes {
        match runs.last_mut() {
            Some((first, count)) if *first + *count == *node => *count += 1,
            _ => runs.push((*node, 1)),
        }
    }
    runs
}

impl Machine {
    /// An archive whose limit was raised, with no object.
    pub fn new(shape: Shape) -> Machine {
        let mut ledger = b"\x01AEALEDG1".to_vec();
        let Lattice { alpha, s, p } = shape.lattice;
        ledger.extend([alpha as u8, s as u8, p as u8, shape.sites as u8]);
        ledger.extend((shape.block as u32).to_be_bytes());
        ledger.extend(b"\x01\x04\x00\x00\x00\x04\x00\x10\x00\x00");
        let heads = vec![0; shape.lattice.strands() * shape.block];
        Machine {
            shape,
            ledger,
            objects: BTreeMap::new(),
            cells: Vec::new(),
            recorded: 0,
            slots: [const { None }; SLOTS],
            commits: Vec::new(),
            fences: Vec::new(),
            heads,
        }
    }

    pub fn size(&self) -> usize {
        self.shape.block + 48
    }

    pub fn classes(&self) -> usize {
        self.shape.lattice.classes()
    }

    /// How many nodes there are, with those woven since the last commit.
    pub fn nodes(&self) -> usize {
        self.cells.len() / self.size() / self.classes()
    }

    /// How many blocks are recorded.
    pub fn blocks(&self) -> usize {
        self.recorded * self.classes()
    }

    pub fn cell(&self, number: usize) -> &[u8] {
        &self.cells[number * self.size()..(number + 1) * self.size()]
    }

    pub fn last_fence(&self) -> usize {
        self.fences.last().copied().unwrap_or(0)
    }

    /// The last parity of each strand: the numbers of their blocks.
    pub fn last_parities(&self) -> Vec<usize> {
        let lattice = &self.shape.lattice;
        let (mut seen, mut numbers) = (vec![false; lattice.strands()], Vec::new());
        for node in (self.last_fence() + 1..=self.recorded).rev() {
            for class in 1..=lattice.alpha {
                if !std::mem::replace(&mut seen[lattice.strand(node, class)], true) {
                    numbers.push(lattice.number(node, class));
                }
            }
            if numbers.len() == lattice.strands() {
                break;
            }
        }
        numbers.sort();
        numbers
    }

    /// A session begins: what was woven since the last commit is gone, and the slots are free.
    pub fn begin(&mut self) {
        self.cells.truncate(self.blocks() * self.size());
        self.slots = [const { None }; SLOTS];
        self.heads.fill(0);
        for number in self.last_parities() {
            let (node, class) = self.shape.lattice.node_and_class(number);
            let from = self.shape.lattice.strand(node, class) * self.shape.block;
            let at = number * self.size() + 16;
            self.heads[from..from + self.shape.block].copy_from_slice(&self.cells[at..at + self.shape.block]);
        }
        self.commits = vec![Commit { ledger: self.ledger.len(), nodes: self.recorded, name: Vec::new() }];
    }

    /// The archive is that behind this commit of the session, and a session begins.
    pub fn go_back(&mut self, commit: usize) {
        for later in self.commits.split_off(commit + 1) {
            self.objects.remove(&later.name);
        }
        let last = &self.commits[commit];
        (self.recorded, self.ledger) = (last.nodes, self.ledger[..last.ledger].to_vec());
        self.begin();
    }

    /// Adds a node with this datum.
    fn weave(&mut self, payload: &[u8]) -> usize {
        let (node, block) = (self.nodes() + 1, self.shape.block);
        for class in 0..self.classes() {
            let at = self.cells.len();
            self.cells.extend(head(node, class));
            if class == 0 {
                self.cells.extend(payload);
                self.cells.resize(at + 16 + block, 0);
            } else {
                let from = self.shape.lattice.strand(node, class) * block;
                for (byte, other) in self.heads[from..].iter_mut().zip(payload) {
                    *byte ^= other;
                }
                self.cells.extend(&self.heads[from..from + block]);
            }
            let digest = digest(&self.cells[at..]);
            self.cells.extend(digest);
        }
        node
    }

    /// Weaves what bytes fill, and what is left where this is the end; gives the nodes.
    fn weave_all(&mut self, bytes: &[u8]) -> Vec<usize> {
        bytes.chunks(self.shape.block).map(|payload| self.weave(payload)).collect()
    }

    /// Adds a record of an object, whose parts are told where it is of a session.
    fn record(&mut self, name: &[u8], object: Object, in_parts: bool) {
        let (new, runs) = (self.nodes() - self.recorded, runs_of(&object.nodes));
        let mut rest = (name.len() as u16).to_be_bytes().to_vec();
        rest.extend(name);
        rest.extend((object.bytes.len() as u64).to_be_bytes());
        rest.extend(digest(&object.bytes));
        rest.extend((self.recorded as u32 + 1).to_be_bytes());
        rest.extend((new as u32).to_be_bytes());
        if in_parts {
            rest.extend((runs.len() as u32).to_be_bytes());
            for (first, count) in runs {
                rest.extend((first as u32).to_be_bytes());
                rest.extend((count as u32).to_be_bytes());
            }
        }
        for number in self.blocks()..self.nodes() * self.classes() {
            let end = (number + 1) * self.size();
            rest.extend(&self.cells[end - 32..end]);
        }
        self.ledger.extend([1, if in_parts { 3 } else { 1 }]);
        self.ledger.extend((rest.len() as u32).to_be_bytes());
        self.ledger.extend(rest);
        self.recorded = self.nodes();
        self.objects.insert(name.to_vec(), object);
    }

    /// Stores an object as `aea put` does.
    pub fn put(&mut self, name: &[u8], bytes: &[u8]) {
        self.begin();
        let nodes = self.weave_all(bytes);
        self.record(name, Object { bytes: bytes.to_vec(), nodes }, false);
    }

    /// Adds a fence behind the last node, where one may be there.
    pub fn fence(&mut self) -> bool {
        if self.recorded == self.last_fence() || self.fences.len() == 16 {
            return false;
        }
        self.ledger.extend(b"\x01\x02\x00\x00\x00\x04");
        self.ledger.extend((self.recorded as u32).to_be_bytes());
        self.fences.push(self.recorded);
        self.begin();
        true
    }

    /// Writes the files of the archive.
    pub fn write(&self, folder: &str) -> Result<()> {
        write(format!("{folder}/ledger.aea"), [&self.ledger[..], &[0]].concat())?;
        let mut files = vec![Vec::new(); self.shape.sites];
        for (number, cell) in self.cells.chunks(self.size()).enumerate() {
            let (site, place) = home(number, self.shape.sites, self.size());
            files[site].resize(place as usize, 0);
            files[site].extend(cell);
        }
        for (site, file) in files.iter().enumerate().filter(|(_, file)| !file.is_empty()) {
            create_dir_all(site_folder(folder, site))?;
            write(site_file(folder, site), file)?;
        }
        Ok(())
    }

    /// What `aea list` prints.
    pub fn listed(&self) -> Vec<u8> {
        let mut lines = Vec::new();
        for (name, object) in &self.objects {
            lines.extend(format!("{} {} ", object.bytes.len(), crate::plain_sha256::hex(digest(&object.bytes))).bytes());
            lines.extend(name);
            lines.push(b'\n');
        }
        lines
    }

    // the steps of the machine

    /// Does what a message asks for, where these recorded blocks are damaged; gives the reply.
    pub fn take(&mut self, message: &Message, is_damaged: impl Fn(usize) -> bool) -> Vec<u8> {
        let (code, body) = match message {
            Message::Open { slot, name } => (self.open(usize::from(*slot), name), Vec::new()),
            Message::Chunk { slot, bytes } => self.chunk(usize::from(*slot), bytes),
            Message::Close { slot } => self.close(usize::from(*slot)),
            Message::Abort { slot } => (self.abort(usize::from(*slot)), Vec::new()),
            Message::Read { name } => self.read(name, is_damaged),
            Message::Patrol { first, count } => self.patrol(u64::from(*first), u64::from(*count), is_damaged),
        };
        [&[message.kind(), code], &body[..]].concat()
    }

    fn open(&mut self, slot: usize, name: &[u8]) -> u8 {
        if slot >= SLOTS {
            1
        } else if self.slots[slot].is_some() {
            2
        } else if !is_name(name) {
            4
        } else if self.objects.contains_key(name) {
            5
        } else if self.slots.iter().flatten().any(|upload| upload.name == name) {
            6
        } else {
            self.slots[slot] = Some(Upload { name: name.to_vec(), bytes: Vec::new(), nodes: Vec::new() });
            0
        }
    }

    /// The code where no upload is in the slot.
    fn without(&self, slot: usize) -> Option<u8> {
        if slot >= SLOTS { Some(1) } else if self.slots[slot].is_none() { Some(3) } else { None }
    }

    /// The answer where so many nodes more do not fit.
    fn full(&self, more: usize) -> Option<(u8, Vec<u8>)> {
        (self.nodes() + more > LIMIT).then(|| (7, (self.nodes() as u32).to_be_bytes().to_vec()))
    }

    fn chunk(&mut self, slot: usize, bytes: &[u8]) -> (u8, Vec<u8>) {
        if let Some(code) = self.without(slot) {
            return (code, Vec::new());
        }
        let block = self.shape.block;
        let mut upload = self.slots[slot].take().unwrap();
        let (filled, fills) = (upload.bytes.len() / block, (upload.bytes.len() + bytes.len()) / block);
        let answer = self.full(fills - filled).unwrap_or_else(|| {
            upload.bytes.extend(bytes);
            upload.nodes.extend(self.weave_all(&upload.bytes[filled * block..fills * block]));
            (0, Vec::new())
        });
        self.slots[slot] = Some(upload);
        answer
    }

    fn close(&mut self, slot: usize) -> (u8, Vec<u8>) {
        if let Some(code) = self.without(slot) {
            return (code, Vec::new());
        }
        if self.objects.len() == MOST_OBJECTS {
            return (8, Vec::new());
        }
        let length = self.slots[slot].as_ref().unwrap().bytes.len();
        let rest = length % self.shape.block;
        if let Some(answer) = self.full(rest.min(1)) {
            return answer;
        }
        let Upload { name, bytes, mut nodes } = self.slots[slot].take().unwrap();
        nodes.extend(self.weave_all(&bytes[length - rest..]));
        let digest: Digest = digest(&bytes);
        let body = [&(nodes.len() as u32).to_be_bytes()[..], &(length as u64).to_be_bytes(), &digest].concat();
        self.record(&name, Object { bytes, nodes }, true);
        self.commits.push(Commit { ledger: self.ledger.len(), nodes: self.recorded, name });
        (0, body)
    }

    fn abort(&mut self, slot: usize) -> u8 {
        self.without(slot).unwrap_or_else(|| {
            self.slots[slot] = None;
            0
        })
    }

    fn read(&self, name: &[u8], is_damaged: impl Fn(usize) -> bool) -> (u8, Vec<u8>) {
        let Some(object) = self.objects.get(name) else {
            return (9, Vec::new());
        };
        let mut data = object.nodes.iter().map(|node| self.shape.lattice.number(*node, 0));
        match data.find(|number| is_damaged(*number)) {
            Some(number) => (10, (number as u32).to_be_bytes().to_vec()),
            None => (0, [&(object.bytes.len() as u64).to_be_bytes()[..], &object.bytes].concat()),
        }
    }

    fn patrol(&self, first: u64, count: u64, is_damaged: impl Fn(usize) -> bool) -> (u8, Vec<u8>) {
        if count == 0 || count > GREATEST_PATROL || first + count > self.blocks() as u64 {
            return (11, Vec::new());
        }
        let damaged: Vec<u32> = (first..first + count).filter(|number| is_damaged(*number as usize)).map(|number| number as u32).collect();
        let numbers = std::iter::once(damaged.len() as u32).chain(damaged.iter().copied());
        (0, numbers.flat_map(u32::to_be_bytes).collect())
    }
}
