//! Random traffic for `aea session`, compared reply by reply with a plain machine (`plain_machine.rs`); `bench/traffic` says what it does.
//!
//! `traffic PROGRAM FOLDER SEED BEGIN SESSIONS MESSAGES A S P B M` makes an archive in the empty folder, lets so many sessions of at
//! most so many messages go over it, and prints what it did, `COUNT WHAT` a line, and for each failure what differed. BEGIN is `empty`,
//! `full` for an archive that has nearly as many nodes as there may be, and `many` for one with nearly as many objects.

mod plain_archive;
mod plain_machine;
mod plain_sha256;

use plain_archive::{Lattice, home, site_file};
use plain_machine::{GREATEST_CHUNK, GREATEST_PATROL, LIMIT, MOST_OBJECTS, Machine, Message, SLOTS, Shape};
use std::collections::BTreeMap;
use std::convert::TryInto;
use std::ffi::OsStr;
use std::fs::{File, OpenOptions, read};
use std::io::{ErrorKind, Read, Write};
use std::os::unix::ffi::OsStrExt;
use std::os::unix::fs::FileExt;
use std::process::{Child, ChildStdout, Command, Stdio, exit};
use std::sync::atomic::{AtomicI32, AtomicU64, Ordering};
use std::sync::mpsc::{Sender, channel};
use std::thread::{JoinHandle, sleep, spawn};
use std::time::{Duration, Instant};

/// After so many seconds without an answer a program is one that does not end.
const SECONDS: u64 = 300;

unsafe extern "C" {
    fn kill(process: i32, signal: i32) -> i32;
}

/// What differs from the plain machine.
type Wrong = String;

// ---- chance

struct Chance(u64);

impl Chance {
    fn next(&mut self) -> u64 {
        self.0 = self.0.wrapping_add(0x9e3779b97f4a7c15);
        let mut word = self.0;
        word = (word ^ word >> 30).wrapping_mul(0xbf58476d1ce4e5b9);
        word = (word ^ word >> 27).wrapping_mul(0x94d049bb133111eb);
        word ^ word >> 31
    }

    /// A number below this one.
    fn below(&mut self, end: usize) -> usize {
        (self.next() % end as u64) as usize
    }

    /// So often in a hundred.
    fn is(&mut self, percent: usize) -> bool {
        self.below(100) < percent
    }

    fn of<T: Clone>(&mut self, all: &[T]) -> T {
        all[self.below(all.len())].clone()
    }

    fn bytes(&mut self, count: usize) -> Vec<u8> {
        (0..count).map(|_| self.next() as u8).collect()
    }
}

// ---- a program that runs

/// When the program that runs last gave something, in seconds since the start, and its process: none where it is 0.
static HEARD: AtomicU64 = AtomicU64::new(0);
static WATCHED: AtomicI32 = AtomicI32::new(0);

/// Ends a program that does not end by itself.
fn watch() {
    let began = Instant::now();
    spawn(move || {
        loop {
            sleep(Duration::from_secs(1));
            let (process, now) = (WATCHED.load(Ordering::SeqCst), began.elapsed().as_secs());
            if process == 0 || HEARD.load(Ordering::SeqCst) == 0 {
                HEARD.store(now.max(1), Ordering::SeqCst);
            } else if now - HEARD.load(Ordering::SeqCst) > SECONDS {
                eprintln!("{process} gives no answer, and is ended");
                unsafe { kill(process, 9) };
                HEARD.store(0, Ordering::SeqCst);
            }
        }
    });
}

fn heard() {
    HEARD.store(0, Ordering::SeqCst);
}

/// How a run of the program ended: its status, or none where it was killed, and what it printed.
type Ended = (Option<i32>, Vec<u8>, Vec<u8>);

fn shown(ended: &Ended) -> String {
    format!("status {:?}, output {}, error {:?}", ended.0, shortened(&ended.1), String::from_utf8_lossy(&ended.2))
}

fn shortened(bytes: &[u8]) -> String {
    let hex = |part: &[u8]| part.iter().map(|byte| format!("{byte:02x}")).collect::<String>();
    if bytes.len() < 80 { hex(bytes) } else { format!("{}..{} ({} bytes)", hex(&bytes[..40]), hex(&bytes[bytes.len() - 20..]), bytes.len()) }
}

/// Runs a command that is no session.
fn run(program: &str, folder: &str, words: &[&[u8]], input: &[u8]) -> Ended {
    let mut child = Command::new(program)
        .args(words.iter().map(|word| OsStr::from_bytes(word)))
        .current_dir(folder)
        .stdin(Stdio::piped())
        .stdout(Stdio::piped())
        .stderr(Stdio::piped())
        .spawn()
        .unwrap();
    WATCHED.store(child.id() as i32, Ordering::SeqCst);
    let (mut stdin, bytes) = (child.stdin.take().unwrap(), input.to_vec());
    let writer = spawn(move || stdin.write_all(&bytes).is_ok());
    let ended = child.wait_with_output().unwrap();
    WATCHED.store(0, Ordering::SeqCst);
    let _ = writer.join();
    (ended.status.code(), ended.stdout, ended.stderr)
}

/// A session that runs. What is sent goes through a thread of its own, so that replies are taken meanwhile.
struct Running {
    child: Child,
    input: Option<Sender<Vec<u8>>>,
    writer: Option<JoinHandle<()>>,
    output: Option<ChildStdout>,
    sent: usize,
}

impl Running {
    /// Begins one whose input comes in pieces of at most so many bytes.
    fn new(program: &str, folder: &str, most: usize) -> Running {
        let mut child = Command::new(program)
            .arg("session")
            .current_dir(folder)
            .stdin(Stdio::piped())
            .stdout(Stdio::piped())
            .stderr(Stdio::piped())
            .spawn()
            .unwrap();
        heard();
        WATCHED.store(child.id() as i32, Ordering::SeqCst);
        let (input, pieces) = channel::<Vec<u8>>();
        let (mut stdin, output) = (child.stdin.take().unwrap(), child.stdout.take());
        let writer = spawn(move || {
            for bytes in pieces {
                for piece in bytes.chunks(most) {
                    // it may have ended
                    if stdin.write_all(piece).is_err() {
                        return;
                    }
                }
            }
        });
        Running { child, input: Some(input), writer: Some(writer), output, sent: 0 }
    }

    fn send(&mut self, bytes: Vec<u8>) {
        self.sent += bytes.len();
        let _ = self.input.as_ref().unwrap().send(bytes);
    }

    /// The next replies: so many bytes, or what there is of them before the end.
    fn take(&mut self, count: usize) -> Vec<u8> {
        let (mut bytes, mut filled) = (vec![0; count], 0);
        while filled < count {
            match self.output.as_mut().unwrap().read(&mut bytes[filled..]) {
                Ok(0) => break,
                Ok(more) => filled += more,
                Err(fault) if fault.kind() == ErrorKind::Interrupted => (),
                Err(_) => break,
            }
        }
        heard();
        bytes.truncate(filled);
        bytes
    }

    /// Nothing more is sent.
    fn end_input(&mut self) {
        self.input = None;
    }

    /// Waits for its end: how it ended, and what it gave beyond the replies that were taken.
    fn end(mut self) -> Ended {
        self.end_input();
        let (mut out, mut err) = (Vec::new(), Vec::new());
        if let Some(output) = &mut self.output {
            let _ = output.read_to_end(&mut out);
        }
        let _ = self.child.stderr.take().unwrap().read_to_end(&mut err);
        let status = self.child.wait().unwrap().code();
        WATCHED.store(0, Ordering::SeqCst);
        let _ = self.writer.take().unwrap().join();
        (status, out, err)
    }
}

// ---- the client

struct Client {
    program: String,
    folder: String,
    chance: Chance,
    machine: Machine,
    /// What is changed in the cells of blocks: the places in the file of the site, and by which XOR.
    damage: BTreeMap<usize, Vec<(u64, u8)>>,
    counts: BTreeMap<String, u64>,
    /// Seconds that a message took so far, and how many they were.
    took: (f64, f64),
}

impl Client {
    fn count(&mut self, what: &str, more: usize) {
        *self.counts.entry(what.to_string()).or_default() += more as u64;
    }

    fn told(&mut self, words: &[&[u8]], input: &[u8], wanted: Ended) -> Result<(), Wrong> {
        let told = run(&self.program, &self.folder, words, input);
        self.count(&format!("runs of {}", String::from_utf8_lossy(words[0])), 1);
        let line = words.iter().map(|word| String::from_utf8_lossy(word)).collect::<Vec<_>>().join(" ");
        if told == wanted { Ok(()) } else { Err(format!("{line}: {}; wanted {}", shown(&told), shown(&wanted))) }
    }

    fn text(&self, number: usize) -> String {
        self.machine.shape.lattice.text(number).to_string()
    }

    // damage

    fn open_site(&self, number: usize) -> (File, u64) {
        let (site, place) = home(number, self.machine.shape.sites, self.machine.size());
        (OpenOptions::new().read(true).write(true).open(site_file(&self.folder, site)).unwrap(), place)
    }

    fn flip(&mut self, number: usize, places: &[(u64, u8)]) {
        let (file, _) = self.open_site(number);
        for (place, mask) in places {
            let mut byte = [0];
            file.read_exact_at(&mut byte, *place).unwrap();
            file.write_all_at(&[byte[0] ^ mask], *place).unwrap();
        }
    }

    /// Changes some bytes of a cell, of a block that is recorded or woven since.
    fn damage_one(&mut self) {
        let blocks = self.machine.nodes() * self.machine.classes();
        if blocks == 0 {
            return;
        }
        let number = if self.chance.is(50) { self.chance.below(blocks) } else { blocks - 1 - self.chance.below(blocks.min(40)) };
        if self.damage.contains_key(&number) {
            return;
        }
        let (_, place) = home(number, self.machine.shape.sites, self.machine.size());
        let mut places: BTreeMap<u64, u8> = BTreeMap::new();
        for _ in 0..self.chance.of(&[1, 1, 1, 3]) {
            places.insert(place + self.chance.below(self.machine.size()) as u64, 1 + self.chance.below(255) as u8);
        }
        let places: Vec<(u64, u8)> = places.into_iter().collect();
        self.flip(number, &places);
        self.count(if number < self.machine.blocks() { "cells damaged" } else { "cells damaged before their record" }, 1);
        self.damage.insert(number, places);
    }

    fn mend(&mut self, number: usize) {
        if let Some(places) = self.damage.remove(&number) {
            self.flip(number, &places);
            self.count("cells mended", 1);
        }
    }

    fn mend_some(&mut self, percent: usize) {
        for number in self.damage.keys().copied().collect::<Vec<_>>() {
            if self.chance.is(percent) {
                self.mend(number);
            }
        }
    }

    /// Whether the homes of these blocks hold their cells, with the damage that was done.
    fn look(&mut self, from: usize, to: usize) -> Result<(), Wrong> {
        let (sites, size) = (self.machine.shape.sites, self.machine.size());
        let files: Vec<Vec<u8>> = if to - from > 4 * sites { (0..sites).map(|site| read(site_file(&self.folder, site)).unwrap_or_default()).collect() } else { Vec::new() };
        for number in from..to {
            let (site, place) = home(number, sites, size);
            let mut cell = vec![0; size];
            let is_there = match files.get(site) {
                Some(file) => file.get(place as usize..place as usize + size).map(|bytes| cell.copy_from_slice(bytes)).is_some(),
                None => File::open(site_file(&self.folder, site)).and_then(|file| file.read_exact_at(&mut cell, place)).is_ok(),
            };
            for (at, mask) in self.damage.get(&number).into_iter().flatten() {
                cell[(at - place) as usize] ^= mask;
            }
            if !is_there || cell != self.machine.cell(number) {
                return Err(format!("the home of {} has {} and not {}", self.text(number), shortened(&cell), shortened(self.machine.cell(number))));
            }
        }
        self.count("cells compared", to - from);
        Ok(())
    }

    // messages

    fn name(&mut self) -> Vec<u8> {
        let taken: Vec<&Vec<u8>> = self.machine.objects.keys().collect();
        let open: Vec<&Vec<u8>> = self.machine.slots.iter().flatten().map(|upload| &upload.name).collect();
        match self.chance.below(100) {
            0..8 if !taken.is_empty() => self.chance.of(&taken).clone(),
            8..14 if !open.is_empty() => self.chance.of(&open).clone(),
            14..24 => {
                let long = self.chance.of(&[256, 257, 1000, 65535]);
                let bad: [&[u8]; 12] = [
                    b"", b"\0", b"a\nb", b"\x7f", b"a\x1f", b"\xff\xfe", b"a\xc0\x80", b"\xed\xa0\x80", b"\xf4\x90\x80\x80", b"\xe4\xb8", b"a\x80", b"",
                ];
                if self.chance.is(30) { self.chance.bytes(long) } else if self.chance.is(20) { vec![b'a'; long] } else { self.chance.of(&bad).to_vec() }
            }
            _ => {
                let letters = ["a", "b", "z", "0", " ", "/", ".", "~", "\u{80}", "\u{e4}", "\u{4e2d}", "\u{1f600}", "\u{ffff}"];
                let many = self.chance.of(&[1, 2, 2, 3, 3, 8, 63]);
                let name: String = (0..many).map(|_| self.chance.of(&letters)).collect();
                name.into_bytes()
            }
        }
    }

    /// A slot that has an upload, or none, mostly as is asked for; some are no slot.
    fn slot(&mut self, with_upload: bool) -> u8 {
        let fitting: Vec<u8> = (0..SLOTS as u8).filter(|slot| self.machine.slots[usize::from(*slot)].is_some() == with_upload).collect();
        match self.chance.below(100) {
            0..4 => 16 + self.chance.below(240) as u8,
            4..14 => self.chance.below(SLOTS) as u8,
            _ if fitting.is_empty() => self.chance.below(SLOTS) as u8,
            _ => self.chance.of(&fitting),
        }
    }

    fn patrol(&mut self) -> Message {
        let blocks = self.machine.blocks() as u64;
        let (first, count) = match self.chance.below(10) {
            0 => (self.chance.below(blocks as usize + 2) as u64, 0),
            1 => (0, GREATEST_PATROL + 1),
            2 => (blocks, 1),
            3 => (self.chance.of(&[u64::from(u32::MAX), 1 << 31]), self.chance.of(&[1, 4096, u64::from(u32::MAX)])),
            4 => (blocks.saturating_sub(3), 4),
            5 => (blocks.saturating_sub(GREATEST_PATROL), blocks.min(GREATEST_PATROL)),
            _ => {
                let first = self.chance.below(blocks as usize + 1) as u64;
                (first, 1 + self.chance.below((blocks - first).min(GREATEST_PATROL) as usize + 1) as u64)
            }
        };
        Message::Patrol { first: first as u32, count: count as u32 }
    }

    fn chunk(&mut self) -> Message {
        let block = self.machine.shape.block;
        let size = match self.chance.below(100) {
            0..55 => self.chance.of(&[0, 1, block - 1, block, block + 1, 2 * block]),
            55..98 => self.chance.below(3 * block),
            _ => self.chance.below(GREATEST_CHUNK + 1),
        };
        Message::Chunk { slot: self.slot(true), bytes: self.chance.bytes(size.min(GREATEST_CHUNK)) }
    }

    fn message(&mut self) -> Message {
        match self.chance.below(100) {
            0..25 => Message::Open { slot: self.slot(false), name: self.name() },
            25..67 => self.chunk(),
            67..76 => Message::Close { slot: self.slot(true) },
            76..79 => Message::Abort { slot: self.slot(true) },
            79..91 => {
                let known: Vec<&Vec<u8>> = self.machine.objects.keys().collect();
                let name = if !known.is_empty() && self.chance.is(75) { self.chance.of(&known).clone() } else { self.name() };
                Message::Read { name }
            }
            _ => self.patrol(),
        }
    }

    /// Lets the machine take a message: the reply that has to come.
    fn take(&mut self, message: &Message) -> Vec<u8> {
        let damage = &self.damage;
        let reply = self.machine.take(message, |number| damage.contains_key(&number));
        self.count(&format!("messages, {} code {}", message.word(), reply[1]), 1);
        reply
    }

    /// Some messages at once, sent before a reply is taken; gives the replies.
    fn sent(&mut self, running: &mut Running, many: usize) -> Vec<Vec<u8>> {
        let (mut bytes, mut replies) = (Vec::new(), Vec::new());
        for _ in 0..many {
            let message = self.message();
            bytes.extend(message.spelled());
            replies.push(self.take(&message));
        }
        running.send(bytes);
        replies
    }

    fn compared(&mut self, running: &mut Running, replies: &[Vec<u8>]) -> Result<(), Wrong> {
        for wanted in replies {
            let told = running.take(wanted.len());
            if told != *wanted {
                return Err(format!("a reply is {} and not {}", shortened(&told), shortened(wanted)));
            }
        }
        Ok(())
    }

    // sessions

    /// Where a last parity is damaged no session begins.
    fn try_to_begin(&mut self) -> Result<(), Wrong> {
        let Some(number) = self.machine.last_parities().into_iter().find(|number| self.damage.contains_key(number)) else {
            return Ok(());
        };
        self.count("sessions that a damaged head refuses", 1);
        let line = format!("refused: head damaged {}\n", self.text(number));
        let message = self.message();
        self.told(&[b"session"], &message.spelled(), (Some(3), Vec::new(), line.into_bytes()))?;
        for number in self.machine.last_parities() {
            self.mend(number);
        }
        Ok(())
    }

    /// Messages, one after the other or some at once, with damage under way.
    fn traffic(&mut self, running: &mut Running, messages: usize) -> Result<(), Wrong> {
        let mut left = messages;
        // a session has begun once it has replied: up to then damage of a last parity may refuse it
        if left > 0 {
            let replies = self.sent(running, 1);
            self.compared(running, &replies)?;
            left -= 1;
        }
        while left > 0 {
            match self.chance.below(100) {
                0..8 => self.damage_one(),
                8..12 => self.mend_some(30),
                12..15 => self.look(self.machine.blocks(), self.machine.nodes() * self.machine.classes())?,
                _ => {
                    let many = if self.chance.is(80) { 1 } else { 1 + self.chance.below(left.min(40)) };
                    let replies = self.sent(running, many);
                    let began = Instant::now();
                    self.compared(running, &replies)?;
                    self.took = (self.took.0 + began.elapsed().as_secs_f64(), self.took.1 + many as f64);
                    left -= many;
                }
            }
        }
        Ok(())
    }

    /// The end of a session in one of several ways.
    fn end(&mut self, mut running: Running) -> Result<(), Wrong> {
        match self.chance.below(100) {
            0..25 => {
                self.count("sessions, to the end of the input", 1);
                self.ended(running, 0, String::new())
            }
            25..35 => {
                self.count("sessions, to a bad message", 1);
                let at = running.sent;
                let (bytes, place) = if self.chance.is(50) {
                    (vec![self.chance.of(&[0, 7, 8, 255])], at)
                } else {
                    let long = self.chance.of(&[65537, 1 << 24, u32::MAX]);
                    ([&[2, self.chance.below(20) as u8][..], &long.to_be_bytes()].concat(), at + 2)
                };
                let behind = self.chance.below(100);
                running.send([bytes, self.chance.bytes(behind)].concat());
                self.ended(running, 3, format!("refused: bad message at {place}\n"))
            }
            35..45 => {
                self.count("sessions, to a message that is cut", 1);
                let whole = self.message().spelled();
                let cut = whole.len().min(1 + self.chance.below(whole.len() - 1));
                running.send(whole[..cut].to_vec());
                let at = running.sent;
                self.ended(running, 3, format!("refused: bad stream at {at}\n"))
            }
            45..55 => {
                self.count("sessions, to an output that is closed", 1);
                running.output = None;
                let message = self.message();
                running.send(message.spelled());
                self.take(&message);
                self.ended(running, 6, "fault: output\n".to_string())
            }
            _ => self.killed(running),
        }
    }

    /// Waits for the end, which has to be this one.
    fn ended(&mut self, running: Running, status: i32, line: String) -> Result<(), Wrong> {
        let (told, wanted) = (running.end(), (Some(status), Vec::new(), line.into_bytes()));
        self.machine.begin();
        if told == wanted { Ok(()) } else { Err(format!("the session ended with {}; wanted {}", shown(&told), shown(&wanted))) }
    }

    /// Messages at once, and a kill at some moment. What of their replies stands tells how many closes there are, or it is one more.
    fn killed(&mut self, mut running: Running) -> Result<(), Wrong> {
        let (before, many) = (self.machine.commits.len() - 1, 1 + self.chance.below(30));
        let mut commits = Vec::new();
        let (mut bytes, mut wanted) = (Vec::new(), Vec::new());
        for _ in 0..many {
            let message = if self.chance.is(30) { Message::Close { slot: self.slot(true) } } else { self.message() };
            bytes.extend(message.spelled());
            let reply = self.take(&message);
            commits.push((wanted.len(), self.machine.commits.len() - 1));
            wanted.extend(reply);
        }
        running.send(bytes);
        let each = self.took.0 / self.took.1.max(1.0);
        sleep(Duration::from_secs_f64(each * self.chance.below(1000) as f64 / 1000.0 * (many + 1) as f64));
        let _ = running.child.kill();
        let (status, out, err) = running.end();
        if status.is_some() && out.len() < wanted.len() || !err.is_empty() || !wanted.starts_with(&out) {
            return Err(format!("killed: {}; wanted a first part of {}", shown(&(status, out, err)), shortened(&wanted)));
        }
        self.count(if status.is_none() { "sessions, to a kill" } else { "sessions, to a kill that came too late" }, 1);
        // the replies of which a byte stands, and the message behind them
        let stand = commits.iter().filter(|(at, _)| *at < out.len()).count();
        let least = if stand == 0 { before } else { commits[stand - 1].1 };
        let most = commits.get(stand).map_or(least, |it| it.1);
        let ledger = read(format!("{}/ledger.aea", self.folder)).unwrap();
        let is_there = |it: usize| {
            let end = self.machine.commits[it].ledger;
            ledger.starts_with(&self.machine.ledger[..end]) && ledger.get(end).is_some_and(|gate| *gate != 1)
        };
        let found: Vec<usize> = (least..=most).filter(|it| is_there(*it)).collect();
        match found[..] {
            [commit] => {
                self.count("closes before a kill that were not told", commit - least);
                self.machine.go_back(commit);
                Ok(())
            }
            _ => Err(format!("killed: {} to {} closes should be there, and the ledger has another", least, most)),
        }
    }

    /// What stands after a session: the ledger, all cells, and what the commands print.
    fn compare_all(&mut self) -> Result<(), Wrong> {
        // what was changed behind the archive is gone
        let blocks = self.machine.blocks();
        self.damage.retain(|number, _| *number < blocks);
        let ledger = read(format!("{}/ledger.aea", self.folder)).unwrap();
        let end = self.machine.ledger.len();
        if !ledger.starts_with(&self.machine.ledger) || ledger.get(end).is_none_or(|gate| *gate == 1) {
            return Err("the ledger is another one".to_string());
        }
        self.look(0, blocks)?;
        let listed = self.machine.listed();
        self.told(&[b"list"], b"", (Some(0), listed, Vec::new()))?;
        if blocks < 2000 {
            let mut lines: Vec<u8> = self.damage.keys().flat_map(|number| format!("damaged {}\n", self.text(*number)).into_bytes()).collect();
            lines.extend(format!("total {} damaged {}\n", blocks, self.damage.len()).bytes());
            self.told(&[b"scrub"], b"", (Some(if self.damage.is_empty() { 0 } else { 1 }), lines, Vec::new()))?;
        }
        let names: Vec<Vec<u8>> = self.machine.objects.keys().cloned().collect();
        for _ in 0..names.len().min(6) {
            let name = self.chance.of(&names);
            let object = &self.machine.objects[&name];
            if object.bytes.len() > 1 << 20 {
                continue;
            }
            let damaged = object.nodes.iter().map(|node| self.machine.shape.lattice.number(*node, 0)).find(|number| self.damage.contains_key(number));
            let wanted = match damaged {
                None => (Some(0), object.bytes.clone(), Vec::new()),
                Some(number) => (Some(3), Vec::new(), format!("refused: damaged {}\n", self.text(number)).into_bytes()),
            };
            self.told(&[b"get", &name], b"", wanted)?;
        }
        Ok(())
    }

    /// What other commands do between two sessions.
    fn between(&mut self) -> Result<(), Wrong> {
        if self.chance.is(50) {
            self.mend_some(60);
        }
        for number in self.machine.last_parities() {
            if self.chance.is(80) {
                self.mend(number);
            }
        }
        if self.chance.is(20) && self.machine.last_parities().iter().all(|number| !self.damage.contains_key(number)) {
            let (name, size) = (format!("put {}", self.chance.next()).into_bytes(), self.chance.below(4 * self.machine.shape.block));
            let bytes = self.chance.bytes(size);
            if self.machine.nodes() + 4 <= LIMIT && self.machine.objects.len() < MOST_OBJECTS {
                self.machine.put(&name, &bytes);
                let nodes = self.machine.objects[&name].nodes.len();
                let line = format!("stored {nodes} {size} {} ", plain_sha256::hex(plain_sha256::digest(&bytes)));
                self.told(&[b"put", &name], &bytes, (Some(0), [line.as_bytes(), &name, b"\n"].concat(), Vec::new()))?;
            }
        }
        if self.chance.is(15) && self.machine.fence() {
            let line = format!("fence {}\n", self.machine.recorded);
            self.told(&[b"fence"], b"", (Some(0), line.into_bytes(), Vec::new()))?;
        }
        Ok(())
    }

    fn session(&mut self, messages: usize) -> Result<(), Wrong> {
        self.machine.begin();
        self.try_to_begin()?;
        let most = self.chance.of(&[1, 7, 100, 1 << 20, 1 << 20, 1 << 20]);
        let mut running = Running::new(&self.program, &self.folder, most);
        let many = self.chance.below(messages + 1);
        if let Err(wrong) = self.traffic(&mut running, many) {
            let _ = running.child.kill();
            let ended = running.end();
            return Err(format!("{wrong}; {}", shown(&ended)));
        }
        self.end(running)?;
        self.compare_all()?;
        self.between()
    }

    /// Makes the archive: empty, or nearly full of nodes or of objects.
    fn make(&mut self, begin: &str) -> Result<(), Wrong> {
        let shape = self.machine.shape;
        let Lattice { alpha, s, p } = shape.lattice;
        let numbers = [alpha, s, p, shape.block, shape.sites].map(|number| number.to_string());
        let words: Vec<&[u8]> = std::iter::once(&b"create"[..]).chain(numbers.iter().map(|it| it.as_bytes())).collect();
        self.told(&words, b"", (Some(0), format!("created {}\n", numbers.join(" ")).into_bytes(), Vec::new()))?;
        self.told(&[b"session"], b"", (Some(3), Vec::new(), b"refused: not upgraded\n".to_vec()))?;
        self.told(&[b"upgrade"], b"", (Some(0), b"upgraded 1048576\n".to_vec(), Vec::new()))?;
        if begin == "full" {
            let (left, seed) = (self.chance.below(40), self.chance.bytes(shape.block * 16));
            self.machine.put(b"most", &seed.repeat(LIMIT / 16)[..(LIMIT - left) * shape.block]);
        }
        for k in 0..if begin == "many" { MOST_OBJECTS - self.chance.below(12) } else { 0 } {
            self.machine.put(format!("{k}").as_bytes(), b"");
        }
        if begin != "empty" {
            self.machine.write(&self.folder).map_err(|fault| fault.to_string())?;
        }
        Ok(())
    }
}

fn main() {
    let words: Vec<String> = std::env::args().skip(1).collect();
    let number = |k: usize| words[k].parse::<usize>().unwrap();
    let lattice = Lattice { alpha: number(6), s: number(7), p: number(8) };
    let machine = Machine::new(Shape { lattice, block: number(9), sites: number(10) });
    let seed = plain_sha256::digest(words[2].as_bytes());
    let chance = Chance(u64::from_be_bytes(seed[..8].try_into().unwrap()));
    let (program, folder) = (words[0].clone(), words[1].clone());
    let mut client = Client { program, folder, chance, machine, damage: BTreeMap::new(), counts: BTreeMap::new(), took: (0.0, 0.0) };
    watch();
    let mut wrong = client.make(&words[3]).err();
    for session in 0..number(4) {
        if wrong.is_none() {
            wrong = client.session(number(5)).err().map(|wrong| format!("session {session}: {wrong}"));
            client.count("sessions", 1);
        }
    }
    client.count("nodes", client.machine.recorded);
    client.count("objects", client.machine.objects.len());
    for (what, count) in &client.counts {
        println!("{count} {what}");
    }
    if let Some(wrong) = wrong {
        println!("FAILED {wrong}");
        exit(1);
    }
}
