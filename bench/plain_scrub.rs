//! A plain program that reads the cells of an archive forward, and hashes each once, with a SHA-256 of its own.
//!
//! `plain_scrub read FOLDER B M` reads the files of M sites in the folder, one after the other, some pieces of 65,536 bytes or
//! less at a time, and compares the SHA-256 of head and payload of each cell, with blocks of B bytes, with the digest behind
//! them. It prints `total CELLS damaged K`, and its status is 1 where a cell is damaged. It reads no ledger, so it does not ask
//! which block a cell is of. `plain_scrub hash B CELLS` hashes as many bytes in memory, and reads nothing.

mod plain_archive;
mod plain_sha256;

use plain_archive::site_file;
use plain_sha256::digest;
use std::fs::File;
use std::io::{Read, Result};
use std::process::exit;

/// The most bytes of cells that are read at a time, where a cell is no longer.
const PIECE: usize = 65536;

/// How many cells the files have, and how many of them are damaged.
fn read(folder: &str, block: usize, sites: usize) -> Result<(usize, usize)> {
    let size = block + 48;
    let mut piece = Vec::with_capacity((PIECE / size).max(1) * size);
    let (mut cells, mut damaged) = (0, 0);
    for site in 0..sites {
        let mut file = File::open(site_file(folder, site))?;
        loop {
            piece.clear();
            let most = piece.capacity() / size * size;
            file.by_ref().take(most as u64).read_to_end(&mut piece)?;
            for cell in piece.chunks(size) {
                cells += 1;
                damaged += (cell.len() < size || digest(&cell[..16 + block]) != cell[16 + block..]) as usize;
            }
            if piece.len() < most {
                break;
            }
        }
    }
    Ok((cells, damaged))
}

/// Hashes the bytes of as many cells, each of them other bytes, and adds up what the digests begin with.
fn hash(block: usize, cells: u64) -> u64 {
    let mut bytes = vec![0; 16 + block];
    let mut sum = 0u64;
    for k in 0..cells {
        bytes[8..16].copy_from_slice(&k.to_be_bytes());
        sum += digest(&bytes)[0] as u64;
    }
    sum
}

fn main() -> Result<()> {
    let words: Vec<String> = std::env::args().skip(1).collect();
    let number = |k: usize| words[k].parse::<usize>().unwrap();
    if words[0] == "hash" {
        println!("{}", hash(number(1), number(2) as u64));
        return Ok(());
    }
    let (cells, damaged) = read(&words[1], number(2), number(3))?;
    println!("total {cells} damaged {damaged}");
    exit((damaged > 0) as i32)
}
