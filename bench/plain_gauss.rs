//! `plain_gauss words COUNT ROUNDS` and `plain_gauss bytes COUNT ROUNDS`: the XOR of two runs by a plain loop, which
//! rustc makes lanes of, again and again; `plain_gauss site SITES NODES`: the blocks of a lattice of three
//! classes on the first of so many sites, a line each.

mod plain_archive;

use plain_archive::{Lattice, home};
use std::hint::black_box;
use std::io::Write;

fn step(x: u64) -> u64 {
    x.wrapping_mul(6_364_136_223_846_793_005).wrapping_add(1_442_695_040_888_963_407)
}

fn words_from(count: usize, seed: u64) -> Vec<u64> {
    let mut x = seed;
    (0..count).map(|_| { x = step(x); x }).collect()
}

#[inline(never)]
fn xor_words(dst: &mut [u64], src: &[u64]) {
    for (a, b) in dst.iter_mut().zip(src) {
        *a ^= b;
    }
}

#[inline(never)]
fn xor_bytes(dst: &mut [u8], src: &[u8]) {
    for (a, b) in dst.iter_mut().zip(src) {
        *a ^= b;
    }
}

fn words_line(count: usize, rounds: usize) -> u64 {
    let (mut first, mut second) = (words_from(count, 1), words_from(count, 2));
    for _ in 0..rounds / 2 {
        xor_words(black_box(&mut first), black_box(&second));
        xor_words(black_box(&mut second), black_box(&first));
    }
    first.iter().fold(0, |sum: u64, word| sum.wrapping_mul(31).wrapping_add(*word))
}

fn bytes_line(count: usize, rounds: usize) -> u64 {
    let bytes = |seed| -> Vec<u8> { words_from(count, seed).iter().map(|x| (x >> 56) as u8).collect() };
    let (mut first, mut second) = (bytes(1), bytes(2));
    for _ in 0..rounds / 2 {
        xor_bytes(black_box(&mut first), black_box(&second));
        xor_bytes(black_box(&mut second), black_box(&first));
    }
    first.iter().fold(0, |sum: u64, byte| sum.wrapping_mul(31).wrapping_add(u64::from(*byte)))
}

fn main() {
    let words: Vec<String> = std::env::args().skip(1).collect();
    let number = |k: usize| words[k].parse::<usize>().unwrap();
    let mut out = std::io::BufWriter::new(std::io::stdout());
    match words[0].as_str() {
        "words" => writeln!(out, "{}", words_line(number(1), number(2))).unwrap(),
        "bytes" => writeln!(out, "{}", bytes_line(number(1), number(2))).unwrap(),
        "site" => {
            // the texts of AE(3,s,p) are the same for all s and p
            let lattice = Lattice { alpha: 3, s: 2, p: 5 };
            for block in (0..4 * number(2)).filter(|block| home(*block, number(1), 1).0 == 0) {
                writeln!(out, "{}", lattice.text(block)).unwrap();
            }
        }
        _ => std::process::exit(2),
    }
}
