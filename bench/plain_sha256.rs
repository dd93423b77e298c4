//! The SHA-256 of the plain programs. Each of them uses a part of it.
#![allow(dead_code)]

use std::convert::TryInto;

pub type Digest = [u8; 32];

/// The digest of these bytes.
pub fn digest(bytes: &[u8]) -> Digest {
    let mut hash = Sha256::new();
    hash.update(bytes);
    hash.finish()
}

/// A digest in digits.
pub fn hex(digest: Digest) -> String {
    digest.iter().flat_map(|byte| [byte >> 4, byte & 15]).map(|digit| char::from(b"0123456789abcdef"[digit as usize])).collect()
}

const ROUND: [u32; 64] = [
    0x428a2f98, 0x71374491, 0xb5c0fbcf, 0xe9b5dba5, 0x3956c25b, 0x59f111f1, 0x923f82a4, 0xab1c5ed5, 0xd807aa98, 0x12835b01,
    0x243185be, 0x550c7dc3, 0x72be5d74, 0x80deb1fe, 0x9bdc06a7, 0xc19bf174, 0xe49b69c1, 0xefbe4786, 0x0fc19dc6, 0x240ca1cc,
    0x2de92c6f, 0x4a7484aa, 0x5cb0a9dc, 0x76f988da, 0x983e5152, 0xa831c66d, 0xb00327c8, 0xbf597fc7, 0xc6e00bf3, 0xd5a79147,
    0x06ca6351, 0x14292967, 0x27b70a85, 0x2e1b2138, 0x4d2c6dfc, 0x53380d13, 0x650a7354, 0x766a0abb, 0x81c2c92e, 0x92722c85,
    0xa2bfe8a1, 0xa81a664b, 0xc24b8b70, 0xc76c51a3, 0xd192e819, 0xd6990624, 0xf40e3585, 0x106aa070, 0x19a4c116, 0x1e376c08,
    0x2748774c, 0x34b0bcb5, 0x391c0cb3, 0x4ed8aa4a, 0x5b9cca4f, 0x682e6ff3, 0x748f82ee, 0x78a5636f, 0x84c87814, 0x8cc70208,
    0x90befffa, 0xa4506ceb, 0xbef9a3f7, 0xc67178f2,
];

/// A hash of the bytes so far.
pub struct Sha256 {
    state: [u32; 8],
    rest: [u8; 64],
    filled: usize,
    length: u64,
}

impl Sha256 {
    pub fn new() -> Sha256 {
        Sha256 {
            state: [0x6a09e667, 0xbb67ae85, 0x3c6ef372, 0xa54ff53a, 0x510e527f, 0x9b05688c, 0x1f83d9ab, 0x5be0cd19],
            rest: [0; 64],
            filled: 0,
            length: 0,
        }
    }

    fn compress(state: &mut [u32; 8], block: &[u8; 64]) {
        let mut w = [0u32; 64];
        for (word, bytes) in w.iter_mut().zip(block.chunks_exact(4)) {
            *word = u32::from_be_bytes([bytes[0], bytes[1], bytes[2], bytes[3]]);
        }
        for k in 16..64 {
            let low = w[k - 15].rotate_right(7) ^ w[k - 15].rotate_right(18) ^ w[k - 15] >> 3;
            let high = w[k - 2].rotate_right(17) ^ w[k - 2].rotate_right(19) ^ w[k - 2] >> 10;
            w[k] = w[k - 16].wrapping_add(low).wrapping_add(w[k - 7]).wrapping_add(high);
        }
        let [mut a, mut b, mut c, mut d, mut e, mut f, mut g, mut h] = *state;
        macro_rules! round {
            ($a:ident $b:ident $c:ident $d:ident $e:ident $f:ident $g:ident $h:ident $k:expr) => {
                let high = $e.rotate_right(6) ^ $e.rotate_right(11) ^ $e.rotate_right(25);
                let choice = $g ^ $e & ($f ^ $g);
                let first = $h.wrapping_add(high).wrapping_add(choice).wrapping_add(ROUND[$k]).wrapping_add(w[$k]);
                let low = $a.rotate_right(2) ^ $a.rotate_right(13) ^ $a.rotate_right(22);
                $d = $d.wrapping_add(first);
                $h = first.wrapping_add(low).wrapping_add($a & $b | $c & ($a | $b));
            };
        }
        for k in (0..64).step_by(8) {
            round!(a b c d e f g h k);
            round!(h a b c d e f g k + 1);
            round!(g h a b c d e f k + 2);
            round!(f g h a b c d e k + 3);
            round!(e f g h a b c d k + 4);
            round!(d e f g h a b c k + 5);
            round!(c d e f g h a b k + 6);
            round!(b c d e f g h a k + 7);
        }
        for (word, more) in state.iter_mut().zip([a, b, c, d, e, f, g, h]) {
            *word = word.wrapping_add(more);
        }
    }

    pub fn update(&mut self, mut bytes: &[u8]) {
        self.length += bytes.len() as u64;
        if self.filled > 0 {
            let count = bytes.len().min(64 - self.filled);
            self.rest[self.filled..self.filled + count].copy_from_slice(&bytes[..count]);
            self.filled += count;
            bytes = &bytes[count..];
            if self.filled < 64 {
                return;
            }
            Self::compress(&mut self.state, &self.rest);
        }
        let blocks = bytes.chunks_exact(64);
        let left = blocks.remainder();
        for block in blocks {
            Self::compress(&mut self.state, block.try_into().unwrap());
        }
        self.rest[..left.len()].copy_from_slice(left);
        self.filled = left.len();
    }

    pub fn finish(mut self) -> Digest {
        let bits = self.length * 8;
        self.update(&[0x80]);
        while self.filled != 56 {
            self.update(&[0]);
        }
        self.update(&bits.to_be_bytes());
        let mut digest = [0; 32];
        for (bytes, word) in digest.chunks_exact_mut(4).zip(self.state) {
            bytes.copy_from_slice(&word.to_be_bytes());
        }
        digest
    }
}
