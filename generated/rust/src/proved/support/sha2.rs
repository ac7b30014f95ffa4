//! SHA-256 (FIPS 180-4), for what the sources call the crate `sha2`.

/// Digests of bytes.
pub trait Digest: Sized {
    /// Begins with no bytes.
    fn new() -> Self;
    /// Adds `bytes` after those that were added before.
    fn update(&mut self, bytes: &[u8]);
    /// The digest of all bytes that were added.
    fn finalize(self) -> [u8; 32];

    /// The digest of `bytes`.
    fn digest(bytes: &[u8]) -> [u8; 32] {
        let mut hasher = Self::new();
        hasher.update(bytes);
        hasher.finalize()
    }
}

/// SHA-256, of bytes that come in pieces.
pub struct Sha256 {
    state: [u32; 8],
    // the bytes that don't fill a block yet, and how many these are
    last: [u8; 64],
    held: usize,
    // the number of all bytes
    size: u64,
}

const K: [u32; 64] = [
    0x428a2f98, 0x71374491, 0xb5c0fbcf, 0xe9b5dba5, 0x3956c25b, 0x59f111f1, 0x923f82a4, 0xab1c5ed5,
    0xd807aa98, 0x12835b01, 0x243185be, 0x550c7dc3, 0x72be5d74, 0x80deb1fe, 0x9bdc06a7, 0xc19bf174,
    0xe49b69c1, 0xefbe4786, 0x0fc19dc6, 0x240ca1cc, 0x2de92c6f, 0x4a7484aa, 0x5cb0a9dc, 0x76f988da,
    0x983e5152, 0xa831c66d, 0xb00327c8, 0xbf597fc7, 0xc6e00bf3, 0xd5a79147, 0x06ca6351, 0x14292967,
    0x27b70a85, 0x2e1b2138, 0x4d2c6dfc, 0x53380d13, 0x650a7354, 0x766a0abb, 0x81c2c92e, 0x92722c85,
    0xa2bfe8a1, 0xa81a664b, 0xc24b8b70, 0xc76c51a3, 0xd192e819, 0xd6990624, 0xf40e3585, 0x106aa070,
    0x19a4c116, 0x1e376c08, 0x2748774c, 0x34b0bcb5, 0x391c0cb3, 0x4ed8aa4a, 0x5b9cca4f, 0x682e6ff3,
    0x748f82ee, 0x78a5636f, 0x84c87814, 0x8cc70208, 0x90befffa, 0xa4506ceb, 0xbef9a3f7, 0xc67178f2,
];

const START: [u32; 8] = [
    0x6a09e667, 0xbb67ae85, 0x3c6ef372, 0xa54ff53a, 0x510e527f, 0x9b05688c, 0x1f83d9ab, 0x5be0cd19,
];

fn mix(state: &mut [u32; 8], block: &[u8]) {
    let mut w = [0u32; 64];
    for (word, bytes) in w.iter_mut().zip(block.chunks_exact(4)) {
        *word = u32::from_be_bytes([bytes[0], bytes[1], bytes[2], bytes[3]]);
    }
    for i in 16..64 {
        let a = w[i - 15].rotate_right(7) ^ w[i - 15].rotate_right(18) ^ w[i - 15] >> 3;
        let b = w[i - 2].rotate_right(17) ^ w[i - 2].rotate_right(19) ^ w[i - 2] >> 10;
        w[i] = w[i - 16]
            .wrapping_add(a)
            .wrapping_add(w[i - 7])
            .wrapping_add(b);
    }
    let [mut a, mut b, mut c, mut d, mut e, mut f, mut g, mut h] = *state;
    for i in 0..64 {
        let s = e.rotate_right(6) ^ e.rotate_right(11) ^ e.rotate_right(25);
        let choice = e & f ^ !e & g;
        let t = h
            .wrapping_add(s)
            .wrapping_add(choice)
            .wrapping_add(K[i])
            .wrapping_add(w[i]);
        let s = a.rotate_right(2) ^ a.rotate_right(13) ^ a.rotate_right(22);
        let u = s.wrapping_add(a & b ^ a & c ^ b & c);
        (h, g, f, e, d, c, b, a) = (g, f, e, d.wrapping_add(t), c, b, a, t.wrapping_add(u));
    }
    for (old, new) in state.iter_mut().zip([a, b, c, d, e, f, g, h]) {
        *old = old.wrapping_add(new);
    }
}

impl Digest for Sha256 {
    fn new() -> Self {
        Sha256 {
            state: START,
            last: [0; 64],
            held: 0,
            size: 0,
        }
    }

    fn update(&mut self, mut bytes: &[u8]) {
        self.size = self.size.wrapping_add(bytes.len() as u64);
        if self.held > 0 {
            let few = bytes.len().min(64 - self.held);
            self.last[self.held..self.held + few].copy_from_slice(&bytes[..few]);
            self.held += few;
            bytes = &bytes[few..];
            if self.held < 64 {
                return;
            }
            mix(&mut self.state, &self.last);
        }
        let blocks = bytes.chunks_exact(64);
        let rest = blocks.remainder();
        for block in blocks {
            mix(&mut self.state, block);
        }
        self.last[..rest.len()].copy_from_slice(rest);
        self.held = rest.len();
    }

    fn finalize(mut self) -> [u8; 32] {
        let mut last = [0u8; 128];
        last[..self.held].copy_from_slice(&self.last[..self.held]);
        last[self.held] = 0x80;
        let end = if self.held < 56 { 64 } else { 128 };
        last[end - 8..end].copy_from_slice(&self.size.wrapping_mul(8).to_be_bytes());
        for block in last[..end].chunks_exact(64) {
            mix(&mut self.state, block);
        }
        let mut out = [0u8; 32];
        for (to, word) in out.chunks_exact_mut(4).zip(self.state) {
            to.copy_from_slice(&word.to_be_bytes());
        }
        out
    }
}

#[cfg(test)]
mod tests {
    use super::*;

    #[test]
    fn of_abc() {
        let wanted = b"\xba\x78\x16\xbf\x8f\x01\xcf\xea\x41\x41\x40\xde\x5d\xae\x22\x23\xb0\x03\x61\xa3\x96\x17\x7a\x9c\xb4\x10\xff\x61\xf2\x00\x15\xad";
        assert_eq!(&Sha256::digest(b"abc"), wanted);
    }

    // the example of two blocks in FIPS 180-2, and a million times `a`, in pieces of some sizes up to three blocks
    #[test]
    fn of_pieces() {
        let text = b"abcdbcdecdefdefgefghfghighijhijkijkljklmklmnlmnomnopnopq";
        let wanted = b"\x24\x8d\x6a\x61\xd2\x06\x38\xb8\xe5\xc0\x26\x93\x0c\x3e\x60\x39\xa3\x3c\xe4\x59\x64\xff\x21\x67\xf6\xec\xed\xd4\x19\xdb\x06\xc1";
        let all = [b'a'; 192];
        let most = b"\xcd\xc7\x6e\x5c\x99\x14\xfb\x92\x81\xa1\xc7\xe2\x84\xd7\x3e\x67\xf1\x80\x9a\x48\xa4\x97\x20\x0e\x04\x6d\x39\xcc\xc7\x11\x2c\xd0";
        for size in 1..=192 {
            let mut hasher = Sha256::new();
            text.chunks(size).for_each(|piece| hasher.update(piece));
            assert_eq!(&hasher.finalize(), wanted, "{size}");
        }
        for size in [1, 63, 64, 65, 192] {
            let mut hasher = Sha256::new();
            let mut left = 1_000_000;
            while left > 0 {
                let piece = size.min(left);
                hasher.update(&all[..piece]);
                left -= piece;
            }
            assert_eq!(&hasher.finalize(), most, "{size}");
        }
    }
}
