//! SHA-1 from FIPS 180-4, with its sections named.

/// The initial hash value (5.3.1).
const INITIAL: [u32; 5] = [0x6745_2301, 0xEFCD_AB89, 0x98BA_DCFE, 0x1032_5476, 0xC3D2_E1F0];

/// The digest of a text (6.1.2).
pub fn sha1(text: &[u8]) -> [u8; 20] {
    let hash = padded(text).chunks_exact(64).fold(INITIAL, taken);
    let mut digest = [0; 20];
    for (bytes, word) in digest.chunks_exact_mut(4).zip(hash) {
        bytes.copy_from_slice(&word.to_be_bytes());
    }
    digest
}

/// The text with a one bit, zeros up to eight bytes before the end of a block, and its length in bits (5.1.1).
fn padded(text: &[u8]) -> Vec<u8> {
    let mut padded = text.to_vec();
    padded.push(0x80);
    while padded.len() % 64 != 56 {
        padded.push(0);
    }
    padded.extend((8 * text.len() as u64).to_be_bytes());
    padded
}

/// The hash value after one block more.
fn taken(hash: [u32; 5], block: &[u8]) -> [u32; 5] {
    let mut words: Vec<u32> = block.chunks_exact(4).map(|word| u32::from_be_bytes(word.try_into().expect("4 bytes"))).collect();
    for t in 16..80 {
        words.push((words[t - 3] ^ words[t - 8] ^ words[t - 14] ^ words[t - 16]).rotate_left(1));
    }
    let [mut a, mut b, mut c, mut d, mut e] = hash;
    for (t, word) in words.into_iter().enumerate() {
        // The functions and constants of 4.1.1 and 4.2.1.
        let (mixed, constant) = match t {
            0..20 => ((b & c) ^ (!b & d), 0x5A82_7999),
            20..40 => (b ^ c ^ d, 0x6ED9_EBA1),
            40..60 => ((b & c) ^ (b & d) ^ (c & d), 0x8F1B_BCDC),
            _ => (b ^ c ^ d, 0xCA62_C1D6),
        };
        let sum = [mixed, e, constant, word].into_iter().fold(a.rotate_left(5), u32::wrapping_add);
        (a, b, c, d, e) = (sum, a, b.rotate_left(30), c, d);
    }
    let mut next = hash;
    for (word, added) in next.iter_mut().zip([a, b, c, d, e]) {
        *word = word.wrapping_add(added);
    }
    next
}
