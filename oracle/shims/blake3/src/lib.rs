//! Stand-in for `blake3`: the hash of at most one chunk of 1,024 bytes, from BLAKE3's public paper.

/// The most bytes of one chunk; a body has at most 256.
pub const CHUNK: usize = 1024;
const BLOCK: usize = 64;

const IV: [u32; 8] = [
    0x6a09_e667,
    0xbb67_ae85,
    0x3c6e_f372,
    0xa54f_f53a,
    0x510e_527f,
    0x9b05_688c,
    0x1f83_d9ab,
    0x5be0_cd19,
];

const CHUNK_START: u32 = 1;
const CHUNK_END: u32 = 2;
const ROOT: u32 = 8;

/// Which word of the message stands where in the next round.
const PERMUTATION: [usize; 16] = [2, 6, 3, 10, 7, 0, 4, 13, 1, 11, 12, 5, 9, 14, 15, 8];
const ROUNDS: usize = 7;

#[derive(Clone, Copy, Debug, PartialEq, Eq)]
pub struct Hash([u8; 32]);

impl From<Hash> for [u8; 32] {
    fn from(hash: Hash) -> Self {
        hash.0
    }
}

/// Panics on more than one chunk.
pub fn hash(input: &[u8]) -> Hash {
    assert!(input.len() <= CHUNK, "one chunk");
    let mut blocks: Vec<_> = input.chunks(BLOCK).collect();
    if blocks.is_empty() {
        blocks.push(&[]);
    }
    let last = blocks.len() - 1;
    let mut value = IV;
    for (place, block) in blocks.into_iter().enumerate() {
        let start = if place == 0 { CHUNK_START } else { 0 };
        let end = if place == last { CHUNK_END | ROOT } else { 0 };
        value = compress(&value, block, start | end);
    }
    let mut bytes = [0; 32];
    for (place, word) in bytes.chunks_exact_mut(4).zip(value) {
        place.copy_from_slice(&word.to_le_bytes());
    }
    Hash(bytes)
}

/// One block of the first chunk, whose counter is 0.
fn compress(value: &[u32; 8], block: &[u8], flags: u32) -> [u32; 8] {
    let mut message = words(block);
    let mut v = [0; 16];
    v[..8].copy_from_slice(value);
    v[8..12].copy_from_slice(&IV[..4]);
    v[14] = block.len() as u32;
    v[15] = flags;
    for _ in 0..ROUNDS {
        round(&mut v, &message);
        message = PERMUTATION.map(|place| message[place]);
    }
    std::array::from_fn(|place| v[place] ^ v[place + 8])
}

fn words(block: &[u8]) -> [u32; 16] {
    let mut bytes = [0; BLOCK];
    bytes[..block.len()].copy_from_slice(block);
    let word = |place: usize| bytes[4 * place..4 * place + 4].try_into().expect("4 bytes");
    std::array::from_fn(|place| u32::from_le_bytes(word(place)))
}

/// The four columns, then the four diagonals.
fn round(v: &mut [u32; 16], message: &[u32; 16]) {
    for place in 0..4 {
        let column = [place, place + 4, place + 8, place + 12];
        mix(v, column, message[2 * place], message[2 * place + 1]);
    }
    for place in 0..4 {
        let turned = |by: usize| 4 * by + (place + by) % 4;
        let diagonal = [turned(0), turned(1), turned(2), turned(3)];
        mix(v, diagonal, message[8 + 2 * place], message[9 + 2 * place]);
    }
}

fn mix(v: &mut [u32; 16], [a, b, c, d]: [usize; 4], x: u32, y: u32) {
    v[a] = v[a].wrapping_add(v[b]).wrapping_add(x);
    v[d] = (v[d] ^ v[a]).rotate_right(16);
    v[c] = v[c].wrapping_add(v[d]);
    v[b] = (v[b] ^ v[c]).rotate_right(12);
    v[a] = v[a].wrapping_add(v[b]).wrapping_add(y);
    v[d] = (v[d] ^ v[a]).rotate_right(8);
    v[c] = v[c].wrapping_add(v[d]);
    v[b] = (v[b] ^ v[c]).rotate_right(7);
}

#[cfg(test)]
mod tests {
    use super::*;

    /// What b3sum 1.2.0 prints: the hash of so many of the bytes 0, 1, .., 250, 0, 1, ..
    const PRINTED: [(usize, &str); 17] = [
        (
            0,
            "af1349b9f5f9a1a6a0404dea36dcc9499bcb25c9adc112b7cc9a93cae41f3262",
        ),
        (
            1,
            "2d3adedff11b61f14c886e35afa036736dcd87a74d27b5c1510225d0f592e213",
        ),
        (
            2,
            "7b7015bb92cf0b318037702a6cdd81dee41224f734684c2c122cd6359cb1ee63",
        ),
        (
            3,
            "e1be4d7a8ab5560aa4199eea339849ba8e293d55ca0a81006726d184519e647f",
        ),
        (
            4,
            "f30f5ab28fe047904037f77b6da4fea1e27241c5d132638d8bedce9d40494f32",
        ),
        (
            5,
            "b40b44dfd97e7a84a996a91af8b85188c66c126940ba7aad2e7ae6b385402aa2",
        ),
        (
            6,
            "06c4e8ffb6872fad96f9aaca5eee1553eb62aed0ad7198cef42e87f6a616c844",
        ),
        (
            7,
            "3f8770f387faad08faa9d8414e9f449ac68e6ff0417f673f602a646a891419fe",
        ),
        (
            8,
            "2351207d04fc16ade43ccab08600939c7c1fa70a5c0aaca76063d04c3228eaeb",
        ),
        (
            63,
            "e9bc37a594daad83be9470df7f7b3798297c3d834ce80ba85d6e207627b7db7b",
        ),
        (
            64,
            "4eed7141ea4a5cd4b788606bd23f46e212af9cacebacdc7d1f4c6dc7f2511b98",
        ),
        (
            65,
            "de1e5fa0be70df6d2be8fffd0e99ceaa8eb6e8c93a63f2d8d1c30ecb6b263dee",
        ),
        (
            127,
            "d81293fda863f008c09e92fc382a81f5a0b4a1251cba1634016a0f86a6bd640d",
        ),
        (
            128,
            "f17e570564b26578c33bb7f44643f539624b05df1a76c81f30acd548c44b45ef",
        ),
        (
            129,
            "683aaae9f3c5ba37eaaf072aed0f9e30bac0865137bae68b1fde4ca2aebdcb12",
        ),
        (
            1023,
            "10108970eeda3eb932baac1428c7a2163b0e924c9a9e25b35bba72b28f70bd11",
        ),
        (
            1024,
            "42214739f095a406f3fc83deb889744ac00df831c10daa55189b5d121c855af7",
        ),
    ];

    fn hex(hash: Hash) -> String {
        hash.0.iter().map(|byte| format!("{byte:02x}")).collect()
    }

    #[test]
    fn as_b3sum_prints() {
        for (len, expected) in PRINTED {
            let input: Vec<u8> = (0..len).map(|place| (place % 251) as u8).collect();
            assert_eq!(hex(hash(&input)), expected, "{len} bytes");
        }
    }

    #[test]
    fn three_letters() {
        let expected = "6437b3ac38465133ffb63b75273a8db548c558465d79db03fd359c6cd5bd9d85";
        assert_eq!(hex(hash(b"abc")), expected);
    }
}
