//! MurmurHash2, 32 bits, by document 01's paragraph. It stands in for the published crate `murmurhash32`.

/// The seed agreed for the comparison.
pub const SEED: u32 = 3_242_157_231;

const M: u32 = 0x5BD1_E995;

/// What the crate calls: the hash with the agreed seed.
pub fn murmurhash2(key: &[u8]) -> u32 {
    murmurhash2_with_seed(key, SEED)
}

pub fn murmurhash2_with_seed(key: &[u8], seed: u32) -> u32 {
    let mut h = seed ^ key.len() as u32;
    let (fours, rest) = key.as_chunks::<4>();
    for four in fours {
        let mut k = u32::from_le_bytes(*four).wrapping_mul(M);
        k ^= k >> 24;
        h = h.wrapping_mul(M) ^ k.wrapping_mul(M);
    }
    if !rest.is_empty() {
        let mut last = [0u8; 4];
        last[..rest.len()].copy_from_slice(rest);
        h = (h ^ u32::from_le_bytes(last)).wrapping_mul(M);
    }
    h = (h ^ (h >> 13)).wrapping_mul(M);
    h ^ (h >> 15)
}
