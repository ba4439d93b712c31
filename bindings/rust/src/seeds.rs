//! Where the random words of consumers come from.
use std::collections::hash_map::RandomState;
use std::hash::{BuildHasher, Hasher};

/// Returns a seed made of the random keys of the standard library's hash maps: that never fails and opens no file. It need
/// not be secret. The seed may decide who wins an item, but no promise rests on it.
pub(crate) fn from_system() -> [u8; 32] {
    let mut seed = [0; 32];
    let state = RandomState::new();
    for (place, word) in seed.chunks_exact_mut(8).enumerate() {
        let mut hasher = state.build_hasher();
        hasher.write_usize(place);
        word.copy_from_slice(&hasher.finish().to_le_bytes());
    }
    seed
}

#[cfg(test)]
mod tests {
    #[test]
    fn seeds_differ() {
        assert_ne!(super::from_system(), super::from_system());
    }
}
