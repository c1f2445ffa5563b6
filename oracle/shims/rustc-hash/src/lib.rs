//! Stand-in for `rustc_hash`: the standard hasher. No order of a hash map is seen in what the Rust does.

use std::{collections::hash_map::DefaultHasher, hash::BuildHasher};

#[derive(Clone, Copy, Debug, Default)]
pub struct FxBuildHasher;

impl BuildHasher for FxBuildHasher {
    type Hasher = DefaultHasher;
    fn build_hasher(&self) -> DefaultHasher {
        DefaultHasher::new()
    }
}
