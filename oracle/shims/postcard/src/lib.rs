//! Stand-in for `postcard`: two sizes that plumtree.rs asks for, and no encoding.

pub mod experimental {
    /// The only value that is asked for is a Gossip of an empty body: a byte for the message, the id, a
    /// byte for the length, a byte for the scope and a round of at most three.
    const EMPTY_GOSSIP: usize = 1 + 32 + 1 + 1 + 3;

    pub fn serialized_size<T: ?Sized>(_value: &T) -> Result<usize, ()> {
        Ok(EMPTY_GOSSIP)
    }

    pub mod max_size {
        pub use derive_more::MaxSize;

        /// The most bytes of a value, as postcard documents them.
        pub trait MaxSize {
            const POSTCARD_MAX_SIZE: usize;
        }

        impl MaxSize for u8 {
            const POSTCARD_MAX_SIZE: usize = 1;
        }

        /// Seven bits in a byte.
        impl MaxSize for u16 {
            const POSTCARD_MAX_SIZE: usize = 3;
        }

        impl<T: MaxSize, const N: usize> MaxSize for [T; N] {
            const POSTCARD_MAX_SIZE: usize = T::POSTCARD_MAX_SIZE * N;
        }
    }
}
