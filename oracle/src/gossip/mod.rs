//! 02's S-7: plumtree.rs alone, fed with notices, and joined with HyParView by topic.rs.

#[cfg(feature = "tools")]
pub mod cases;
#[cfg(feature = "tools")]
pub mod check;
#[cfg(feature = "tools")]
pub mod claims;
#[cfg(feature = "tools")]
pub mod generate;
pub mod record;
pub mod station;
pub mod text;
