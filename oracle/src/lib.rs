//! The Rust's HyParView and Plumtree as oracle: their `State::handle` behind the records, refusals and
//! texts of 01 and 02.

// The Rust's own text, which build.rs copied: modules hyparview, peer, plumtree, topic, util, and PeerInfo.
#[allow(
    dead_code,
    unused_imports,
    unused_macros,
    unused_variables,
    unexpected_cfgs
)]
mod proto {
    use serde::{Deserialize, Serialize};

    pub use self::{
        peer::{PeerData, PeerIdentity},
        util::TimerMap,
    };

    /// Stand-in for state.rs: the one name of it that topic.rs asks for.
    mod state {
        pub enum MessageKind {
            Data,
            Control,
        }
    }

    include!(concat!(env!("OUT_DIR"), "/proto.rs"));
}

#[cfg(feature = "tools")]
pub mod chatter;
#[cfg(feature = "tools")]
pub mod check;
mod collections;
#[cfg(feature = "tools")]
pub mod compare;
#[cfg(feature = "tools")]
pub mod generate;
pub mod gossip;
pub mod input;
#[cfg(feature = "tools")]
pub mod ledger;
pub mod limits;
pub mod machine;
mod output;
#[cfg(feature = "tools")]
pub mod passing;
pub mod record;
#[cfg(feature = "tools")]
pub mod rules;
#[cfg(feature = "tools")]
pub mod shrink;
pub mod station;
pub mod stored;
#[cfg(feature = "tools")]
pub mod stories;
#[cfg(feature = "tools")]
pub mod tallies;
pub mod text;
#[cfg(feature = "tools")]
pub mod timers;
#[cfg(feature = "tools")]
pub mod timing;
#[cfg(feature = "tools")]
pub mod words;

pub use proto::{hyparview, plumtree, topic, PeerData};

/// What the build read and changed.
pub const SUBSTITUTIONS: &str = include_str!(concat!(env!("OUT_DIR"), "/substitutions.txt"));
