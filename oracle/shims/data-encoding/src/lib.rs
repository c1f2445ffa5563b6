//! Stand-in for `data_encoding`: lowercase hex, in which the Rust shows ids in logs alone.

pub struct Hex;

pub const HEXLOWER: Hex = Hex;

impl Hex {
    pub fn encode(&self, bytes: &[u8]) -> String {
        bytes.iter().map(|byte| format!("{byte:02x}")).collect()
    }
}
