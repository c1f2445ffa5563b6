//! Stand-in for `hex`: what util.rs names. Ids are shown in logs alone, and none is parsed here.

#[derive(Clone, Debug, PartialEq)]
pub struct FromHexError;

impl std::fmt::Display for FromHexError {
    fn fmt(&self, f: &mut std::fmt::Formatter<'_>) -> std::fmt::Result {
        write!(f, "not hex")
    }
}

impl std::error::Error for FromHexError {}

pub fn encode(bytes: &[u8]) -> String {
    bytes.iter().map(|byte| format!("{byte:02x}")).collect()
}

pub fn decode_to_slice(_text: &str, _bytes: &mut [u8]) -> Result<(), FromHexError> {
    Err(FromHexError)
}
