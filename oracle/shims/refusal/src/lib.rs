//! The refusals that 01 adds to HyParView: a step that meets one stops the event there.
//!
//! The Rust has no way to give up in the middle of an event, so a refusal unwinds out of it.
//! The caller works on a copy of the state and throws the copy away.

use std::{
    any::Any,
    panic::{self, AssertUnwindSafe},
};

/// 01's code 5: a draw is needed and none is left.
pub const DRAWS: u8 = 5;
/// 01's code 6: a 33rd open neighbour request is needed.
pub const REQUESTS: u8 = 6;
/// 01's code 7: a 33rd refused peer is needed.
pub const REFUSED: u8 = 7;
/// 01's code 8: an 81st data entry is needed.
pub const DATA: u8 = 8;
/// 01's code 9: a record does not fit in the output.
pub const ROOM: u8 = 9;
/// 01's code 10: a counter must pass its largest value.
pub const COUNTER: u8 = 10;
/// 02's code 15 (S-7): a body over 256 bytes, or a full list.
pub const FULL: u8 = 15;
/// 02's code 17 (S-14): the peer to be pinned is not active.
pub const NOT_ACTIVE: u8 = 17;
/// 02's code 18 (S-14): the pin limit is reached and the peer has no pin.
pub const PINS: u8 = 18;

struct Refusal(u8);

/// What the compiler's overflow check says when a counter passes its largest value.
const OVERFLOW: &str = "attempt to add with overflow";

/// Ends the event with `code`.
pub fn refuse(code: u8) -> ! {
    panic::resume_unwind(Box::new(Refusal(code)))
}

/// Runs `steps`, and answers with the code of the first refusal that they meet.
///
/// Any other panic of the Rust goes on to the caller.
pub fn first_refusal<T>(steps: impl FnOnce() -> T) -> Result<T, u8> {
    panic::catch_unwind(AssertUnwindSafe(steps)).map_err(|payload| match code_of(&*payload) {
        Some(code) => code,
        None => panic::resume_unwind(payload),
    })
}

fn code_of(payload: &(dyn Any + Send)) -> Option<u8> {
    if let Some(refusal) = payload.downcast_ref::<Refusal>() {
        return Some(refusal.0);
    }
    let text = payload.downcast_ref::<&str>()?;
    (*text == OVERFLOW).then_some(COUNTER)
}

/// Keeps the panic that stands for code 10 from printing a message; others print as ever.
pub fn quiet_counters() {
    let usual = panic::take_hook();
    panic::set_hook(Box::new(move |info| {
        if code_of(info.payload()).is_none() {
            usual(info);
        }
    }));
}
