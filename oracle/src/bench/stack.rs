//! How much stack a piece of work takes: it runs on memory of known bytes, and those that it leaves are counted.

use std::arch::asm;

/// More than any call needs.
const ROOM: usize = 1 << 17;
const PAINT: u8 = 0xa5;

#[repr(align(64))]
struct Area([u8; ROOM]);

/// A stack of its own.
pub struct Stack(Box<Area>);

/// What is called on the other stack.
extern "C" fn enter(work: &mut &mut dyn FnMut()) {
    work();
}

impl Stack {
    pub fn new() -> Self {
        Self(Box::new(Area([PAINT; ROOM])))
    }

    /// The bytes that the work touched, down to the lowest.
    pub fn touched(&mut self, mut work: &mut dyn FnMut()) -> usize {
        let area = &mut self.0 .0;
        area.fill(PAINT);
        let top = area.as_mut_ptr_range().end;
        // SAFETY: r12 outlives the call and holds the old stack; the new one is aligned and has room.
        unsafe {
            asm!(
                "xchg rsp, r12",
                "call {enter}",
                "mov rsp, r12",
                enter = sym enter,
                inout("r12") top => _,
                in("rdi") &mut work,
                clobber_abi("C"),
            );
        }
        let left = area.iter().take_while(|byte| **byte == PAINT).count();
        assert!(left > 0, "the stack has no room for this work");
        ROOM - left
    }
}
