//! The records of include/tovridsa.h, as the model has them, and their bytes.

pub use model::proved::records::{Desk, Register, Replica, ResultAnswer, Server, Value};

use std::mem::size_of;

/// A value of at most 64 bytes.
pub fn value_of(part: &[u8]) -> Value {
    let mut value = Register::START.value;
    value.length = part.len() as u16;
    value.bytes[..part.len()].copy_from_slice(part);
    value
}

/// What result tells beside a refusal.
pub fn untold(answer: i64) -> ResultAnswer {
    ResultAnswer {
        answer,
        restarts: 0,
        kind: 0,
        register: Register::START,
    }
}

/// The bytes of a record, to be changed here and there by a test.
///
/// # Safety
/// Every bit pattern is a value of the type, and it has no padding.
pub unsafe trait Plain: Copy {
    fn bytes(&mut self) -> &mut [u8] {
        // SAFETY: the pointer is that of a record, for its whole length, and by the trait any bytes may be written there.
        unsafe { std::slice::from_raw_parts_mut((self as *mut Self).cast(), size_of::<Self>()) }
    }
}

// SAFETY: all fields are whole numbers and arrays of them, and each record is as long as its fields together, as the model asserts.
unsafe impl Plain for Server {}
unsafe impl Plain for Desk {}
