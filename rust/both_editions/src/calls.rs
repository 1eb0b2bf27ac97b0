//! The functions of both editions that are timed, and the one place where they are called. include/rail.h declares
//! them, without the edition before each name; `rust/editions` gives them these names and sees that the headers of both
//! editions agree. An answer is handed on as the number that it is.
//!
//! Why the calls are sound: a slice goes as its pointer and its length, so the callee may touch these bytes and no
//! others; a Rust slice's pointer is not null, even where it is empty; `&mut` overlaps nothing else that is lent; and
//! the functions keep no pointer once they have returned. They need nothing of the bytes' values.

unsafe extern "C" {
    fn before_rail_write(record: *const u8, record_length: usize, buffer: *mut u8, buffer_length: usize) -> u64;
    fn before_rail_take(record: *mut u8, record_length: usize, inbox: *const u8, inbox_length: usize) -> u64;
    fn now_rail_write(record: *const u8, record_length: usize, buffer: *mut u8, buffer_length: usize) -> u64;
    fn now_rail_take(record: *mut u8, record_length: usize, inbox: *const u8, inbox_length: usize) -> u64;
}

pub fn write_before(record: &[u8], buffer: &mut [u8]) -> u64 {
    // SAFETY: each pointer and length are those of a slice; only the buffer, which is lent to be, is written.
    unsafe { before_rail_write(record.as_ptr(), record.len(), buffer.as_mut_ptr(), buffer.len()) }
}

pub fn take_before(record: &mut [u8], inbox: &[u8]) -> u64 {
    // SAFETY: each pointer and length are those of a slice; only the record, which is lent to be, is written.
    unsafe { before_rail_take(record.as_mut_ptr(), record.len(), inbox.as_ptr(), inbox.len()) }
}

pub fn write_now(record: &[u8], buffer: &mut [u8]) -> u64 {
    // SAFETY: each pointer and length are those of a slice; only the buffer, which is lent to be, is written.
    unsafe { now_rail_write(record.as_ptr(), record.len(), buffer.as_mut_ptr(), buffer.len()) }
}

pub fn take_now(record: &mut [u8], inbox: &[u8]) -> u64 {
    // SAFETY: each pointer and length are those of a slice; only the record, which is lent to be, is written.
    unsafe { now_rail_take(record.as_mut_ptr(), record.len(), inbox.as_ptr(), inbox.len()) }
}
