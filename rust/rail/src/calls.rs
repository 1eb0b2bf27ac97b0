//! The archive's functions, and the one place where they are called. include/rail.h declares the same for C.
//!
//! Why the calls are sound: a slice goes as its pointer and its length, so the callee may touch these bytes and no
//! others; a Rust slice's pointer is not null, even where it is empty; `&mut` overlaps nothing else that is lent; and
//! the functions keep no pointer once they have returned. They need nothing of the bytes' values. Where a slice is of
//! numbers, its length counts numbers on both sides of the call, and its pointer is aligned for them, also where it is
//! empty.

unsafe extern "C" {
    fn rail_accept(class: u8, n: u8, b: u8, f: u8, d: u8, c: u8) -> u64;
    fn rail_least(class: u8, b: u8, f: u8) -> u64;
    fn rail_start(
        class: u8,
        n: u8,
        b: u8,
        f: u8,
        d: u8,
        c: u8,
        own: u8,
        run: u32,
        plan: u16,
        record: *mut u8,
        record_length: usize,
    ) -> u64;
    fn rail_write(record: *const u8, record_length: usize, buffer: *mut u8, buffer_length: usize) -> u64;
    fn rail_take(record: *mut u8, record_length: usize, inbox: *const u8, inbox_length: usize) -> u64;
    fn rail_ask(record: *const u8, record_length: usize, inbox: *const u8, inbox_length: usize) -> u64;
    fn rail_marks(record: *const u8, record_length: usize, inbox: *const u8, inbox_length: usize) -> u64;
    fn rail_result(record: *const u8, record_length: usize) -> u64;
    fn rail_read(bytes: *const u8, bytes_length: usize, fields: *mut u8, fields_length: usize) -> u64;
    fn rail_entry(bytes: *const u8, bytes_length: usize, i: usize) -> u64;
    fn rail_split(
        demands: *const u32,
        demands_length: usize,
        budget: u32,
        shares: *mut u32,
        shares_length: usize,
    ) -> u64;
}

pub fn accept([class, n, b, f, d, c]: [u8; 6]) -> u64 {
    // SAFETY: it takes numbers only.
    unsafe { rail_accept(class, n, b, f, d, c) }
}

pub fn least(class: u8, b: u8, f: u8) -> u64 {
    // SAFETY: it takes numbers only.
    unsafe { rail_least(class, b, f) }
}

pub fn start([class, n, b, f, d, c]: [u8; 6], own: u8, run: u32, plan: u16, record: &mut [u8]) -> u64 {
    // SAFETY: pointer and length are those of a slice that is lent to be written.
    unsafe { rail_start(class, n, b, f, d, c, own, run, plan, record.as_mut_ptr(), record.len()) }
}

pub fn write(record: &[u8], buffer: &mut [u8]) -> u64 {
    // SAFETY: each pointer and length are those of a slice; only the buffer, which is lent to be, is written.
    unsafe { rail_write(record.as_ptr(), record.len(), buffer.as_mut_ptr(), buffer.len()) }
}

pub fn take(record: &mut [u8], inbox: &[u8]) -> u64 {
    // SAFETY: each pointer and length are those of a slice; only the record, which is lent to be, is written.
    unsafe { rail_take(record.as_mut_ptr(), record.len(), inbox.as_ptr(), inbox.len()) }
}

pub fn ask(record: &[u8], inbox: &[u8]) -> u64 {
    // SAFETY: each pointer and length are those of a slice; nothing is written.
    unsafe { rail_ask(record.as_ptr(), record.len(), inbox.as_ptr(), inbox.len()) }
}

pub fn marks(record: &[u8], inbox: &[u8]) -> u64 {
    // SAFETY: each pointer and length are those of a slice; nothing is written.
    unsafe { rail_marks(record.as_ptr(), record.len(), inbox.as_ptr(), inbox.len()) }
}

pub fn result(record: &[u8]) -> u64 {
    // SAFETY: pointer and length are those of a slice; nothing is written.
    unsafe { rail_result(record.as_ptr(), record.len()) }
}

pub fn read(bytes: &[u8], fields: &mut [u8]) -> u64 {
    // SAFETY: each pointer and length are those of a slice; only the fields, which are lent to be, are written.
    unsafe { rail_read(bytes.as_ptr(), bytes.len(), fields.as_mut_ptr(), fields.len()) }
}

pub fn entry(bytes: &[u8], i: usize) -> u64 {
    // SAFETY: pointer and length are those of a slice; nothing is written.
    unsafe { rail_entry(bytes.as_ptr(), bytes.len(), i) }
}

pub fn split(demands: &[u32], budget: u32, shares: &mut [u32]) -> u64 {
    // SAFETY: each pointer and length are those of a slice of numbers; only the shares, which are lent to be, are
    // written.
    unsafe { rail_split(demands.as_ptr(), demands.len(), budget, shares.as_mut_ptr(), shares.len()) }
}
