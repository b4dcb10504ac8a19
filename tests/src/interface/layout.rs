//! What C says of the layout of an entry and of an answer (`c/layout.c`). Safe: the arrays and the functions take nothing
//! and change nothing that Rust sees.

extern "C" {
    static layout_entry: [usize; 6];
    static layout_answer: [usize; 6];
    fn layout_scan_from_c() -> i32;
    fn layout_batch_from_c() -> i32;
}

/// An entry's size and alignment, and each field's offset and size, number first.
pub fn entry_layout() -> [usize; 6] {
    unsafe { layout_entry }
}

/// An answer's size and alignment, and each field's offset and size, status first.
pub fn answer_layout() -> [usize; 6] {
    unsafe { layout_answer }
}

/// Whether a scan called from C fills the entries that C declares.
pub fn scan_from_c() -> bool {
    unsafe { layout_scan_from_c() == 1 }
}

/// Whether a batch called from C fills the answers that C declares.
pub fn batch_from_c() -> bool {
    unsafe { layout_batch_from_c() == 1 }
}
