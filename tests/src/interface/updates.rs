//! A vector added to a library, or removed from it. Safe for each call: a pointer leads to as many elements as are named
//! with it.

use super::lent::Lent;
use crate::input::{Input, Updated};

extern "C" {
    fn matcher_add(
        d: usize,
        b: usize,
        n: usize,
        marks: *const i32,
        marks_len: usize,
        codes: *const u8,
        codes_len: usize,
        settings: *const u32,
        settings_len: usize,
        vectors: *const i32,
        vectors_len: usize,
        vector: *const i32,
        vector_len: usize,
        setting: u32,
        newvectors: *mut i32,
        newvectors_len: usize,
        newsettings: *mut u32,
        newsettings_len: usize,
        newcodes: *mut u8,
        newcodes_len: usize,
    ) -> u32;
    fn matcher_remove(
        d: usize,
        b: usize,
        n: usize,
        marks: *const i32,
        marks_len: usize,
        codes: *const u8,
        codes_len: usize,
        settings: *const u32,
        settings_len: usize,
        vectors: *const i32,
        vectors_len: usize,
        number: usize,
        newvectors: *mut i32,
        newvectors_len: usize,
        newsettings: *mut u32,
        newsettings_len: usize,
        newcodes: *mut u8,
        newcodes_len: usize,
    ) -> u32;
}

/// The old library, which is only read, and the room for the new one.
struct Buffers {
    marks: Lent<i32>,
    codes: Lent<u8>,
    settings: Lent<u32>,
    vectors: Lent<i32>,
    newvectors: Lent<i32>,
    newsettings: Lent<u32>,
    newcodes: Lent<u8>,
}

impl Buffers {
    fn of(input: &Input) -> Buffers {
        Buffers {
            marks: Lent::given(&input.marks),
            codes: Lent::given(&input.codes),
            settings: Lent::given(&input.settings),
            vectors: Lent::given(&input.vectors),
            newvectors: Lent::room(input.room.new_vectors),
            newsettings: Lent::room(input.room.new_settings),
            newcodes: Lent::room(input.room.new_codes),
        }
    }

    /// The new library, or the number of the refusal, which leaves all three of its buffers as they were.
    fn updated(&self, number: u32) -> Result<Updated, u32> {
        self.marks.kept();
        self.codes.kept();
        self.settings.kept();
        self.vectors.kept();
        let (vectors, settings) = (self.newvectors.filled(number), self.newsettings.filled(number));
        let codes = self.newcodes.filled(number);
        Ok(Updated { vectors: vectors?, settings: settings?, codes: codes? })
    }
}

pub fn add(input: &Input) -> Result<Updated, u32> {
    let (mut buffers, mut vector) = (Buffers::of(input), Lent::given(&input.one.vector));
    let Buffers { marks, codes, settings, vectors, newvectors, newsettings, newcodes } = &mut buffers;
    let number = unsafe {
        matcher_add(
            input.d,
            input.b,
            input.n,
            marks.pointer(),
            marks.len(),
            codes.pointer(),
            codes.len(),
            settings.pointer(),
            settings.len(),
            vectors.pointer(),
            vectors.len(),
            vector.pointer(),
            vector.len(),
            input.one.setting,
            newvectors.pointer(),
            newvectors.len(),
            newsettings.pointer(),
            newsettings.len(),
            newcodes.pointer(),
            newcodes.len(),
        )
    };
    vector.kept();
    buffers.updated(number)
}

pub fn remove(input: &Input) -> Result<Updated, u32> {
    let mut buffers = Buffers::of(input);
    let Buffers { marks, codes, settings, vectors, newvectors, newsettings, newcodes } = &mut buffers;
    let number = unsafe {
        matcher_remove(
            input.d,
            input.b,
            input.n,
            marks.pointer(),
            marks.len(),
            codes.pointer(),
            codes.len(),
            settings.pointer(),
            settings.len(),
            vectors.pointer(),
            vectors.len(),
            input.one.number,
            newvectors.pointer(),
            newvectors.len(),
            newsettings.pointer(),
            newsettings.len(),
            newcodes.pointer(),
            newcodes.len(),
        )
    };
    buffers.updated(number)
}
