//! The exported functions as the archives have them.

/// An answer's number, how many values come with it, and the values; 0 where there is none.
#[repr(C)]
pub struct Words {
    pub number: u32,
    pub count: u32,
    pub first: usize,
    pub second: usize,
}

/// The same, with the count of moves.
#[repr(C)]
pub struct ParseWords {
    pub number: u32,
    pub count: u32,
    pub first: usize,
    pub second: usize,
    pub moves: u32,
}

// A slice passes as a pointer and then a length, each an argument of its own.
extern "C" {
    /// The judgement of grammar, table and signing.
    pub fn slettrein_judge(
        terminals: u32,
        symbols: u32,
        rules: u32,
        states: u32,
        left: *const u32,
        left_len: usize,
        lens: *const u32,
        lens_len: usize,
        rights: *const u32,
        rights_len: usize,
        table: *const i32,
        table_len: usize,
        srule: *const u32,
        srule_len: usize,
        sgoto: *const u32,
        sgoto_len: usize,
    ) -> Words;

    /// The table check.
    pub fn slettrein_check(
        terminals: u32,
        symbols: u32,
        rules: u32,
        states: u32,
        left: *const u32,
        left_len: usize,
        lens: *const u32,
        lens_len: usize,
        rights: *const u32,
        rights_len: usize,
        table: *const i32,
        table_len: usize,
        srule: *const u32,
        srule_len: usize,
        sgoto: *const u32,
        sgoto_len: usize,
    ) -> Words;

    /// Packing.
    pub fn slettrein_pack(
        terminals: u32,
        symbols: u32,
        rules: u32,
        states: u32,
        left: *const u32,
        left_len: usize,
        lens: *const u32,
        lens_len: usize,
        rights: *const u32,
        rights_len: usize,
        table: *const i32,
        table_len: usize,
        srule: *const u32,
        srule_len: usize,
        sgoto: *const u32,
        sgoto_len: usize,
        base: *mut i32,
        base_len: usize,
        check: *mut i32,
        check_len: usize,
        marks: *mut u32,
        marks_len: usize,
        place: *mut u32,
        place_len: usize,
    ) -> Words;

    /// Parsing with the filled table.
    pub fn slettrein_plain(
        terminals: u32,
        symbols: u32,
        rules: u32,
        states: u32,
        left: *const u32,
        left_len: usize,
        lens: *const u32,
        lens_len: usize,
        rights: *const u32,
        rights_len: usize,
        table: *const i32,
        table_len: usize,
        srule: *const u32,
        srule_len: usize,
        sgoto: *const u32,
        sgoto_len: usize,
        tokens: *const u32,
        tokens_len: usize,
        limit: u32,
        stack: *mut u32,
        stack_len: usize,
        list: *mut u32,
        list_len: usize,
    ) -> ParseWords;

    /// Parsing with cells.
    pub fn slettrein_parse(
        terminals: u32,
        symbols: u32,
        rules: u32,
        left: *const u32,
        left_len: usize,
        lens: *const u32,
        lens_len: usize,
        rights: *const u32,
        rights_len: usize,
        base: *const i32,
        base_len: usize,
        check: *const i32,
        check_len: usize,
        tokens: *const u32,
        tokens_len: usize,
        limit: u32,
        stack: *mut u32,
        stack_len: usize,
        list: *mut u32,
        list_len: usize,
    ) -> ParseWords;

    /// A read asked for by itself.
    pub fn slettrein_read(
        terminals: u32,
        symbols: u32,
        rules: u32,
        base: *const i32,
        base_len: usize,
        check: *const i32,
        check_len: usize,
        x: usize,
        a: u32,
    ) -> Words;

    /// Reading a signing sheet.
    pub fn slettrein_sheet_read(
        terminals: u32,
        symbols: u32,
        rules: u32,
        states: u32,
        text: *const u8,
        text_len: usize,
        srule: *mut u32,
        srule_len: usize,
        sgoto: *mut u32,
        sgoto_len: usize,
    ) -> Words;

    /// Writing a signing sheet.
    pub fn slettrein_sheet_write(
        terminals: u32,
        symbols: u32,
        rules: u32,
        states: u32,
        srule: *const u32,
        srule_len: usize,
        sgoto: *const u32,
        sgoto_len: usize,
        buffer: *mut u8,
        buffer_len: usize,
    ) -> Words;

    pub fn slettrein_packsheet(
        text: *const u8,
        text_len: usize,
        out: *mut u8,
        out_len: usize,
    ) -> usize;

    pub fn slettrein_house(
        left: *mut u32,
        left_len: usize,
        lens: *mut u32,
        lens_len: usize,
        rights: *mut u32,
        rights_len: usize,
        table: *mut i32,
        table_len: usize,
    ) -> Words;
}
