//! The functions of `include/lexpage.h`.

extern "C" {
    pub fn lexpage_fresh(lines: *mut u32, lines_len: usize, reply: *mut u64) -> u64;
    pub fn lexpage_read(
        text: *const u8,
        text_len: usize,
        lines: *mut u32,
        lines_len: usize,
        tokens: *mut u32,
        tokens_len: usize,
        reply: *mut u64,
    ) -> u64;
    pub fn lexpage_edit(
        n: u32,
        m: u32,
        k: u32,
        text: *mut u8,
        text_len: usize,
        spare: *mut u8,
        spare_len: usize,
        lines: *mut u32,
        lines_len: usize,
        tokens: *mut u32,
        tokens_len: usize,
        a: usize,
        b: usize,
        w: *const u8,
        w_len: usize,
        reply: *mut u64,
    ) -> u64;
    pub fn lexpage_check(
        n: u32,
        m: u32,
        k: u32,
        text: *const u8,
        text_len: usize,
        lines: *const u32,
        lines_len: usize,
        tokens: *const u32,
        tokens_len: usize,
        reply: *mut u64,
    ) -> u64;
    pub fn lexpage_token_text(
        n: u32,
        m: u32,
        k: u32,
        text: *const u8,
        text_len: usize,
        lines: *const u32,
        lines_len: usize,
        tokens: *const u32,
        tokens_len: usize,
        i: usize,
        names: *const u8,
        names_len: usize,
        reply: *mut u64,
    ) -> u64;
    pub fn lexpage_walk_step(tokens: *const u32, tokens_len: usize, next: usize, reply: *mut u64) -> u64;
    pub fn lexpage_report(text: *const u8, text_len: usize, out: *mut u8, out_len: usize, reply: *mut u64) -> u64;
    pub fn lexpage_panel_column(text: *const u8, text_len: usize, offset: usize, reply: *mut u64) -> u64;
    pub fn lexpage_byte_value(text: *const u8, text_len: usize, reply: *mut u64) -> u64;
    pub fn lexpage_number_parts(text: *const u8, text_len: usize, reply: *mut u64) -> u64;
}
