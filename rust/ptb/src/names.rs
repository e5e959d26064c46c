// ptb's calls by their C names, as include/ptb.h declares them.
#![allow(dead_code)]

extern "C" {
    pub fn ptb_make(words: *mut u64, words_len: usize, ledger: *mut u32, ledger_len: usize, base: u64, level: u64, range: u64, answer: *mut u64) -> u64;
    pub fn ptb_check(words: *const u64, words_len: usize, ledger: *const u32, ledger_len: usize, base: u64, level: u64, range: u64, answer: *mut u64) -> u64;
    pub fn ptb_look_up(words: *const u64, words_len: usize, ledger: *const u32, ledger_len: usize, base: u64, level: u64, range: u64, va: u64, answer: *mut u64) -> u64;
    pub fn ptb_list(
        words: *const u64, words_len: usize, ledger: *const u32, ledger_len: usize, base: u64, level: u64, range: u64,
        start: u64, end: u64, lines: *mut u64, lines_len: usize, answer: *mut u64,
    ) -> u64;
    pub fn ptb_map(
        words: *mut u64, words_len: usize, ledger: *mut u32, ledger_len: usize, base: u64, level: u64, range: u64,
        start: u64, end: u64, frame: u64, flags: u64, constraints: u64, answer: *mut u64,
    ) -> u64;
    pub fn ptb_image(
        words: *const u64, words_len: usize, ledger: *const u32, ledger_len: usize, base: u64, level: u64, range: u64,
        table: u64, page: *mut u8, page_len: usize, answer: *mut u64,
    ) -> u64;
    pub fn ptb_modify(
        words: *mut u64, words_len: usize, ledger: *mut u32, ledger_len: usize, base: u64, level: u64, range: u64,
        start: u64, end: u64, set: u64, clear: u64, live: u64, list: *mut u64, list_len: usize, answer: *mut u64,
    ) -> u64;
    pub fn ptb_compact(words: *mut u64, words_len: usize, ledger: *mut u32, ledger_len: usize, base: u64, level: u64, range: u64, answer: *mut u64) -> u64;
}
