//! Counts words and puts out how often each stands there. docs/guide/compiling-rust.md says how it is compiled.
use std::collections::HashMap;

#[link(wasm_import_module = "host")]
extern "C" {
    fn input(index: u32) -> u64;
    fn put(word: u64);
    fn emit(bytes: *const u8, length: usize);
}

const TEXT: &str = "the cat and the dog and the bird";

fn say(text: &str) {
    for piece in text.as_bytes().chunks(4096) {
        unsafe { emit(piece.as_ptr(), piece.len()) }
    }
}

/// Says the words that stand in the text at least as often as the first input says.
#[no_mangle]
pub extern "C" fn run() -> u32 {
    let least = unsafe { input(0) };
    let mut counts: HashMap<&str, u64> = HashMap::new();
    for word in TEXT.split(' ') {
        *counts.entry(word).or_insert(0) += 1;
    }
    let mut words: Vec<(&str, u64)> = counts.into_iter().filter(|it| it.1 >= least).collect();
    words.sort_by_key(|&(word, count)| (std::cmp::Reverse(count), word));
    for (word, count) in &words {
        say(&format!("{count} {word}\n"));
    }
    unsafe { put(words.len() as u64) }
    words.len() as u32
}
