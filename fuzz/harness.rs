//! One input of the fuzzer: both readers on it, and measuring and writing on its events. A difference ends the process.
#![no_main]
use compare::{differ, kept};
use std::fs::File;
use std::os::unix::fs::FileExt;

thread_local! {
    /// The input at hand, so that it is there however the process ends: not every emulator lets libFuzzer's own handler write it.
    static AT_HAND: File = File::create(std::env::var_os("AT_HAND").expect("AT_HAND names a file")).expect("a file for the input at hand");
}

fn keep(input: &[u8]) -> std::io::Result<()> {
    AT_HAND.with(|f| f.set_len(input.len() as u64).and(f.write_all_at(input, 0)))
}

/// # Safety
/// libFuzzer lends `size` octets.
#[no_mangle]
pub unsafe extern "C" fn LLVMFuzzerTestOneInput(data: *const u8, size: usize) -> i32 {
    let input = std::slice::from_raw_parts(data, size);
    keep(input).expect("the input at hand is written");
    if let Some((lent, document)) = kept::input(input) {
        if let Err(message) = differ::document(document, &lent).0 {
            eprintln!("DIFFERENCE {message}");
            std::process::abort();
        }
    }
    0
}
