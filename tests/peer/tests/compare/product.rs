//! What is compared with the peer: the static library's two functions, and the built programs. The benchmark uses
//! this file too.

use std::path::PathBuf;

mod library {
    #[link(name = "entry", kind = "static")]
    extern "C" {
        pub fn park_step(
            image: *mut u8,
            image_len: usize,
            line: *const u8,
            line_len: usize,
            answer: *mut u8,
            answer_len: usize,
        ) -> usize;
        pub fn park_bad_field(line: *const u8, line_len: usize) -> u8;
    }
}

pub fn park_step(image: &mut [u8], line: &[u8], answer: &mut [u8]) -> usize {
    let (image_len, line_len, answer_len) = (image.len(), line.len(), answer.len());
    // SAFETY: three separate buffers, each valid for the length that goes with it.
    unsafe {
        library::park_step(image.as_mut_ptr(), image_len, line.as_ptr(), line_len, answer.as_mut_ptr(), answer_len)
    }
}

pub fn park_bad_field(line: &[u8]) -> u8 {
    // SAFETY: a buffer valid for the length that goes with it; an empty one has a pointer too, which is not null.
    unsafe { library::park_bad_field(line.as_ptr(), line.len()) }
}

pub fn parkline() -> PathBuf {
    match std::env::var_os("PARKLINE") {
        Some(path) => PathBuf::from(path),
        None => PathBuf::from(concat!(env!("CARGO_MANIFEST_DIR"), "/../../target/bin/parkline")),
    }
}

/// The program that tries the lamps.
pub fn lampline() -> PathBuf {
    PathBuf::from(concat!(env!("CARGO_MANIFEST_DIR"), "/../../target/bin/lampline"))
}

/// The program that tries the phones.
pub fn phoneline() -> PathBuf {
    PathBuf::from(concat!(env!("CARGO_MANIFEST_DIR"), "/../../target/bin/phoneline"))
}
