//! Calls of the library from Rust: a safe wrapper, and a program that converts one file and lists it.
//!
//!     rustc -L native=FOLDER -l static=objconv objconv.rs && ./objconv OBJECT WORD ..

use std::os::raw::{c_char, c_int, c_void};

extern "C" {
    fn objconv_convert(
        input: *const c_void, size: usize, words: *const c_char, words_size: usize,
        output: *mut c_void, room: usize, output_size: *mut usize, text: *mut c_char, text_room: usize, text_size: *mut usize,
    ) -> c_int;
    fn objconv_list(
        input: *const c_void, size: usize,
        output: *mut c_char, room: usize, output_size: *mut usize, text: *mut c_char, text_room: usize, text_size: *mut usize,
    ) -> c_int;
}

const DONE: c_int = 0;
const ROOM: c_int = 11;
const TEXT: usize = 128;

/// A status, and its text.
#[derive(Debug)]
pub struct Refused(pub i32, pub String);

// calls with a larger room until the output fits: at most twice
fn grown(guess: usize, call: impl Fn(*mut u8, usize, &mut usize, *mut c_char, &mut usize) -> c_int) -> Result<Vec<u8>, Refused> {
    let (mut output, mut text, mut size, mut text_size) = (vec![0; guess], [0 as c_char; TEXT], 0, 0);
    loop {
        // a Vec and an array are never null, and what they own overlaps nothing
        match call(output.as_mut_ptr(), output.len(), &mut size, text.as_mut_ptr(), &mut text_size) {
            DONE => {
                output.truncate(size);
                return Ok(output);
            }
            ROOM => output = vec![0; size],
            status => return Err(Refused(status, text[..text_size].iter().map(|c| *c as u8 as char).collect())),
        }
    }
}

/// The object of these bytes, converted as the words ask.
pub fn convert(object: &[u8], words: &[&str]) -> Result<Vec<u8>, Refused> {
    let block: Vec<u8> = words.iter().flat_map(|word| word.bytes().chain([0])).collect();
    grown(object.len(), |output, room, size, text, text_size| unsafe {
        objconv_convert(object.as_ptr().cast(), object.len(), block.as_ptr().cast(), block.len(), output.cast(), room, size, text, TEXT, text_size)
    })
}

/// The lines of its symbols.
pub fn listing(object: &[u8]) -> Result<Vec<u8>, Refused> {
    grown(object.len(), |output, room, size, text, text_size| unsafe {
        objconv_list(object.as_ptr().cast(), object.len(), output.cast(), room, size, text, TEXT, text_size)
    })
}

fn main() {
    let words: Vec<String> = std::env::args().skip(1).collect();
    let object = std::fs::read(&words[0]).expect("the object is not read");
    let options: Vec<&str> = words[1..].iter().map(String::as_str).collect();
    match convert(&object, &options) {
        Ok(output) => {
            println!("{} bytes", output.len());
            print!("{}", String::from_utf8(listing(&output).expect("an output is listed")).expect("a listing is ASCII"));
        }
        Err(Refused(status, text)) => {
            println!("{status} {text}");
            std::process::exit(status);
        }
    }
}
