//! faults FILE COMMAND...: runs a command whose standard input gives the bytes of FILE and then fails, as a broken disk does.
//!
//! The bytes stand at the end of a page of memory, with no page behind it, and standard input is that memory, as
//! /proc/self/mem has it: reading on is an input/output error. It needs no rights, and holds for an emulated program too.

use std::fs::File;
use std::io::{Read, Seek, SeekFrom};
use std::process::{exit, Command};

const PAGE: usize = 65536;
const READ_AND_WRITE: i32 = 3;
const PRIVATE_AND_NEW: i32 = 0x22;

extern "C" {
    fn mmap(at: *mut u8, length: usize, rights: i32, kind: i32, file: i32, offset: i64) -> *mut u8;
    fn munmap(at: *mut u8, length: usize) -> i32;
}

/// Where the text stands: it ends where the memory does.
fn at_the_end_of_memory(text: &[u8]) -> u64 {
    assert!(text.len() <= PAGE, "the text is longer than a page");
    // SAFETY: the memory is new, two pages long; the text goes to the end of the first, which stays until this process ends.
    unsafe {
        let page = mmap(std::ptr::null_mut(), 2 * PAGE, READ_AND_WRITE, PRIVATE_AND_NEW, -1, 0);
        assert!(page as isize != -1, "no memory");
        assert!(munmap(page.add(PAGE), PAGE) == 0, "the second page stays");
        let start = page.add(PAGE - text.len());
        std::ptr::copy_nonoverlapping(text.as_ptr(), start, text.len());
        start as u64
    }
}

fn memory_from(start: u64) -> File {
    let mut memory = File::open("/proc/self/mem").expect("/proc/self/mem opens");
    memory.seek(SeekFrom::Start(start)).expect("/proc/self/mem has a position");
    memory
}

fn main() {
    let words: Vec<String> = std::env::args().skip(1).collect();
    let [file, command, arguments @ ..] = &words[..] else {
        eprintln!("usage: faults FILE COMMAND...");
        exit(2);
    };
    let text = std::fs::read(file).expect("the text is read");
    let start = at_the_end_of_memory(&text);
    let mut read = Vec::new();
    let failed = memory_from(start).read_to_end(&mut read).is_err();
    assert!(failed && read == text, "the memory gives the text and then fails");
    let ended = Command::new(command).args(arguments).stdin(memory_from(start)).status().expect("the command runs");
    exit(ended.code().unwrap_or(99));
}
