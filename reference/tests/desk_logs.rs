//! The desk log: how a stream ends, which books refuse the start, and the program itself.

mod common;
use common::{book, key, open};
use reference::desk_log;
use std::io::Write;
use std::path::Path;
use std::process::{Command, Stdio};

fn log(stream: &[u8]) -> String {
    desk_log(Some(&book(&[[1, 7, 0]], &["com"])), stream)
}

#[test]
fn an_empty_stream_prints_nothing() {
    assert_eq!(log(&[]), "");
}

#[test]
fn a_cut_head_or_payload_is_one_last_event() {
    let (first, second) = (key(1, b'a'), open(1, "a.com"));
    assert_eq!(log(&first), "E 1 0 0\n");
    for cut in 1..second.len() {
        assert_eq!(log(&[&first, &second[..cut]].concat()), "E 1 0 0\nE 2 3 0\n", "{cut}");
    }
}

#[test]
fn a_size_over_4096_ends_the_stream_after_its_head() {
    let head = |size: u32| [&[1, 0, 0, 0, 1, 3][..], &size.to_be_bytes()].concat();
    for size in [4_097, u32::MAX] {
        let stream = [head(size), vec![0; 4_097], key(1, b'a')].concat();
        assert_eq!(log(&stream), "E 1 3 0\n", "{size}");
        assert_eq!(log(&head(size)), "E 1 3 0\n", "{size}");
    }
    let stream = [head(4_096), vec![0; 4_096], key(1, b'a')].concat();
    assert_eq!(log(&stream), "E 1 7 0\nE 2 0 0\n");
}

#[test]
fn a_refused_start_prints_its_number_only() {
    let stream = key(1, b'a');
    let too_long = [&[0; 32_761][..], &book(&[], &[])].concat();
    for unsound in [None, Some(&[][..]), Some(&[0; 9]), Some(&too_long)] {
        assert_eq!(desk_log(unsound, &stream), "S 6\n");
    }
}

#[test]
fn the_program_reads_its_book_in_the_working_directory() {
    let directory = Path::new(env!("CARGO_TARGET_TMPDIR")).join("desk_logs");
    std::fs::create_dir_all(&directory).unwrap();
    let stream = [open(1, "a.com"), key(1, b'a'), vec![1]].concat();
    let bytes = book(&[[1, 7, 0]], &["com"]);
    std::fs::write(directory.join("book.bin"), &bytes).unwrap();
    assert_eq!(run_in(&directory, &stream), desk_log(Some(&bytes), &stream));
    std::fs::remove_file(directory.join("book.bin")).unwrap();
    assert_eq!(run_in(&directory, &stream), "S 6\n");
}

fn run_in(directory: &Path, stream: &[u8]) -> String {
    let mut program = Command::new(env!("CARGO_BIN_EXE_reference-desklog"));
    program.current_dir(directory).stdin(Stdio::piped()).stdout(Stdio::piped());
    let mut running = program.spawn().unwrap();
    running.stdin.take().unwrap().write_all(stream).unwrap();
    let output = running.wait_with_output().unwrap();
    assert!(output.status.success());
    String::from_utf8(output.stdout).unwrap()
}
