//! `measured READER FILE [clearing]`: reads the streams of a file, once to warm up and once between
//! the marks that the plugin (`count.c`) counts between. With `clearing` the node array is cleared
//! before each stream, and that is counted too; else it is full of other words.

use std::{arch::asm, env, hint::black_box, path::Path};

use array_reader::Answer;

type Exported = unsafe extern "C" fn(*const u64, usize, *mut u64, usize, *mut usize) -> u64;

extern "C" {
    fn measured_crate_reading(
        stream: *const u64,
        words: usize,
        nodes: *mut u64,
        room: usize,
        count: *mut usize,
    ) -> u64;
    fn measured_agreed_reading(
        stream: *const u64,
        words: usize,
        nodes: *mut u64,
        room: usize,
        count: *mut usize,
    ) -> u64;
}

/// The answer's number, and the words of the tree.
type Told = (u64, usize);

fn main() {
    let words: Vec<String> = env::args().collect();
    let streams = measure::read(Path::new(&words[2])).expect("a file of streams");
    let clearing = words.len() > 3;
    let file = Path::new(&words[2]).file_name().expect("a file");
    let refused = file.to_string_lossy().starts_with("refused");
    let run = |read: &dyn Fn(&[u64], &mut [u64]) -> Told| run(&streams, clearing, refused, read);
    match words[1].as_str() {
        "proved-crate" => run(&|s, n| exported(measured_crate_reading, s, n)),
        "proved-agreed" => run(&|s, n| exported(measured_agreed_reading, s, n)),
        "array-crate" => run(&|s, n| array(array_reader::crate_reading(s, n))),
        "array-agreed" => run(&|s, n| array(array_reader::agreed_reading(s, n))),
        "piccolo" => run(&|s, _| (!piccolo::parses(s) as u64, 0)),
        "piccolo-flat" => run(&|s, _| match piccolo::parse(s) {
            Ok(tree) => (0, tree.len()),
            Err(refusal) => (refusal.number, 0),
        }),
        other => panic!("no reader {other}"),
    }
}

fn exported(reading: Exported, stream: &[u64], nodes: &mut [u64]) -> Told {
    let mut count = 0;
    let room = nodes.len();
    let number = unsafe {
        reading(
            stream.as_ptr(),
            stream.len(),
            nodes.as_mut_ptr(),
            room,
            &mut count,
        )
    };
    (number, count)
}

fn array(answer: Answer) -> Told {
    (answer.number, answer.count as usize)
}

fn run(
    streams: &[Vec<u64>],
    clearing: bool,
    refused: bool,
    read: &dyn Fn(&[u64], &mut [u64]) -> Told,
) {
    let longest = streams.iter().map(Vec::len).max().unwrap_or(0);
    let mut nodes = vec![0x5555_5555_5555_5555; longest * 4];
    for pass in 0..2 {
        for stream in streams {
            let tokens = stream.len() / 4 - 1;
            let room = &mut nodes[..16 * tokens + 4];
            if pass == 1 {
                begin();
            }
            if clearing {
                black_box(&mut *room).fill(0);
            }
            let told = black_box(read(black_box(stream), room));
            if pass == 1 {
                end();
            }
            assert_eq!(
                told.0 != 0,
                refused,
                "a stream is read otherwise than expected"
            );
        }
    }
}

#[inline(always)]
fn begin() {
    unsafe {
        asm!(
            "nopl 0x6d61726b(%rax)",
            "pushq %rax",
            "popq %rax",
            options(att_syntax)
        )
    }
}

#[inline(always)]
fn end() {
    unsafe { asm!("nopl 0x6d61726c(%rax)", options(att_syntax)) }
}
