// Feeds a stream from Rust on every feed of a file that tests/outside/feeds.py made, by a declaration of its own, and compares the number,
// each byte of the buffer and of the numbers beside it, and that the piece is as it was.
//
//     stream_caller FILE [--case N]
//
// Each feed runs twice, with other bytes in the numbers that it answers beforehand. An empty buffer is NULL the first time and a pointer
// that leads nowhere the second. The first failure ends the program.
use std::process::exit;
use std::ptr;

#[rustfmt::skip]
extern "C" {
    fn tirmuzzle_stream_feed(collected: *mut u64, closed: *mut u32, buffer: *mut u8, buffer_length: usize, piece: *const u8,
                             piece_length: usize, used: *mut u64, length: *mut u64) -> u32;
}

/// What is still to be read of the file.
struct Rest<'a>(&'a [u8]);

impl<'a> Rest<'a> {
    fn bytes(&mut self, length: usize) -> &'a [u8] {
        let (taken, rest) = self.0.split_at(length);
        self.0 = rest;
        taken
    }

    fn number(&mut self, length: usize) -> u64 {
        self.bytes(length).iter().rev().fold(0, |number, byte| number << 8 | u64::from(*byte))
    }
}

/// What stands after a feed, and what must stand.
#[derive(PartialEq)]
struct After {
    answer: u32,
    collected: u64,
    closed: u32,
    used: u64,
    length: u64,
    piece: Vec<u8>,
    buffer: Vec<u8>,
}

struct Feed {
    collected: u64,
    closed: u32,
    piece: Vec<u8>,
    buffer: Vec<u8>,
    after: After,
}

impl Feed {
    fn read(rest: &mut Rest) -> Feed {
        let (answer, piece, buffer) = (rest.number(4) as u32, rest.number(4) as usize, rest.number(4) as usize);
        let (collected, collected_after) = (rest.number(8), rest.number(8));
        let (closed, closed_after) = (rest.number(4) as u32, rest.number(4) as u32);
        let (used, length) = (rest.number(8), rest.number(8));
        let piece = rest.bytes(piece).to_vec();
        let (before, after) = (rest.bytes(buffer).to_vec(), rest.bytes(buffer).to_vec());
        let after =
            After { answer, collected: collected_after, closed: closed_after, used, length, piece: piece.clone(), buffer: after };
        Feed { collected, closed, piece, buffer: before, after }
    }

    fn fed(&self, filling: u64, null: bool) -> After {
        let (mut piece, mut buffer) = (self.piece.clone(), self.buffer.clone());
        let (mut collected, mut closed, mut used, mut length) = (self.collected, self.closed, filling, filling);
        let pointer = |bytes: &mut Vec<u8>| if bytes.is_empty() && null { ptr::null_mut() } else { bytes.as_mut_ptr() };
        // Each pointer has how many bytes it is good for beside it, and no two of the call overlap.
        let answer = unsafe {
            tirmuzzle_stream_feed(
                &mut collected, &mut closed, pointer(&mut buffer), buffer.len(), pointer(&mut piece), piece.len(), &mut used, &mut length,
            )
        };
        After { answer, collected, closed, used, length, piece, buffer }
    }
}

fn hex(bytes: &[u8]) -> String {
    bytes.iter().map(|byte| format!("{byte:02x}")).collect()
}

fn print(what: &str, after: &After) {
    let After { answer, collected, closed, used, length, piece, buffer } = after;
    eprintln!("  {what}: answer {answer}, collected {collected}, closed {closed}, used {used}, length {length}");
    eprintln!("    piece, {} bytes: {}", piece.len(), hex(piece));
    eprintln!("    buffer, {} bytes: {}", buffer.len(), hex(buffer));
}

fn run(feed: &Feed, place: u64, seed: u64) {
    for (filling, null) in [(0x5a5a_5a5a_5a5a_5a5a, true), (0xc3c3_c3c3_c3c3_c3c3, false)] {
        let found = feed.fed(filling, null);
        if found != feed.after {
            eprintln!("stream_caller.rs: feed {place} comes out wrong");
            eprintln!("  collected {}, closed {}, buffer before: {}", feed.collected, feed.closed, hex(&feed.buffer));
            print("expected", &feed.after);
            print("found", &found);
            eprintln!("  again: tests/outside/run --seed {seed} --feed {place}");
            exit(1);
        }
    }
}

fn main() {
    let words: Vec<String> = std::env::args().collect();
    let only: Option<u64> = match words.len() {
        2 => None,
        4 if words[2] == "--case" => Some(words[3].parse().expect("a number after --case")),
        _ => panic!("usage: stream_caller FILE [--case N]"),
    };
    let content = std::fs::read(&words[1]).expect("the file of feeds");
    let mut rest = Rest(&content);
    assert_eq!(rest.bytes(8), b"TIRMUZZF", "this is no file of feeds");
    let (seed, feeds) = (rest.number(8), rest.number(4));
    let mut done = 0;
    for place in 0..feeds {
        let feed = Feed::read(&mut rest);
        if only.is_none() || only == Some(place) {
            run(&feed, place, seed);
            done += 1;
        }
    }
    assert!(rest.0.is_empty(), "bytes stand after the last feed");
    assert!(done > 0, "there is no such feed");
    println!("{done} feeds, each twice, seed {seed}");
}
