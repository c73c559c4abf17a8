//! Runs a program on one input in many pieces: what it writes must not depend
//! on how the input was cut.
//!
//!     pieces CUTTINGS LONGEST PROGRAM WORD.. < input > output
//!
//! The input is handed over through a socket that keeps the pieces apart, so
//! that each read brings exactly one of them; no piece is longer than LONGEST,
//! the length of the program's buffer. The first run gets the input through a
//! plain pipe; its output goes to standard output and what it says to standard
//! error. Every further run must write the same, byte for byte.

use reference::xorshift::Xorshift;
use std::io::{Read, Write};
use std::os::unix::io::{FromRawFd, OwnedFd};
use std::process::{Command, ExitCode, Output, Stdio};

/// Lengths at which the programs' buffers and their units end.
const EDGES: [usize; 12] = [1, 187, 188, 189, 203, 204, 205, 4095, 4096, 48128, 65535, 65536];

extern "C" {
    fn socketpair(domain: i32, kind: i32, protocol: i32, ends: *mut i32) -> i32;
}

/// Two ends of a connection that keeps packets apart: AF_UNIX, SOCK_SEQPACKET,
/// with SOCK_CLOEXEC, so that the program does not hold the other end open.
fn connection() -> (OwnedFd, OwnedFd) {
    let mut ends = [0; 2];
    let made = unsafe { socketpair(1, 5 | 0o2000000, 0, ends.as_mut_ptr()) };
    assert_eq!(made, 0, "no socket pair");
    unsafe { (OwnedFd::from_raw_fd(ends[0]), OwnedFd::from_raw_fd(ends[1])) }
}

/// The lengths of the pieces of one cutting: all of one length, of one of the
/// edges, or at random from short ones, long ones and edges.
fn cutting(case: u64, length: usize, longest: usize) -> Vec<usize> {
    let mut r = Xorshift::new(case);
    let fixed = EDGES.get(case as usize).copied();
    let style = r.below(4);
    let mut pieces = Vec::new();
    let mut left = length;
    while left > 0 {
        let piece = fixed.unwrap_or_else(|| match style {
            0 => 1 + r.below(300),
            1 => 1 + r.below(70_000),
            2 => EDGES[r.below(EDGES.len())],
            _ => [1 + r.below(3), 1 + r.below(5_000), EDGES[r.below(EDGES.len())]][r.below(3)],
        });
        let piece = piece.min(longest).min(left);
        pieces.push(piece);
        left -= piece;
    }
    pieces
}

/// Runs the program on the input in pieces; with none it gets a plain pipe.
fn run(words: &[String], input: &[u8], pieces: Option<&[usize]>) -> Output {
    let mut command = Command::new(&words[0]);
    command.args(&words[1..]).stdout(Stdio::piped()).stderr(Stdio::piped());
    let writer: Box<dyn FnOnce() + Send>;
    let input = input.to_vec();
    let child = match pieces {
        None => {
            let mut child = command.stdin(Stdio::piped()).spawn().expect("the program starts");
            let mut pipe = child.stdin.take().expect("a pipe");
            writer = Box::new(move || {
                let _ = pipe.write_all(&input);
            });
            child
        }
        Some(pieces) => {
            let (ours, theirs) = connection();
            let child = command.stdin(Stdio::from(theirs)).spawn().expect("the program starts");
            let pieces = pieces.to_vec();
            writer = Box::new(move || {
                let mut socket = std::fs::File::from(ours);
                let mut at = 0;
                for piece in pieces {
                    match socket.write(&input[at..at + piece]) {
                        Ok(n) if n == piece => at += piece,
                        _ => return,
                    }
                }
            });
            child
        }
    };
    // The program holds its end alone, so that ours closing is the end of its input.
    drop(command);
    let thread = std::thread::spawn(writer);
    let output = child.wait_with_output().expect("the program ends");
    thread.join().expect("the writer ends");
    output
}

fn main() -> ExitCode {
    let words: Vec<String> = std::env::args().skip(1).collect();
    let numbers: Vec<usize> = words.iter().take(2).filter_map(|w| w.parse().ok()).collect();
    let (count, longest, program) = match (&numbers[..], &words[..]) {
        (&[count, longest], [_, _, program @ ..]) => (count, longest, program),
        _ => {
            eprintln!("usage: pieces CUTTINGS LONGEST PROGRAM WORD.. < input > output");
            return ExitCode::from(2);
        }
    };
    let mut input = Vec::new();
    std::io::stdin().read_to_end(&mut input).expect("an input");
    let first = run(program, &input, None);
    for case in 0..count as u64 {
        let pieces = cutting(case, input.len(), longest);
        let next = run(program, &input, Some(&pieces));
        if (&next.stdout, &next.stderr) != (&first.stdout, &first.stderr) {
            eprintln!("pieces: cutting {case} of {} bytes gives another output", input.len());
            return ExitCode::FAILURE;
        }
    }
    std::io::stdout().write_all(&first.stdout).expect("standard output");
    std::io::stderr().write_all(&first.stderr).expect("standard error");
    ExitCode::SUCCESS
}
