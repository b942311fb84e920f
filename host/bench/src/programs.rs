//! The splitting program beside a plain Rust program that prints the same.

use std::fs::{self, File};
use std::process::{Command, Stdio, exit};

use crate::timing::Work;

const WIDE: u64 = 100;
const HIGH: u64 = 72;
pub const RECORDS: usize = (WIDE * WIDE * HIGH) as usize;

/// Both programs, each from the same file to nowhere. Ends the run if they print different texts.
pub fn programs(ours: &str, plain: &str, stream: &str) -> Vec<Work> {
    fs::write(stream, bricks()).expect("the stream is written");
    if printed(ours, stream) != printed(plain, stream) {
        eprintln!("bench: the two splitting programs print different texts");
        exit(1);
    }
    let run = |program: &str| -> Work {
        let (program, stream) = (program.to_string(), stream.to_string());
        Box::new(move || {
            let mut command = from_stream(&program, &stream);
            let status = command.stdout(Stdio::null()).status();
            assert!(status.is_ok_and(|s| s.success()), "{program} fails");
        })
    };
    vec![run(ours), run(plain)]
}

fn from_stream(program: &str, stream: &str) -> Command {
    let mut command = Command::new(program);
    command.stdin(File::open(stream).expect("the stream is there"));
    command
}

fn printed(program: &str, stream: &str) -> Vec<u8> {
    let output = from_stream(program, stream).output();
    output.expect("the program runs").stdout
}

/// A grid of bricks as records.
fn bricks() -> Vec<u8> {
    let node = |x: u64, y: u64, z: u64| (z * (WIDE + 1) + y) * (WIDE + 1) + x;
    let mut bytes = vec![];
    for brick in 0..RECORDS as u64 {
        let (x, y, z) = (brick % WIDE, brick / WIDE % WIDE, brick / WIDE / WIDE);
        bytes.extend(66u32.to_le_bytes());
        bytes.extend(15u16.to_le_bytes());
        for (i, j, k) in [0, 1]
            .iter()
            .flat_map(|k| [(0, 0, k), (1, 0, k), (1, 1, k), (0, 1, k)])
        {
            bytes.extend(node(x + i, y + j, z + k).to_le_bytes());
        }
    }
    bytes
}
