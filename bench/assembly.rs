// The peer of `syncord asm` for texts of names and of two instructions: the same slots, with names in a HashMap. It reads the text
// from standard input. Build: rustc -O -o assembly assembly.rs
use std::collections::HashMap;
use std::io::{self, Read, Write};
use std::process::exit;

fn main() {
    let mut text = Vec::new();
    io::stdin().read_to_end(&mut text).unwrap();
    let mut names: HashMap<&[u8], (usize, usize)> = HashMap::new();
    let mut slots: Vec<u64> = Vec::new();
    for (line, piece) in text.split(|byte| *byte == b'\n').enumerate() {
        match piece {
            [b':', name @ ..] => {
                let good = |byte: &u8| matches!(byte, b'a'..=b'z' | b'0'..=b'9' | b'_');
                if name.is_empty() || name.len() > 32 || !name.iter().all(good) || names.contains_key(name) {
                    exit(1);
                }
                names.insert(name, (line, slots.len()));
            }
            b"mov64 r0 0" => slots.push(0xb700_0000_0000_0000),
            b"exit" => slots.push(0x9500_0000_0000_0000),
            b"" => {}
            _ => exit(1),
        }
    }
    let mut out = Vec::new();
    for slot in slots {
        writeln!(out, "{slot:016x}").unwrap();
    }
    io::stdout().write_all(&out).unwrap();
}
