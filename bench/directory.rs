// The peer of `syncord replay`: the same report over a BTreeMap, of a trace that is well formed. It reads the trace from standard
// input. Build: rustc -O -o directory directory.rs
use std::collections::BTreeMap;
use std::io::{self, Read, Write};

type Place<'a> = (u8, &'a [u8]);

struct Directory<'a> {
    names: BTreeMap<Place<'a>, u64>,
    next: u64,
}

fn number(word: &[u8]) -> u64 {
    word.iter().fold(0, |n, digit| n * 10 + u64::from(digit - b'0'))
}

fn rename<'a>(d: &mut Directory<'a>, from: Place<'a>, to: Place<'a>) -> &'static [u8] {
    if from == to {
        return if d.names.contains_key(&from) { b"done" } else { b"absent" };
    }
    match d.names.remove(&from) {
        Some(ino) => {
            d.names.insert(to, ino);
            b"done"
        }
        None => b"absent",
    }
}

fn reply<'a>(d: &mut Directory<'a>, words: &[&'a [u8]], out: &mut Vec<u8>) {
    let dir = number(words[2]) as u8;
    match words[1] {
        b"make" => {
            let place = (dir, words[3]);
            if d.names.contains_key(&place) {
                out.extend_from_slice(b"exists");
            } else {
                d.names.insert(place, d.next);
                out.extend_from_slice(b"ino ");
                write!(out, "{}", d.next).unwrap();
                d.next += 1;
            }
        }
        b"drop" => {
            let there = d.names.remove(&(dir, words[3])).is_some();
            out.extend_from_slice(if there { b"done" } else { b"absent" });
        }
        b"rename" => {
            let to = number(words[4]) as u8;
            let said = rename(d, (dir, words[3]), (to, words[5]));
            out.extend_from_slice(said);
        }
        b"find" => match d.names.get(&(dir, words[3])) {
            Some(ino) => write!(out, "ino {ino}").unwrap(),
            None => out.extend_from_slice(b"absent"),
        },
        b"count" => {
            let first: Place = (dir, b"");
            let last: Place = (dir + 1, b"");
            write!(out, "number {}", d.names.range(first..last).count()).unwrap();
        }
        _ => {
            let after = if words.len() == 4 { words[3] } else { b"" };
            let mut behind = d.names.range((dir, after)..);
            let next = behind.find(|((_, name), _)| words.len() == 3 || *name != after);
            match next {
                Some(((there, name), _)) if *there == dir => {
                    out.extend_from_slice(b"name ");
                    out.extend_from_slice(name);
                }
                _ => out.extend_from_slice(b"end"),
            }
        }
    }
}

fn main() {
    let mut text = Vec::new();
    io::stdin().read_to_end(&mut text).unwrap();
    let mut lines = text.split(|byte| *byte == b'\n');
    let mut workers = 0;
    for line in lines.by_ref() {
        if line.starts_with(b"worker ") {
            workers += 1;
        }
        if line == b"calls" {
            break;
        }
    }
    let mut d = Directory { names: BTreeMap::new(), next: 1 };
    let mut body = Vec::new();
    let mut entries = 0;
    let mut attaches = Vec::new();
    for line in lines.filter(|line| !line.is_empty()) {
        let words: Vec<&[u8]> = line.split(|byte| *byte == b' ').collect();
        if words[1] == b"attach" {
            attaches.push(words[2]);
            continue;
        }
        entries += 1;
        body.extend_from_slice(line);
        body.extend_from_slice(b" = ");
        reply(&mut d, &words, &mut body);
        body.push(b'\n');
    }
    let mut out = Vec::new();
    writeln!(out, "syncord-replay 1 workers {workers} entries {entries}").unwrap();
    out.extend_from_slice(&body);
    writeln!(out, "final {}", d.names.len()).unwrap();
    for ((dir, name), ino) in &d.names {
        write!(out, "{dir} ").unwrap();
        out.extend_from_slice(name);
        writeln!(out, " {ino}").unwrap();
    }
    writeln!(out, "attaches {}", attaches.len()).unwrap();
    for (place, name) in attaches.iter().enumerate() {
        write!(out, "{} ", place + 1).unwrap();
        out.extend_from_slice(name);
        out.push(b'\n');
    }
    out.extend_from_slice(b"end\n");
    io::stdout().write_all(&out).unwrap();
}
