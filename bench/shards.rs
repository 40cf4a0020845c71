// The peer of `syncord shards`: a thread for each worker over 64 maps, each behind a Mutex, and a journal behind one more. Reads a trace
// of makes, drops, finds and renames on standard input and writes the report of `replay`; a rename over two directories locks the lower one first.
// Build: rustc -O -o shards shards.rs
use std::collections::BTreeMap;
use std::io::{self, Read, Write};
use std::sync::Mutex;
use std::thread;

type Names<'a> = BTreeMap<&'a [u8], u64>;

#[derive(Clone, Copy)]
enum Reply {
    Ino(u64),
    Done,
    Exists,
    Absent,
}

struct Journal<'a> {
    next: u64,
    entries: Vec<(&'a [u8], Reply)>,
}

struct Call<'a> {
    kind: &'a [u8],
    dir: usize,
    name: &'a [u8],
    to: usize,
    new: &'a [u8],
}

fn number(word: &[u8]) -> usize {
    word.iter().fold(0, |n, digit| n * 10 + usize::from(digit - b'0'))
}

fn call_of(line: &[u8]) -> Call<'_> {
    let words: Vec<&[u8]> = line.split(|byte| *byte == b' ').collect();
    let renames = words.len() == 6;
    Call {
        kind: words[1],
        dir: number(words[2]),
        name: words[3],
        to: if renames { number(words[4]) } else { 64 },
        new: if renames { words[5] } else { &[] },
    }
}

// The call in one directory, whose lock is held; the number is taken with the journal's lock held.
fn reply<'a>(names: &mut Names<'a>, call: &Call<'a>, next: &mut u64) -> Reply {
    match call.kind {
        b"make" if names.contains_key(call.name) => Reply::Exists,
        b"make" => {
            names.insert(call.name, *next);
            *next += 1;
            Reply::Ino(*next - 1)
        }
        b"drop" => match names.remove(call.name) {
            Some(_) => Reply::Done,
            None => Reply::Absent,
        },
        b"rename" => match names.remove(call.name) {
            Some(ino) => {
                names.insert(call.new, ino);
                Reply::Done
            }
            None => Reply::Absent,
        },
        _ => names.get(call.name).map_or(Reply::Absent, |ino| Reply::Ino(*ino)),
    }
}

fn work<'a>(share: &[&'a [u8]], maps: &[Mutex<Names<'a>>], journal: &Mutex<Journal<'a>>) {
    for line in share {
        let call = call_of(line);
        if call.to < 64 && call.to != call.dir {
            let mut low = maps[call.dir.min(call.to)].lock().unwrap();
            let mut high = maps[call.dir.max(call.to)].lock().unwrap();
            let (from, to) = if call.dir < call.to { (&mut low, &mut high) } else { (&mut high, &mut low) };
            let mut journal = journal.lock().unwrap();
            let said = match from.remove(call.name) {
                Some(ino) => {
                    to.insert(call.new, ino);
                    Reply::Done
                }
                None => Reply::Absent,
            };
            journal.entries.push((line, said));
            continue;
        }
        let mut names = maps[call.dir].lock().unwrap();
        let mut journal = journal.lock().unwrap();
        let said = reply(&mut names, &call, &mut journal.next);
        journal.entries.push((line, said));
    }
}

fn main() {
    let mut text = Vec::new();
    io::stdin().read_to_end(&mut text).unwrap();
    let lines: Vec<&[u8]> = text.split(|byte| *byte == b'\n').filter(|line| !line.is_empty()).collect();
    let workers = lines.iter().filter(|line| line.starts_with(b"worker ")).count();
    let begin = lines.iter().position(|line| *line == b"calls").unwrap() + 1;
    let mut shares: Vec<Vec<&[u8]>> = vec![Vec::new(); workers];
    for line in &lines[begin..] {
        shares[number(line.split(|byte| *byte == b' ').next().unwrap())].push(line);
    }
    let maps: Vec<Mutex<Names>> = (0..64).map(|_| Mutex::new(Names::new())).collect();
    let journal = Mutex::new(Journal { next: 1, entries: Vec::with_capacity(lines.len()) });
    thread::scope(|scope| {
        for share in &shares {
            let (maps, journal) = (&maps, &journal);
            scope.spawn(move || work(share, maps, journal));
        }
    });
    let journal = journal.into_inner().unwrap();
    let mut out = Vec::new();
    writeln!(out, "syncord-replay 1 workers {workers} entries {}", journal.entries.len()).unwrap();
    for (line, said) in &journal.entries {
        out.extend_from_slice(line);
        match said {
            Reply::Ino(ino) => writeln!(out, " = ino {ino}").unwrap(),
            Reply::Done => out.extend_from_slice(b" = done\n"),
            Reply::Exists => out.extend_from_slice(b" = exists\n"),
            Reply::Absent => out.extend_from_slice(b" = absent\n"),
        }
    }
    let maps: Vec<Names> = maps.into_iter().map(|names| names.into_inner().unwrap()).collect();
    writeln!(out, "final {}", maps.iter().map(|names| names.len()).sum::<usize>()).unwrap();
    for (dir, names) in maps.iter().enumerate() {
        for (name, ino) in names {
            write!(out, "{dir} ").unwrap();
            out.extend_from_slice(name);
            writeln!(out, " {ino}").unwrap();
        }
    }
    out.extend_from_slice(b"attaches 0\nend\n");
    io::stdout().write_all(&out).unwrap();
}
