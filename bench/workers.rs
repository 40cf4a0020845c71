// The peers of `syncord bulk`, of `syncord replay` and of `syncord pool` by threads: a thread for each worker over one BTreeMap, behind a
// Mutex, or behind an RwLock where it only reads. Words: `bulk SEED WORKERS CALLS` writes the same summary; `reads` takes a trace of makes
// by worker 0 and finds by all others on standard input, makes the names first, and writes the report worker by worker; `pool` takes a
// trace of makes, drops and finds, whose calls stand in a VecDeque behind a Mutex of its own, and writes a report of the pool.
// Build: rustc -O -o workers workers.rs
use std::collections::{BTreeMap, VecDeque};
use std::env;
use std::io::{self, Read, Write};
use std::sync::{Mutex, RwLock};
use std::thread;

type Names = BTreeMap<(u8, Vec<u8>), u64>;

struct Directory {
    names: Names,
    next: u64,
}

#[derive(Clone, Copy)]
struct Call {
    kind: u8,
    dir: u8,
    name: u8,
    to: u8,
    new: u8,
}

fn name(number: u8) -> Vec<u8> {
    format!("n{number}").into_bytes()
}

// Which of the seven kinds the reply is.
fn reply(d: &mut Directory, call: Call) -> usize {
    let place = (call.dir, name(call.name));
    match call.kind {
        0..=2 => {
            if d.names.contains_key(&place) {
                return 2;
            }
            d.names.insert(place, d.next);
            d.next += 1;
            0
        }
        3 => if d.names.remove(&place).is_some() { 1 } else { 3 },
        4 => {
            let to = (call.to, name(call.new));
            if to == place {
                return if d.names.contains_key(&place) { 1 } else { 3 };
            }
            match d.names.remove(&place) {
                Some(ino) => {
                    d.names.insert(to, ino);
                    1
                }
                None => 3,
            }
        }
        5 => if d.names.contains_key(&place) { 0 } else { 3 },
        6 => {
            let first = (call.dir, Vec::new());
            let last = (call.dir + 1, Vec::new());
            std::hint::black_box(d.names.range(first..last).count());
            4
        }
        _ => {
            let behind = d.names.range(place.clone()..).find(|(at, _)| **at != place);
            match behind {
                Some(((there, _), _)) if *there == call.dir => 5,
                _ => 6,
            }
        }
    }
}

struct Draws(u64);

impl Draws {
    fn next(&mut self) -> u64 {
        self.0 = (self.0 * 1_103_515_245 + 12_345) % 2_147_483_648;
        self.0 / 65_536
    }
}

// The calls of each worker, and how many attachments stand among them.
fn drawn(seed: u64, workers: u64, calls: u64) -> (Vec<Vec<Call>>, u64) {
    let mut draws = Draws(seed % 2_147_483_648);
    let mut shares = vec![Vec::new(); workers as usize];
    let mut attaches = 0;
    for i in 0..calls {
        if i % 1000 == 500 {
            attaches += 1;
        }
        let (a, b, c) = (draws.next(), draws.next(), draws.next());
        let worker = i % workers;
        let dir = |n: u64| (worker + workers * (n % 4)) as u8;
        let named = |n: u64| (n / 4 % 64) as u8;
        shares[worker as usize].push(Call { kind: (a % 8) as u8, dir: dir(b), name: named(b), to: dir(c), new: named(c) });
    }
    (shares, attaches)
}

fn bulk(seed: u64, workers: u64, calls: u64) {
    let (shares, attaches) = drawn(seed, workers, calls);
    let directory = Mutex::new(Directory { names: Names::new(), next: 1 });
    // each call with its reply is kept behind the lock, as a history
    let history = Mutex::new(Vec::with_capacity(calls as usize));
    thread::scope(|scope| {
        for (worker, share) in shares.iter().enumerate() {
            let (directory, history) = (&directory, &history);
            scope.spawn(move || {
                for call in share {
                    let mut d = directory.lock().unwrap();
                    let said = reply(&mut d, *call);
                    history.lock().unwrap().push((worker, *call, said));
                }
            });
        }
    });
    let mut counts = [0u64; 7];
    for (_, _, said) in history.into_inner().unwrap() {
        counts[said] += 1;
    }
    let left = directory.into_inner().unwrap().names.len();
    println!("bulk seed {seed} workers {workers} calls {calls} attaches {attaches}");
    let [ino, done, exists, absent, number, named, end] = counts;
    println!("ino {ino} done {done} exists {exists} absent {absent} number {number} name {named} end {end}");
    println!("left {left}");
}

fn number(word: &[u8]) -> u64 {
    word.iter().fold(0, |n, digit| n * 10 + u64::from(digit - b'0'))
}

// How many workers the trace on these lines has, and the lines of its calls.
fn calls_of<'a>(text: &'a [u8]) -> (usize, Vec<&'a [u8]>) {
    let lines: Vec<&[u8]> = text.split(|byte| *byte == b'\n').filter(|line| !line.is_empty()).collect();
    let workers = lines.iter().filter(|line| line.starts_with(b"worker ")).count();
    let begin = lines.iter().position(|line| *line == b"calls").unwrap() + 1;
    (workers, lines[begin..].to_vec())
}

fn put_names(out: &mut Vec<u8>, names: &Names) {
    writeln!(out, "final {}", names.len()).unwrap();
    for ((dir, name), ino) in names {
        write!(out, "{dir} ").unwrap();
        out.extend_from_slice(name);
        writeln!(out, " {ino}").unwrap();
    }
}

fn reads() {
    let mut text = Vec::new();
    io::stdin().read_to_end(&mut text).unwrap();
    let (workers, calls) = calls_of(&text);
    let mut shares: Vec<Vec<&[u8]>> = vec![Vec::new(); workers];
    for line in &calls {
        let worker = number(line.split(|byte| *byte == b' ').next().unwrap());
        shares[worker as usize].push(line);
    }
    let directory = RwLock::new(Directory { names: Names::new(), next: 1 });
    let serve = |line: &[u8], out: &mut Vec<u8>| {
        let words: Vec<&[u8]> = line.split(|byte| *byte == b' ').collect();
        let place = (number(words[2]) as u8, words[3].to_vec());
        let ino = if words[1] == b"make" {
            let mut d = directory.write().unwrap();
            let ino = d.next;
            d.next += 1;
            d.names.insert(place, ino);
            Some(ino)
        } else {
            directory.read().unwrap().names.get(&place).copied()
        };
        out.extend_from_slice(line);
        match ino {
            Some(ino) => writeln!(out, " = ino {ino}").unwrap(),
            None => out.extend_from_slice(b" = absent\n"),
        }
    };
    let mut bodies = vec![Vec::new(); workers];
    thread::scope(|scope| {
        for (share, body) in shares.iter().zip(bodies.iter_mut()) {
            let serve = &serve;
            scope.spawn(move || {
                for line in share {
                    serve(line, body);
                }
            });
        }
    });
    let d = directory.into_inner().unwrap();
    let mut out = Vec::new();
    writeln!(out, "syncord-replay 1 workers {workers} entries {}", calls.len()).unwrap();
    for body in bodies {
        out.extend_from_slice(&body);
    }
    put_names(&mut out, &d.names);
    out.extend_from_slice(b"attaches 0\nend\n");
    io::stdout().write_all(&out).unwrap();
}

// Makes a call of a pool, and says what it is answered.
fn served(d: &mut Directory, line: &[u8]) -> Option<u64> {
    let words: Vec<&[u8]> = line.split(|byte| *byte == b' ').collect();
    let place = (number(words[2]) as u8, words[3].to_vec());
    match words[1] {
        b"make" if d.names.contains_key(&place) => None,
        b"make" => {
            let ino = d.next;
            d.next += 1;
            d.names.insert(place, ino);
            Some(ino)
        }
        b"drop" => d.names.remove(&place).map(|_| 0),
        _ => d.names.get(&place).copied(),
    }
}

fn pool() {
    let mut text = Vec::new();
    io::stdin().read_to_end(&mut text).unwrap();
    let (workers, calls) = calls_of(&text);
    let queue: Mutex<VecDeque<(usize, &[u8])>> = Mutex::new(calls.iter().copied().enumerate().collect());
    let directory = Mutex::new((Directory { names: Names::new(), next: 1 }, Vec::with_capacity(calls.len())));
    thread::scope(|scope| {
        for worker in 0..workers {
            let (queue, directory) = (&queue, &directory);
            scope.spawn(move || {
                loop {
                    let next = queue.lock().unwrap().pop_front();
                    let Some((at, line)) = next else { return };
                    let (d, history) = &mut *directory.lock().unwrap();
                    let said = served(d, line);
                    history.push((worker, at, line, said));
                }
            });
        }
    });
    let (d, history) = directory.into_inner().unwrap();
    let mut out = Vec::new();
    writeln!(out, "syncord-pool 1 workers {workers} entries {}", history.len()).unwrap();
    for (worker, at, line, said) in history {
        let call = &line[line.iter().position(|byte| *byte == b' ').unwrap() + 1..];
        write!(out, "{worker} {at} ").unwrap();
        out.extend_from_slice(call);
        match said {
            Some(0) => out.extend_from_slice(b" = done\n"),
            Some(ino) => writeln!(out, " = ino {ino}").unwrap(),
            None if call.starts_with(b"make") => out.extend_from_slice(b" = exists\n"),
            None => out.extend_from_slice(b" = absent\n"),
        }
    }
    put_names(&mut out, &d.names);
    out.extend_from_slice(b"end\n");
    io::stdout().write_all(&out).unwrap();
}

fn main() {
    let words: Vec<String> = env::args().skip(1).collect();
    let number = |place: usize| words[place].parse().unwrap();
    match words[0].as_str() {
        "bulk" => bulk(number(1), number(2), number(3)),
        "pool" => pool(),
        _ => reads(),
    }
}
