// The peer of the reads of cells.sh: four threads look names of 1,000 up in a BTreeMap behind an RwLock, 16,384 times each. Twenty
// rounds, a line for each, with its threads' start and end. Build: rustc -O -o reads reads.rs
use std::collections::BTreeMap;
use std::hint::black_box;
use std::sync::RwLock;
use std::thread;
use std::time::Instant;

const NAMES: u32 = 1_000;

const READS: u32 = 16_384;

fn main() {
    let directory: RwLock<BTreeMap<(u8, u32), u64>> =
        RwLock::new((0..NAMES).map(|name| ((0, name), u64::from(name) + 1)).collect());
    for _ in 0..20 {
        let start = Instant::now();
        thread::scope(|scope| {
            for number in 0..4_u32 {
                let directory = &directory;
                scope.spawn(move || {
                    let mut draw = number;
                    for _ in 0..READS {
                        draw = draw.wrapping_mul(1_664_525).wrapping_add(1_013_904_223);
                        let name = (0, draw / 65_536 % NAMES);
                        black_box(directory.read().unwrap().get(&name).copied());
                    }
                });
            }
        });
        println!("{:.1} ns a call", start.elapsed().as_nanos() as f64 / f64::from(4 * READS));
    }
}
