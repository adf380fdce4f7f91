//! Times the calls of the libraries in one process: ours through the static library of calls.rt.txt, and the original.
//! Each line is a row of docs/SPEED.md: nanoseconds of the processor a call, the best of nine rounds in turn. With the
//! word `growth` 10^3 to 10^9 updates of ours alone, by a generator, and their peak of memory. With `peers NAME FILE` the updates
//! by a file of i64, and the merges of its 168 parts, as records of bench/peers/tables under this name.
use std::hint::black_box;

use datasketches::kll::KllSketch;
use datasketches::req::{RankAccuracy, ReqSketch};

const ROUNDS: usize = 9;

type Work = unsafe extern "C" fn(*const i64, usize, u8, u16, u64) -> u64;

// A slice crosses as a pointer and a length, and an allocator as nothing.
unsafe extern "C" {
    fn kll_work(items: *const i64, len: usize, work: u8, k: u16, times: u64) -> u64;
    fn req_work(items: *const i64, len: usize, work: u8, k: u16, times: u64) -> u64;
    fn clock_gettime(clock: i32, time: *mut [i64; 2]) -> i32;
}

const CLOCK_PROCESS_CPUTIME_ID: i32 = 2;

/// The work of calls.rt.txt, by the number that it has there.
const UPDATE: u8 = 0;
const MERGE: u8 = 1;
const VIEW: u8 = 2;
const WRITE: u8 = 3;
const READ: u8 = 4;
const GENERATE: u8 = 5;
const UPDATE_ALL: u8 = 6;

/// The nanoseconds of the processor so far.
fn now() -> f64 {
    let mut time = [0; 2];
    unsafe { clock_gettime(CLOCK_PROCESS_CPUTIME_ID, &mut time) };
    time[0] as f64 * 1e9 + time[1] as f64
}

fn nanoseconds<R>(work: impl FnOnce() -> R) -> f64 {
    let begun = now();
    let made = black_box(work());
    let taken = now() - begun;
    drop(made);
    taken
}

fn random_items(count: usize) -> Vec<i64> {
    let mut state = 1u64;
    let step = |state: &mut u64| {
        *state ^= *state << 13;
        *state ^= *state >> 7;
        *state ^= *state << 17;
        *state as i64
    };
    (0..count).map(|_| step(&mut state)).collect()
}

/// The original's calls, of one family.
trait Original: Sized {
    fn create(k: u16) -> Self;
    fn take(&mut self, item: i64);
    fn join(&mut self, other: &Self);
    fn view_weight(&self) -> u64;
    fn write(&self) -> Vec<u8>;
    fn read(bytes: &[u8]) -> Self;
}

macro_rules! original {
    ($sketch:ident, $make:expr) => {
        impl Original for $sketch<i64> {
            fn create(k: u16) -> Self {
                $make(k).unwrap()
            }
            fn take(&mut self, item: i64) {
                self.update(item);
            }
            fn join(&mut self, other: &Self) {
                self.merge(other).unwrap();
            }
            fn view_weight(&self) -> u64 {
                self.sorted_view().total_weight()
            }
            fn write(&self) -> Vec<u8> {
                self.serialize()
            }
            fn read(bytes: &[u8]) -> Self {
                $sketch::deserialize(bytes).unwrap()
            }
        }
    };
}

original!(KllSketch, KllSketch::new);
original!(ReqSketch, |k| ReqSketch::new(k, RankAccuracy::HighRank));

fn filled<S: Original>(items: &[i64], k: u16) -> S {
    let mut sketch = S::create(k);
    items.iter().for_each(|item| sketch.take(*item));
    sketch
}

/// Nanoseconds of a call of each, the best of `rounds` rounds in turn. Ours come with those of filling a sketch first, and the best
/// of these is taken off the best of all: a round's own filling may have been slower than its work.
fn in_turn(rounds: usize, calls: usize, mut original: impl FnMut() -> f64, mut ours: impl FnMut() -> [f64; 2]) -> [f64; 2] {
    let (mut a, mut all, mut filling) = (f64::INFINITY, f64::INFINITY, f64::INFINITY);
    for _ in 0..rounds {
        a = a.min(original());
        let [more, less] = ours();
        all = all.min(more);
        filling = filling.min(less);
    }
    [a / calls as f64, (all - filling) / calls as f64]
}

/// Both in turn, the best of each, a row of the table, and the ratio.
fn row(what: &str, k: u16, calls: usize, original: impl FnMut() -> f64, ours: impl FnMut() -> [f64; 2]) -> f64 {
    let [a, b] = in_turn(ROUNDS, calls, original, ours);
    println!("| {what} | {k} | {a:.0} ns | {b:.0} ns | {:.2} |", b / a);
    b / a
}

/// The nanoseconds of a batch of our work on items, and those of filling a sketch, which it does first.
fn with_filling(work: Work, items: &[i64], which: u8, k: u16, times: u64) -> [f64; 2] {
    let call = |times| nanoseconds(|| unsafe { work(items.as_ptr(), items.len(), which, k, times) });
    [call(times), call(0)]
}

/// The nanoseconds of updates by items, one by one or all at once.
fn updates(work: Work, items: &[i64], which: u8, k: u16) -> [f64; 2] {
    [nanoseconds(|| unsafe { work(items.as_ptr(), items.len(), which, k, 0) }), 0.0]
}

/// The nanoseconds of merges of a sketch into another one by the original.
fn merges<S: Original>(made: &S, k: u16, times: u64) -> f64 {
    let mut sketch = S::create(k);
    nanoseconds(|| (0..times).for_each(|_| sketch.join(made)))
}

/// The rows of a family at a k: updates, and calls on a sketch of `count` items, each `times` times. Returns the ratios.
fn rows<S: Original>(name: &str, work: Work, k: u16, count: usize, times: u64) -> Vec<f64> {
    let random = random_items(1_000_000);
    let rising: Vec<i64> = (0..1_000_000).collect();
    let mut ratios = vec![];
    for (what, items) in [("random order", &random), ("rising order", &rising)] {
        let one_by_one = || nanoseconds(|| filled::<S>(black_box(items), k));
        let label = format!("{name} `update`, {what}");
        ratios.push(row(&label, k, items.len(), one_by_one, || updates(work, items, UPDATE, k)));
        let label = format!("{name} `update_all`, {what}, beside `update`");
        row(&label, k, items.len(), one_by_one, || updates(work, items, UPDATE_ALL, k));
    }
    let some = &random[..count];
    let made: S = filled(some, k);
    let image = made.write();
    let ours = |which: u8| with_filling(work, some, which, k, times);
    let calls = times as usize;
    ratios.push(row(&format!("{name} `merge`"), k, calls, || merges(&made, k, times), || ours(MERGE)));
    let views = || nanoseconds(|| (0..times).map(|_| made.view_weight()).sum::<u64>());
    ratios.push(row(&format!("{name} `sorted_view`"), k, calls, views, || ours(VIEW)));
    let writes = || nanoseconds(|| (0..times).map(|_| made.write().len()).sum::<usize>());
    ratios.push(row(&format!("{name} `serialize`"), k, calls, writes, || ours(WRITE)));
    let reads = || nanoseconds(|| (0..times).for_each(|_| drop(black_box(S::read(&image)))));
    ratios.push(row(&format!("{name} `deserialize`"), k, calls, reads, || ours(READ)));
    ratios
}

/// The parts of a stream whose sketches are merged. The merges are timed `TURNS` times over, in `FEW_ROUNDS` rounds.
const PARTS: usize = 168;
const TURNS: u64 = 20;
const FEW_ROUNDS: usize = 5;

/// The records of a family at a k by a stream: updates, and merges of the sketch of a part into one.
fn records<S: Original>(name: &str, work: Work, k: u16, stream: &str, items: &[i64]) {
    let some = &items[..items.len().min(2_000_000)];
    let one_by_one = || nanoseconds(|| filled::<S>(black_box(some), k));
    let updated = in_turn(FEW_ROUNDS, some.len(), one_by_one, || updates(work, some, UPDATE, k));
    let all = in_turn(FEW_ROUNDS, some.len(), || 0.0, || updates(work, some, UPDATE_ALL, k));
    let part = &items[..items.len() / PARTS];
    let made: S = filled(part, k);
    let calls = TURNS * PARTS as u64;
    // (20 times 168 merges in a row, each 168 into a new sketch)
    let original = || (0..TURNS).map(|_| merges(&made, k, PARTS as u64)).sum();
    let once = || with_filling(work, part, MERGE, k, PARTS as u64);
    let ours = || (0..TURNS).map(|_| once()).fold([0.0, 0.0], |[a, b], [c, d]| [a + c, b + d]);
    let merged = in_turn(FEW_ROUNDS, calls as usize, original, ours);
    for (who, at) in [("original", 0), ("ours", 1)] {
        println!("update_ns {who}_{name} {k} {stream} {:.1}", updated[at]);
        println!("merge_ns {who}_{name} {k} {stream} {:.1}", merged[at]);
    }
    println!("update_all_ns ours_{name} {k} {stream} {:.1}", all[1]);
}

fn peers(stream: &str, file: &str) {
    let bytes = std::fs::read(file).unwrap();
    let items: Vec<i64> = bytes.chunks_exact(8).map(|it| i64::from_ne_bytes(it.try_into().unwrap())).collect();
    for k in [200, 2048] {
        records::<KllSketch<i64>>("kll", kll_work, k, stream, &items);
    }
    for k in [12, 50, 100] {
        records::<ReqSketch<i64>>("req", req_work, k, stream, &items);
    }
}

/// The peak of resident memory in KiB since it was last taken.
fn peak() -> String {
    let status = std::fs::read_to_string("/proc/self/status").unwrap();
    let line = status.lines().find(|line| line.starts_with("VmHWM:")).unwrap();
    let kib = line.split_whitespace().nth(1).unwrap().to_string();
    std::fs::write("/proc/self/clear_refs", "5").unwrap();
    kib
}

fn growth(work: Work, ks: [u16; 2]) {
    println!("| updates | ns each, k {0} | memory, k {0} | ns each, k {1} | memory, k {1} |", ks[0], ks[1]);
    println!("|---|---|---|---|---|");
    for power in 3..=9 {
        let times = 10u64.pow(power);
        print!("| 10^{power} |");
        for k in ks {
            peak();
            let taken = nanoseconds(|| unsafe { work([].as_ptr(), 0, GENERATE, k, times) });
            print!(" {:.0} | {} KiB |", taken / times as f64, peak());
        }
        println!();
    }
}

fn main() {
    let words: Vec<String> = std::env::args().skip(1).collect();
    let words: Vec<&str> = words.iter().map(|it| it.as_str()).collect();
    match words[..] {
        [] => {}
        ["peers", stream, file] => return peers(stream, file),
        ["growth"] => {
            growth(kll_work, [200, 4096]);
            println!();
            return growth(req_work, [12, 100]);
        }
        _ => panic!("the words are growth, or peers NAME FILE"),
    }
    println!("| call | k | original | ours | ours / original |\n|---|---|---|---|---|");
    let mut ratios = rows::<KllSketch<i64>>("KLL", kll_work, 200, 100_000, 2_000);
    ratios.extend(rows::<KllSketch<i64>>("KLL", kll_work, 4096, 100_000, 200));
    ratios.extend(rows::<ReqSketch<i64>>("REQ", req_work, 12, 1_000_000, 2_000));
    let mean = (ratios.iter().map(|it| it.ln()).sum::<f64>() / ratios.len() as f64).exp();
    println!("| geometric mean, `update_all` aside | | | | {mean:.2} |");
}
