//! rust_peers DIR gk|ckms|ckms_turned SETTING STREAM..: Greenwald-Khanna and CKMS of the crate `quantiles` 0.7.1, as Debian packages
//! it. The output is records, as those of by_lines. Neither tosses coins.
use std::alloc::{GlobalAlloc, Layout, System};
use std::hint::black_box;
use std::sync::atomic::{AtomicUsize, Ordering::Relaxed};

use quantiles::ckms::CKMS;
use quantiles::greenwald_khanna::Stream;

const PARTS: usize = 168;
const PERCENTILES: [f64; 6] = [0.5, 0.9, 0.99, 0.999, 0.9999, 0.99999];
const CLOCK_PROCESS_CPUTIME_ID: i32 = 2;

/// Counts the bytes that are held, and the most so far.
struct Counting;

static LIVE: AtomicUsize = AtomicUsize::new(0);
static GREATEST: AtomicUsize = AtomicUsize::new(0);

#[global_allocator]
static COUNTING: Counting = Counting;

fn add(size: usize) {
    GREATEST.fetch_max(LIVE.fetch_add(size, Relaxed) + size, Relaxed);
}

unsafe impl GlobalAlloc for Counting {
    unsafe fn alloc(&self, layout: Layout) -> *mut u8 {
        add(layout.size());
        unsafe { System.alloc(layout) }
    }
    unsafe fn dealloc(&self, block: *mut u8, layout: Layout) {
        LIVE.fetch_sub(layout.size(), Relaxed);
        unsafe { System.dealloc(block, layout) }
    }
    // Both blocks count, as where one is moved.
    unsafe fn realloc(&self, block: *mut u8, layout: Layout, size: usize) -> *mut u8 {
        add(size);
        LIVE.fetch_sub(layout.size(), Relaxed);
        unsafe { System.realloc(block, layout, size) }
    }
}

unsafe extern "C" {
    fn clock_gettime(clock: i32, time: *mut [i64; 2]) -> i32;
}

/// The nanoseconds of the processor so far.
fn now() -> f64 {
    let mut time = [0; 2];
    unsafe { clock_gettime(CLOCK_PROCESS_CPUTIME_ID, &mut time) };
    time[0] as f64 * 1e9 + time[1] as f64
}

trait Peer: Sized {
    const MERGES: bool;
    fn make(error: f64) -> Self;
    fn take(&mut self, item: i64);
    fn join(&mut self, other: Self);
    fn answer(&self, fraction: f64) -> f64;
    fn kept(&self) -> usize;
}

impl Peer for Stream<i64> {
    const MERGES: bool = false;
    fn make(error: f64) -> Self {
        Stream::new(error)
    }
    fn take(&mut self, item: i64) {
        self.insert(item)
    }
    fn join(&mut self, _: Self) {
        unreachable!("it has no merge")
    }
    fn answer(&self, fraction: f64) -> f64 {
        *self.quantile(fraction) as f64
    }
    fn kept(&self) -> usize {
        self.s()
    }
}

/// CKMS favours low ranks. SIGN is -1 where the signs of all items are turned, so that it favours the tail.
struct Ckms<const SIGN: i64>(CKMS<f64>);

impl<const SIGN: i64> Peer for Ckms<SIGN> {
    const MERGES: bool = true;
    fn make(error: f64) -> Self {
        Ckms(CKMS::new(error))
    }
    fn take(&mut self, item: i64) {
        self.0.insert((SIGN * item) as f64)
    }
    fn join(&mut self, other: Self) {
        self.0 += other.0
    }
    fn answer(&self, fraction: f64) -> f64 {
        let fraction = if SIGN < 0 { 1.0 - fraction } else { fraction };
        SIGN as f64 * self.0.query(fraction).expect("it has items").1
    }
    fn kept(&self) -> usize {
        self.0.clone().into_vec().len()
    }
}

/// What is told of a peer, by its name and setting.
struct Teller {
    name: String,
}

impl Teller {
    fn says(&self, what: &str, stream: &str, figures: impl std::fmt::Display) {
        println!("{what} {} {stream} {figures}", self.name);
    }

    fn answers<P: Peer>(&self, stream: &str, peer: &P) {
        let told: Vec<String> = PERCENTILES.iter().map(|fraction| peer.answer(*fraction).to_string()).collect();
        self.says("answers", stream, told.join(" "));
    }

    fn measure<P: Peer>(&self, error: f64, stream: &str, items: &[i64]) {
        let before = LIVE.load(Relaxed);
        GREATEST.store(before, Relaxed);
        let begun = now();
        let peer: P = filled(error, black_box(items));
        self.says("update_ns", stream, (now() - begun) / items.len() as f64);
        self.says("live", stream, GREATEST.load(Relaxed) - before);
        self.says("kept", stream, peer.kept());
        self.answers(stream, &peer);
        if !P::MERGES {
            return;
        }
        let cut = |part| items.len() * part / PARTS;
        let parts: Vec<P> = (0..PARTS).map(|part| filled(error, &items[cut(part)..cut(part + 1)])).collect();
        let begun = now();
        let mut all = P::make(error);
        parts.into_iter().for_each(|part| all.join(part));
        self.says("merge_ns", stream, (now() - begun) / PARTS as f64);
        self.answers(&format!("{stream}+merge"), &all);
    }
}

fn filled<P: Peer>(error: f64, items: &[i64]) -> P {
    let mut peer = P::make(error);
    items.iter().for_each(|item| peer.take(*item));
    peer
}

fn main() {
    let words: Vec<String> = std::env::args().collect();
    let [_, folder, peer, setting, streams @ ..] = words.as_slice() else { panic!("see the head of peers.rs") };
    let (teller, error) = (Teller { name: format!("{peer} {setting}") }, setting.parse().expect("an error"));
    for stream in streams {
        let bytes = std::fs::read(format!("{folder}/{stream}.i64")).expect("a stream");
        let items: Vec<i64> = bytes.as_chunks().0.iter().map(|it| i64::from_ne_bytes(*it)).collect();
        match peer.as_str() {
            "gk" => teller.measure::<Stream<i64>>(error, stream, &items),
            "ckms" => teller.measure::<Ckms<1>>(error, stream, &items),
            _ => teller.measure::<Ckms<-1>>(error, stream, &items),
        }
    }
}
