//! A REQ sketch in Rust, over libmezgoular. From the top of a clone in which bindings/c/build has run:
//!
//!     rustc -O --edition 2021 bindings/rust/example.rs -L bindings/c/out -l static=mezgoular -o example
use std::fmt;
use std::thread;

/// The library's handle: a pointer, null while there is no sketch.
#[repr(C)]
struct Handle {
    at: *mut u8,
}

unsafe extern "C" {
    fn mz_req_new(s: *mut Handle, k: u16, high: bool, floats: bool, seed: u64) -> i32;
    fn mz_free(s: *mut Handle);
    fn mz_update_all(s: *mut Handle, floats: bool, items: *const i64, count: usize) -> i32;
    fn mz_merge(s: *mut Handle, from: *mut Handle) -> i32;
    fn mz_quantile(s: *mut Handle, floats: bool, weight: u64, total: u64, inclusive: bool, item: *mut i64) -> i32;
    fn mz_rank(s: *mut Handle, floats: bool, item: i64, inclusive: bool, weight: *mut u64, total: *mut u64) -> i32;
    fn mz_serialize(s: *mut Handle, plain: bool, buffer: *mut u8, capacity: usize, size: *mut u64) -> i32;
    fn mz_deserialize(s: *mut Handle, req: bool, bytes: *const u8, count: usize, seed: u64) -> i32;
}

/// Why a call failed; the sketch is as before.
#[derive(Debug, PartialEq, Eq)]
pub enum Error {
    InvalidArgument,
    InvalidData,
    OutOfMemory,
    Other(i32),
}

impl fmt::Display for Error {
    fn fmt(&self, f: &mut fmt::Formatter<'_>) -> fmt::Result {
        match self {
            Error::InvalidArgument => write!(f, "an invalid argument"),
            Error::InvalidData => write!(f, "the bytes are no image of a sketch"),
            Error::OutOfMemory => write!(f, "out of memory"),
            Error::Other(answer) => write!(f, "answer {answer}"),
        }
    }
}

impl std::error::Error for Error {}

/// Whether there is an answer; an empty sketch has none.
fn check(answer: i32) -> Result<bool, Error> {
    match answer {
        0 => Ok(true),
        1 => Ok(false),
        -1 => Err(Error::InvalidArgument),
        -2 => Err(Error::InvalidData),
        -3 => Err(Error::OutOfMemory),
        other => Err(Error::Other(other)),
    }
}

/// A sketch of whole numbers. The library's calls take it for themselves, so each method takes it mutably; it may move to
/// another thread.
pub struct Req(Handle);

// SAFETY: a sketch is memory of its own, with no ties to a thread.
unsafe impl Send for Req {}

const BUFFER_TOO_SMALL: i32 = -6;

impl Req {
    /// `k` is even, 4 to 1024. `high`: the greatest items are exact, else the least. The seed gives the coins.
    pub fn new(k: u16, high: bool, seed: u64) -> Result<Self, Error> {
        let mut made = Req(Handle { at: std::ptr::null_mut() });
        check(unsafe { mz_req_new(&mut made.0, k, high, false, seed) })?;
        Ok(made)
    }

    /// Takes in all items, or none if it fails.
    pub fn update_all(&mut self, items: &[i64]) -> Result<(), Error> {
        check(unsafe { mz_update_all(&mut self.0, false, items.as_ptr(), items.len()) }).map(|_| ())
    }

    /// Takes in what another sketch holds.
    pub fn merge(&mut self, other: &mut Req) -> Result<(), Error> {
        check(unsafe { mz_merge(&mut self.0, &mut other.0) }).map(|_| ())
    }

    /// The item at the fraction weight / total, or `None` for an empty sketch.
    pub fn quantile(&mut self, weight: u64, total: u64) -> Result<Option<i64>, Error> {
        let mut item = 0;
        let is_there = check(unsafe { mz_quantile(&mut self.0, false, weight, total, true, &mut item) })?;
        Ok(is_there.then_some(item))
    }

    /// The weight of the items at most `item`, and the total.
    pub fn rank(&mut self, item: i64) -> Result<Option<(u64, u64)>, Error> {
        let (mut weight, mut total) = (0, 0);
        let is_there = check(unsafe { mz_rank(&mut self.0, false, item, true, &mut weight, &mut total) })?;
        Ok(is_there.then_some((weight, total)))
    }

    pub fn to_bytes(&mut self) -> Result<Vec<u8>, Error> {
        let mut bytes = vec![0; 1 << 16];
        loop {
            let mut size = 0;
            let answer = unsafe { mz_serialize(&mut self.0, false, bytes.as_mut_ptr(), bytes.len(), &mut size) };
            bytes.resize(size as usize, 0);
            if answer != BUFFER_TOO_SMALL {
                check(answer)?;
                return Ok(bytes);
            }
        }
    }

    pub fn from_bytes(bytes: &[u8], seed: u64) -> Result<Self, Error> {
        let mut made = Req(Handle { at: std::ptr::null_mut() });
        check(unsafe { mz_deserialize(&mut made.0, true, bytes.as_ptr(), bytes.len(), seed) })?;
        Ok(made)
    }
}

impl Drop for Req {
    fn drop(&mut self) {
        unsafe { mz_free(&mut self.0) }
    }
}

/// The image of a sketch of this host's numbers.
fn summarized(host: u64) -> Result<Vec<u8>, Error> {
    let items: Vec<i64> = (0..250_000).map(|i| (4 * i + host as i64) * 7919 % 1_000_000).collect();
    let mut sketch = Req::new(50, true, host)?;
    sketch.update_all(&items)?;
    sketch.to_bytes()
}

/// Four threads summarize the numbers 0 to 999,999, each a quarter of them, and their images are merged.
fn main() -> Result<(), Error> {
    let hosts: Vec<_> = (0..4).map(|host| thread::spawn(move || summarized(host))).collect();
    let mut all = Req::new(50, true, 99)?;
    for host in hosts {
        let image = host.join().expect("a thread panicked")?;
        all.merge(&mut Req::from_bytes(&image, 5)?)?;
    }
    let (weight, total) = all.rank(990_000)?.expect("it isn't empty");
    println!("p50 {:?}, p99.99 {:?}", all.quantile(1, 2)?, all.quantile(9_999, 10_000)?);
    println!("rank of 990,000: {weight} / {total}");
    assert_eq!(total, 1_000_000);
    assert!(weight.abs_diff(990_001) < 1_000);
    // 100 numbers lie above p99.99, and the 150 greatest are exact.
    assert_eq!(all.quantile(9_999, 10_000)?, Some(999_899));
    assert_eq!(Req::new(50, true, 1)?.quantile(1, 2)?, None);
    assert_eq!(all.quantile(3, 2), Err(Error::InvalidArgument));
    assert_eq!(Req::new(7, true, 1).err(), Some(Error::InvalidArgument));
    assert_eq!(Req::from_bytes(b"no image", 1).err(), Some(Error::InvalidData));
    Ok(())
}
