//! The line language of `sketches` over the original crate, to time both on the same lines.
//! bench/build_original makes a program of it beside a copy of that crate. Of refusals it tells apart what the timed
//! scripts hold.
use std::io::{self, BufRead, BufReader, BufWriter, Write};
use std::process::ExitCode;

use datasketches::common::SearchCriteria;
use datasketches::error::Error;
use datasketches::kll::KllSketch;
use datasketches::req::{RankAccuracy, ReqSketch};

const SLOTS: usize = 256;

enum Refusal {
    BadLine,
    Absent,
    Argument,
    Data,
}

use Refusal::{Absent, Argument, BadLine, Data};

impl Refusal {
    fn text(&self) -> &'static [u8] {
        match self {
            BadLine => b"error: bad line",
            Absent => b"error: absent slot",
            Argument => b"error: invalid argument",
            Data => b"error: invalid data",
        }
    }
}

/// What a line asks of a sketch.
trait Sketch: Sized + Clone {
    fn create(words: &mut Words<'_>) -> Result<Self, Refusal>;
    fn count(&self) -> u64;
    fn take(&mut self, item: i64);
    fn join(&mut self, other: &Self) -> Result<(), Error>;
    fn empty(&mut self);
    fn rank_of(&self, item: i64, criteria: SearchCriteria) -> Option<f64>;
    fn item_at(&self, rank: f64, criteria: SearchCriteria) -> Result<Option<i64>, Error>;
    fn ranks(&self, items: &[i64], criteria: SearchCriteria, is_cdf: bool) -> Result<Option<Vec<f64>>, Error>;
    fn image(&self) -> Vec<u8>;
    fn read(bytes: &[u8]) -> Result<Self, Error>;
}

macro_rules! sketch {
    ($type:ty, $create:expr) => {
        impl Sketch for $type {
            fn create(words: &mut Words<'_>) -> Result<Self, Refusal> {
                let create: fn(&mut Words<'_>) -> Result<Self, Refusal> = $create;
                create(words)
            }
            fn count(&self) -> u64 {
                self.n()
            }
            fn take(&mut self, item: i64) {
                self.update(item)
            }
            fn join(&mut self, other: &Self) -> Result<(), Error> {
                self.merge(other)
            }
            fn empty(&mut self) {
                self.reset()
            }
            fn rank_of(&self, item: i64, criteria: SearchCriteria) -> Option<f64> {
                self.rank(&item, criteria)
            }
            fn item_at(&self, rank: f64, criteria: SearchCriteria) -> Result<Option<i64>, Error> {
                self.quantile(rank, criteria)
            }
            fn ranks(&self, items: &[i64], criteria: SearchCriteria, is_cdf: bool) -> Result<Option<Vec<f64>>, Error> {
                if is_cdf { self.cdf(items, criteria) } else { self.pmf(items, criteria) }
            }
            fn image(&self) -> Vec<u8> {
                self.serialize()
            }
            fn read(bytes: &[u8]) -> Result<Self, Error> {
                Self::deserialize(bytes)
            }
        }
    };
}

sketch!(KllSketch<i64>, |words| {
    let k = words.number()?;
    words.end()?;
    KllSketch::new(k).map_err(|_| Argument)
});

sketch!(ReqSketch<i64>, |words| {
    let k = words.number()?;
    let accuracy = match words.word()? {
        "high" => RankAccuracy::HighRank,
        "low" => RankAccuracy::LowRank,
        _ => return Err(BadLine),
    };
    words.end()?;
    ReqSketch::new(k, accuracy).map_err(|_| Argument)
});

struct Words<'a>(std::str::Split<'a, char>);

impl<'a> Words<'a> {
    fn next(&mut self) -> Option<&'a str> {
        self.0.find(|word| !word.is_empty())
    }
    fn word(&mut self) -> Result<&'a str, Refusal> {
        self.next().ok_or(BadLine)
    }
    fn number<N: std::str::FromStr>(&mut self) -> Result<N, Refusal> {
        self.word()?.parse().map_err(|_| BadLine)
    }
    fn criteria(&mut self) -> Result<SearchCriteria, Refusal> {
        match self.word()? {
            "incl" => Ok(SearchCriteria::Inclusive),
            "excl" => Ok(SearchCriteria::Exclusive),
            _ => Err(BadLine),
        }
    }
    fn end(&mut self) -> Result<(), Refusal> {
        self.next().map_or(Ok(()), |_| Err(BadLine))
    }
}

fn hex_digit(digit: u8) -> Result<u8, Refusal> {
    (digit as char).to_digit(16).map(|it| it as u8).ok_or(BadLine)
}

fn read_hex(text: &str) -> Result<Vec<u8>, Refusal> {
    let pairs = text.as_bytes().chunks_exact(2);
    if !pairs.remainder().is_empty() {
        return Err(BadLine);
    }
    pairs.map(|pair| Ok(hex_digit(pair[0])? << 4 | hex_digit(pair[1])?)).collect()
}

fn write_hex(out: &mut Vec<u8>, bytes: &[u8]) {
    const DIGITS: &[u8; 16] = b"0123456789abcdef";
    out.reserve(2 * bytes.len());
    for byte in bytes {
        out.extend_from_slice(&[DIGITS[(byte >> 4) as usize], DIGITS[(byte & 15) as usize]]);
    }
}

fn write_rank(out: &mut Vec<u8>, rank: f64, n: u64) {
    write!(out, "{}/{n}", (rank * n as f64).round() as u64).expect("a Vec takes it");
}

struct Table<S> {
    slots: Vec<Option<S>>,
    items: Vec<i64>,
}

impl<S: Sketch> Table<S> {
    fn slot(&mut self, slot: u8) -> Result<&mut S, Refusal> {
        self.slots[slot as usize].as_mut().ok_or(Absent)
    }

    fn merge(&mut self, into: u8, from: u8) -> Result<(), Refusal> {
        if into == from {
            let sketch = self.slot(into)?;
            let copy = sketch.clone();
            return sketch.join(&copy).map_err(|_| Argument);
        }
        let both = [into as usize, from as usize];
        let [into, from] = self.slots.get_disjoint_mut(both).expect("two slots");
        into.as_mut().ok_or(Absent)?.join(from.as_ref().ok_or(Absent)?).map_err(|_| Argument)
    }

    fn ranks(&mut self, words: &mut Words<'_>, out: &mut Vec<u8>, is_cdf: bool) -> Result<(), Refusal> {
        let slot: u8 = words.number()?;
        let criteria = words.criteria()?;
        self.items.clear();
        while let Some(word) = words.next() {
            self.items.push(word.parse().map_err(|_| BadLine)?);
        }
        let sketch = self.slots[slot as usize].as_ref().ok_or(Absent)?;
        let Some(ranks) = sketch.ranks(&self.items, criteria, is_cdf).map_err(|_| Argument)? else {
            out.extend_from_slice(b"none");
            return Ok(());
        };
        for (i, rank) in ranks.iter().enumerate() {
            if i > 0 {
                out.push(b' ');
            }
            write_rank(out, *rank, sketch.count());
        }
        Ok(())
    }

    fn answer(&mut self, line: &[u8], out: &mut Vec<u8>) -> Result<(), Refusal> {
        let text = std::str::from_utf8(line).map_err(|_| BadLine)?;
        let mut words = Words(text.split(' '));
        match words.word()? {
            "update" => {
                let (slot, item) = (words.number()?, words.number()?);
                words.end()?;
                self.slot(slot)?.take(item);
            }
            "new" => {
                let slot: u8 = words.number()?;
                self.slots[slot as usize] = Some(S::create(&mut words)?);
            }
            "merge" => {
                let (into, from) = (words.number()?, words.number()?);
                words.end()?;
                self.merge(into, from)?;
            }
            "reset" => {
                let slot = words.number()?;
                words.end()?;
                self.slot(slot)?.empty();
            }
            "rank" => {
                let (slot, item, criteria) = (words.number()?, words.number()?, words.criteria()?);
                words.end()?;
                let sketch = self.slot(slot)?;
                match sketch.rank_of(item, criteria) {
                    None => out.extend_from_slice(b"none"),
                    Some(rank) => write_rank(out, rank, sketch.count()),
                }
                return Ok(());
            }
            "quantile" => {
                let (slot, weight, total) = (words.number()?, words.number::<u64>()?, words.number::<u64>()?);
                let criteria = words.criteria()?;
                words.end()?;
                match self.slot(slot)?.item_at(weight as f64 / total as f64, criteria).map_err(|_| Argument)? {
                    None => out.extend_from_slice(b"none"),
                    Some(item) => write!(out, "{item}").expect("a Vec takes it"),
                }
                return Ok(());
            }
            "cdf" => return self.ranks(&mut words, out, true),
            "pmf" => return self.ranks(&mut words, out, false),
            "image" => {
                let slot = words.number()?;
                words.end()?;
                write_hex(out, &self.slot(slot)?.image());
                return Ok(());
            }
            "load" => {
                let slot: u8 = words.number()?;
                let bytes = read_hex(words.word()?)?;
                words.end()?;
                self.slots[slot as usize] = Some(S::read(&bytes).map_err(|_| Data)?);
            }
            "roundtrip" => {
                let slot = words.number()?;
                words.end()?;
                let sketch = self.slot(slot)?;
                *sketch = S::read(&sketch.image()).map_err(|_| Data)?;
            }
            _ => return Err(BadLine),
        }
        out.extend_from_slice(b"ok");
        Ok(())
    }
}

fn serve<S: Sketch>(mut input: impl BufRead, mut output: impl Write) -> io::Result<()> {
    let mut table = Table::<S> { slots: vec![None; SLOTS], items: Vec::new() };
    let (mut line, mut answer) = (Vec::new(), Vec::new());
    loop {
        line.clear();
        if input.read_until(b'\n', &mut line)? == 0 {
            return output.flush();
        }
        if line.last() == Some(&b'\n') {
            line.pop();
        }
        answer.clear();
        if let Err(refusal) = table.answer(&line, &mut answer) {
            answer.clear();
            answer.extend_from_slice(refusal.text());
        }
        answer.push(b'\n');
        output.write_all(&answer)?;
    }
}

fn main() -> ExitCode {
    let family = std::env::args().nth(1);
    let (input, output) = (BufReader::new(io::stdin().lock()), BufWriter::new(io::stdout().lock()));
    let served = match family.as_deref() {
        Some("kll") => serve::<KllSketch<i64>>(input, output),
        Some("req") => serve::<ReqSketch<i64>>(input, output),
        _ => return ExitCode::from(2),
    };
    if served.is_ok() { ExitCode::SUCCESS } else { ExitCode::FAILURE }
}
