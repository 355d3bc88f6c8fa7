//! How fast the proved core summarises a whole reel and writes it out, beside plain loops and memcpy
//! over the same bytes, in one run.
mod clock;
mod plain;
mod proved;

use crate::clock::processor_seconds;
use crate::proved::{NONE, Summary};
use std::hint::black_box;

const BYTES: usize = 100_000_000;
const ROUNDS: usize = 11;
/// The gain, in parts of 256: one and a half, so that some samples are held at the ends.
const GAIN: u16 = 384;

/// The bytes of a 64-bit xorshift generator with a fixed seed.
fn generated(len: usize) -> Vec<u8> {
    let mut state = 0x9e37_79b9_7f4a_7c15_u64;
    let mut bytes = Vec::with_capacity(len + 8);
    while bytes.len() < len {
        state ^= state << 13;
        state ^= state >> 7;
        state ^= state << 17;
        bytes.extend_from_slice(&state.to_le_bytes());
    }
    bytes.truncate(len);
    bytes
}

#[derive(Clone, Copy)]
enum Pile {
    Pcm,
    MuLaw,
    Gain,
    Joined,
}

/// What the work is done on: every buffer is filled, so touched, before anything is timed.
struct Bench {
    bytes: Vec<u8>,
    table: [i16; 256],
    by_core: Vec<u8>,
    by_plain: Vec<u8>,
}

impl Bench {
    fn core_summary(&self, pile: Pile) -> Summary {
        let (first, second) = self.bytes.split_at(BYTES / 2);
        match pile {
            Pile::Pcm => proved::summary_pcm(&self.bytes),
            Pile::MuLaw => proved::summary_mulaw(&self.bytes),
            Pile::Gain => proved::summary_gain(&self.bytes, GAIN),
            Pile::Joined => proved::summary_pile(first, second, GAIN),
        }
    }

    fn plain_summary(&self, pile: Pile) -> Summary {
        let (first, second) = self.bytes.split_at(BYTES / 2);
        match pile {
            Pile::Pcm => plain::summary_pcm(&self.bytes),
            Pile::MuLaw => plain::summary_mulaw(&self.bytes, &self.table),
            Pile::Gain => plain::summary_gain(&self.bytes, black_box(GAIN)),
            Pile::Joined => plain::summary_pile(first, second, black_box(GAIN), &self.table),
        }
    }

    fn core_write(&mut self, pile: Pile) -> usize {
        let (first, second) = self.bytes.split_at(BYTES / 2);
        let out = &mut self.by_core;
        match pile {
            Pile::Pcm => proved::write_pcm(&self.bytes, out),
            Pile::MuLaw => proved::write_mulaw(&self.bytes, out),
            Pile::Gain => proved::write_gain(&self.bytes, GAIN, out),
            Pile::Joined => proved::write_pile(first, second, GAIN, out),
        }
    }

    fn plain_write(&mut self, pile: Pile) -> usize {
        let (first, second) = self.bytes.split_at(BYTES / 2);
        let out = &mut self.by_plain;
        match pile {
            Pile::Pcm => plain::write_pcm(&self.bytes, out),
            Pile::MuLaw => plain::write_mulaw(&self.bytes, &self.table, out),
            Pile::Gain => plain::write_gain(&self.bytes, black_box(GAIN), out),
            Pile::Joined => plain::write_pile(first, second, black_box(GAIN), &self.table, out),
        }
    }

    /// The library's memcpy of the input bytes.
    fn copy(&mut self) -> usize {
        self.by_plain[0..BYTES].copy_from_slice(&self.bytes);
        BYTES
    }
}

/// Seconds that the work took.
fn timed<T>(work: impl FnOnce() -> T) -> f64 {
    let began = processor_seconds();
    black_box(work());
    processor_seconds() - began
}

fn median(mut times: Vec<f64>) -> f64 {
    times.sort_by(f64::total_cmp);
    times[times.len() / 2]
}

/// The medians of the core, the plain loop and memcpy, taken in turn.
fn medians(
    bench: &mut Bench,
    core: impl Fn(&mut Bench) -> f64,
    plain: impl Fn(&mut Bench) -> f64,
) -> [f64; 3] {
    let mut times = [vec![], vec![], vec![]];
    for _ in 0..ROUNDS {
        times[0].push(core(bench));
        times[1].push(plain(bench));
        times[2].push(timed(|| bench.copy()));
    }
    times.map(median)
}

fn row(name: &str, work: &str, frames: usize, [core, plain, copy]: [f64; 3]) {
    let million = |seconds: f64| frames as f64 / seconds / 1e6;
    println!(
        "| {name} | {work} | {:.0} | {:.0} | {:.2} | {:.2} |",
        million(core),
        million(plain),
        plain / core,
        copy / core
    );
}

fn measure(bench: &mut Bench, pile: Pile, name: &str) {
    let sum = bench.core_summary(pile);
    assert_eq!(sum, bench.plain_summary(pile), "{name}: summaries differ");
    let frames = bench.core_write(pile);
    assert_eq!(frames, bench.plain_write(pile), "{name}: counts differ");
    assert_eq!(frames, sum.frames as usize, "{name}: frames differ");
    assert!(
        bench.by_core[0..2 * frames] == bench.by_plain[0..2 * frames],
        "{name}: bytes differ"
    );
    let times = medians(
        bench,
        |b| timed(|| b.core_summary(pile)),
        |b| timed(|| b.plain_summary(pile)),
    );
    row(name, "summarise", frames, times);
    let times = medians(
        bench,
        |b| timed(|| b.core_write(pile)),
        |b| timed(|| b.plain_write(pile)),
    );
    row(name, "write", frames, times);
}

/// Short and damaged input: refusals leave the output as it was, and a short output is filled.
fn refusals() {
    let mut out = [7; 8];
    assert_eq!(proved::summary_pcm(&[1, 2, 3]), NONE);
    assert_eq!(proved::summary_gain(&[1], 256), NONE);
    assert_eq!(proved::summary_pile(&[1], &[2], 256), NONE);
    assert_eq!(proved::summary_mulaw(&[]), NONE);
    assert_eq!(proved::write_pcm(&[1, 2, 3], &mut out), 0);
    assert_eq!(proved::write_gain(&[1, 2, 3], 256, &mut out), 0);
    assert_eq!(proved::write_pile(&[1, 2, 3], &[4], 256, &mut out), 0);
    assert_eq!(proved::write_mulaw(&[], &mut out), 0);
    assert_eq!(out, [7; 8]);
    assert_eq!(proved::write_pcm(&[1, 2, 3, 4], &mut out), 2);
    assert_eq!(out, [1, 2, 3, 4, 7, 7, 7, 7]);
    assert_eq!(proved::write_pcm(&[9; 6], &mut out[0..3]), 1);
    assert_eq!(out, [9, 9, 3, 4, 7, 7, 7, 7]);
}

fn main() {
    refusals();
    let mut bench = Bench {
        bytes: generated(BYTES),
        table: plain::mulaw_table(),
        by_core: vec![1; 2 * BYTES],
        by_plain: vec![2; 2 * BYTES],
    };
    println!("{BYTES} bytes, medians of {ROUNDS} rounds, millions of frames a second\n");
    println!("| pile | work | core | plain loop | core / plain | core / memcpy |");
    println!("|---|---|---:|---:|---:|---:|");
    measure(&mut bench, Pile::Pcm, "PCM");
    measure(&mut bench, Pile::MuLaw, "mu-law");
    measure(&mut bench, Pile::Gain, "gain over PCM");
    measure(&mut bench, Pile::Joined, "gain over joined");
    let copy = median((0..ROUNDS).map(|_| timed(|| bench.copy())).collect());
    println!(
        "\nmemcpy of the input: {:.1} GB a second",
        BYTES as f64 / copy / 1e9
    );
}
