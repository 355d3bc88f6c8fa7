//! How long the proved core takes for an edit, a read and an overview in a track of 64, 512 and 4,000
//! elements, beside a plain vector of elements that is copied for each version.
mod clock;

use crate::clock::processor_seconds;
use std::hint::black_box;

const FRAMES: usize = 480;
const SIZES: [usize; 3] = [64, 512, 4000];
const REPEATS: usize = 5;

#[repr(C)]
#[derive(Clone, Copy, Debug, PartialEq, Eq)]
struct Pace {
    sum: u64,
    free: u32,
}

// A lent slice crosses as a pointer and then a length.
unsafe extern "C" {
    fn pace_of(bytes: *const u8, len: usize, elements: u32, work: u32, rounds: u32) -> Pace;
}

fn core(bytes: &[u8], elements: usize, work: u32, rounds: u32) -> Pace {
    unsafe { pace_of(bytes.as_ptr(), bytes.len(), elements as u32, work, rounds) }
}

/// The same places as the core's, so that both do the same.
struct Places(u64);

impl Places {
    fn next(&mut self, end: u64) -> u64 {
        self.0 = self
            .0
            .wrapping_mul(6364136223846793005)
            .wrapping_add(1442695040888963407);
        (self.0 >> 33) % (end + 1)
    }
}

/// A version as a plain vector of (start, frames).
#[derive(Clone)]
struct Flat(Vec<(u64, u64)>);

impl Flat {
    fn of(elements: usize) -> Flat {
        let width = FRAMES as u64;
        Flat((0..elements as u64).map(|i| (i * width, width)).collect())
    }

    fn len(&self) -> u64 {
        self.0.iter().map(|e| e.1).sum()
    }

    /// The element that holds the atom `place`, or the number of elements, and the offset in it.
    fn at(&self, place: u64) -> (usize, u64) {
        let mut rest = place;
        for (i, e) in self.0.iter().enumerate() {
            if rest < e.1 {
                return (i, rest);
            }
            rest -= e.1;
        }
        (self.0.len(), 0)
    }

    /// Divides at a place, and tells the index of what lies behind it.
    fn divide(&mut self, place: u64) -> usize {
        let (i, d) = self.at(place);
        if d == 0 {
            return i;
        }
        let (start, frames) = self.0[i];
        self.0[i] = (start, d);
        self.0.insert(i + 1, (start + d, frames - d));
        i + 1
    }

    fn put(&self, place: u64, clip: &[(u64, u64)]) -> Flat {
        let mut next = self.clone();
        let i = next.divide(place);
        next.0.splice(i..i, clip.iter().copied());
        next
    }

    fn cut(&self, from: u64, len: u64) -> Flat {
        let mut next = self.clone();
        let i = next.divide(from);
        let j = next.divide(from + len);
        next.0.drain(i..j);
        next
    }
}

fn flat(elements: usize, work: u32, rounds: u32) -> u64 {
    let base = Flat::of(elements);
    let end = base.len();
    let mut places = Places(1);
    let mut sum = 0u64;
    let mut clip = base.clone();
    let behind = clip.divide(end / 100);
    clip.0.truncate(behind);
    for _ in 0..rounds {
        sum = sum.wrapping_add(match work {
            1 => base.put(places.next(end), &clip.0).0.len() as u64,
            2 => {
                let from = places.next(end);
                let len = places.next(end - from);
                base.cut(from, len).0.len() as u64
            }
            3 => base.at(places.next(end - 1)).1,
            _ => {
                let from = places.next(end - 1);
                places.next(end - 1 - from) + 1
            }
        });
    }
    sum
}

fn nanoseconds(rounds: u32, mut work: impl FnMut(u32)) -> f64 {
    let mut times: Vec<f64> = (0..REPEATS)
        .map(|_| {
            let began = processor_seconds();
            work(0);
            let built = processor_seconds();
            work(rounds);
            (processor_seconds() - built) - (built - began)
        })
        .collect();
    times.sort_by(f64::total_cmp);
    times[REPEATS / 2] * 1e9 / rounds as f64
}

fn main() {
    let most = SIZES[SIZES.len() - 1];
    let bytes: Vec<u8> = (0..2 * FRAMES * most).map(|i| (i * 31 + i / 977) as u8).collect();
    println!("| work | 64 | 512 | 4,000 | growth | vector: 64 | 512 | 4,000 |");
    println!("|---|---:|---:|---:|---:|---:|---:|---:|");
    for (name, work, rounds) in [
        ("put in", 1, 20_000),
        ("cut out", 2, 20_000),
        ("read", 3, 300_000),
        ("overview", 4, 50_000),
    ] {
        let mut row = [0.0; 3];
        let mut plain = [0.0; 3];
        for (i, n) in SIZES.into_iter().enumerate() {
            let reel = &bytes[..2 * FRAMES * n];
            let told = core(reel, n, work, 200);
            assert_eq!(told.free, 8192, "{name}: cells are lost");
            assert_eq!(told.sum, flat(n, work, 200), "{name}: the sums differ");
            row[i] = nanoseconds(rounds, |r| {
                black_box(core(reel, n, work, r));
            });
            plain[i] = nanoseconds(rounds.min(5_000), |r| {
                black_box(flat(n, work, r));
            });
        }
        let growth = row[2] / row[0];
        print!("| {name} | {:.0} | {:.0} | {:.0} | {growth:.2} |", row[0], row[1], row[2]);
        if work == 4 {
            println!(" – | – | – |");
        } else {
            println!(" {:.0} | {:.0} | {:.0} |", plain[0], plain[1], plain[2]);
        }
    }
}
