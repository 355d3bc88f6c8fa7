//! The same work as plain loops, one for each pile, written without regard to the core.
use crate::proved::{NONE, Summary};

/// The samples of the 256 mu-law bytes: ITU-T G.711's values times four.
pub fn mulaw_table() -> [i16; 256] {
    let mut table = [0; 256];
    for (byte, entry) in table.iter_mut().enumerate() {
        let code = !(byte as u8);
        let segment = (code >> 4) & 7;
        let step = (code & 15) as i16;
        let size = ((8 * step + 132) << segment) - 132;
        *entry = if code & 0x80 == 0 { size } else { -size };
    }
    table
}

#[inline(always)]
fn pair(bytes: &[u8]) -> i16 {
    i16::from_le_bytes([bytes[0], bytes[1]])
}

#[inline(always)]
fn gain(s: i16, n: u16) -> i16 {
    ((s as i32 * n as i32) >> 8).clamp(-32768, 32767) as i16
}

#[inline(always)]
fn count(sum: &mut Summary, s: i16) {
    sum.frames += 1;
    sum.low = sum.low.min(s);
    sum.high = sum.high.max(s);
    sum.clipped += (s == i16::MIN || s == i16::MAX) as u32;
}

#[inline(never)]
pub fn summary_pcm(bytes: &[u8]) -> Summary {
    let mut sum = NONE;
    for p in bytes.chunks_exact(2) {
        count(&mut sum, pair(p));
    }
    sum
}

#[inline(never)]
pub fn summary_mulaw(bytes: &[u8], table: &[i16; 256]) -> Summary {
    let mut sum = NONE;
    for b in bytes {
        count(&mut sum, table[*b as usize]);
    }
    sum
}

#[inline(never)]
pub fn summary_gain(bytes: &[u8], n: u16) -> Summary {
    let mut sum = NONE;
    for p in bytes.chunks_exact(2) {
        count(&mut sum, gain(pair(p), n));
    }
    sum
}

#[inline(never)]
pub fn summary_pile(first: &[u8], second: &[u8], n: u16, table: &[i16; 256]) -> Summary {
    let mut sum = NONE;
    for p in first.chunks_exact(2) {
        count(&mut sum, gain(pair(p), n));
    }
    for b in second {
        count(&mut sum, gain(table[*b as usize], n));
    }
    sum
}

#[inline(never)]
pub fn write_pcm(bytes: &[u8], out: &mut [u8]) -> usize {
    for (o, p) in out.chunks_exact_mut(2).zip(bytes.chunks_exact(2)) {
        o.copy_from_slice(&pair(p).to_le_bytes());
    }
    bytes.len() / 2
}

#[inline(never)]
pub fn write_mulaw(bytes: &[u8], table: &[i16; 256], out: &mut [u8]) -> usize {
    for (o, b) in out.chunks_exact_mut(2).zip(bytes) {
        o.copy_from_slice(&table[*b as usize].to_le_bytes());
    }
    bytes.len()
}

#[inline(never)]
pub fn write_gain(bytes: &[u8], n: u16, out: &mut [u8]) -> usize {
    for (o, p) in out.chunks_exact_mut(2).zip(bytes.chunks_exact(2)) {
        o.copy_from_slice(&gain(pair(p), n).to_le_bytes());
    }
    bytes.len() / 2
}

#[inline(never)]
pub fn write_pile(
    first: &[u8],
    second: &[u8],
    n: u16,
    table: &[i16; 256],
    out: &mut [u8],
) -> usize {
    let (head, tail) = out.split_at_mut(first.len());
    write_gain(first, n, head);
    for (o, b) in tail.chunks_exact_mut(2).zip(second) {
        o.copy_from_slice(&gain(table[*b as usize], n).to_le_bytes());
    }
    first.len() / 2 + second.len()
}
