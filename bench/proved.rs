//! The proved functions of the static library `speed`, as safe Rust. They ask nothing of their caller.
#[repr(C)]
#[derive(Clone, Copy, PartialEq, Eq, Debug)]
pub struct Summary {
    pub frames: u32,
    pub low: i16,
    pub high: i16,
    pub clipped: u32,
}

/// What `speed` answers of a reel that has no samples, and of bytes that are no reel.
pub const NONE: Summary = Summary {
    frames: 0,
    low: i16::MAX,
    high: i16::MIN,
    clipped: 0,
};

// A lent slice crosses as a pointer and then a length.
unsafe extern "C" {
    fn speed_summary_pcm(bytes: *const u8, len: usize) -> Summary;
    fn speed_summary_mulaw(bytes: *const u8, len: usize) -> Summary;
    fn speed_summary_gain(bytes: *const u8, len: usize, n: u16) -> Summary;
    fn speed_summary_pile(
        a: *const u8,
        a_len: usize,
        b: *const u8,
        b_len: usize,
        n: u16,
    ) -> Summary;
    fn speed_write_pcm(bytes: *const u8, len: usize, out: *mut u8, out_len: usize) -> usize;
    fn speed_write_mulaw(bytes: *const u8, len: usize, out: *mut u8, out_len: usize) -> usize;
    fn speed_write_gain(
        bytes: *const u8,
        len: usize,
        n: u16,
        out: *mut u8,
        out_len: usize,
    ) -> usize;
    fn speed_write_pile(
        a: *const u8,
        a_len: usize,
        b: *const u8,
        b_len: usize,
        n: u16,
        out: *mut u8,
        out_len: usize,
    ) -> usize;
}

pub fn summary_pcm(bytes: &[u8]) -> Summary {
    unsafe { speed_summary_pcm(bytes.as_ptr(), bytes.len()) }
}

pub fn summary_mulaw(bytes: &[u8]) -> Summary {
    unsafe { speed_summary_mulaw(bytes.as_ptr(), bytes.len()) }
}

pub fn summary_gain(bytes: &[u8], n: u16) -> Summary {
    unsafe { speed_summary_gain(bytes.as_ptr(), bytes.len(), n) }
}

pub fn summary_pile(first: &[u8], second: &[u8], n: u16) -> Summary {
    unsafe {
        speed_summary_pile(
            first.as_ptr(),
            first.len(),
            second.as_ptr(),
            second.len(),
            n,
        )
    }
}

pub fn write_pcm(bytes: &[u8], out: &mut [u8]) -> usize {
    unsafe { speed_write_pcm(bytes.as_ptr(), bytes.len(), out.as_mut_ptr(), out.len()) }
}

pub fn write_mulaw(bytes: &[u8], out: &mut [u8]) -> usize {
    unsafe { speed_write_mulaw(bytes.as_ptr(), bytes.len(), out.as_mut_ptr(), out.len()) }
}

pub fn write_gain(bytes: &[u8], n: u16, out: &mut [u8]) -> usize {
    unsafe { speed_write_gain(bytes.as_ptr(), bytes.len(), n, out.as_mut_ptr(), out.len()) }
}

pub fn write_pile(first: &[u8], second: &[u8], n: u16, out: &mut [u8]) -> usize {
    unsafe {
        speed_write_pile(
            first.as_ptr(),
            first.len(),
            second.as_ptr(),
            second.len(),
            n,
            out.as_mut_ptr(),
            out.len(),
        )
    }
}
