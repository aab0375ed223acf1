// nookmallow.h for Rust: its structs, word for word, and its calls over slices. A program copies this file beside its own and says `mod nookmallow;`.
// What the calls mean, their refusals and the order of these stand in the header. A shared and an exclusive slice never overlap, as it asks.
#![allow(dead_code)]

#[repr(C)]
#[derive(Clone, Copy, Debug, Default, PartialEq, Eq)]
pub struct Place {
    pub boards: u32,
    pub measure: u32,
    pub limit: u32,
    pub taken: u32,
    pub start: u32,
    pub boundary: u32,
    pub failed: u32,
    pub passed: u32,
    pub compositions: u32,
    pub tests: u32,
}

#[repr(C)]
#[derive(Clone, Copy, Debug, Default, PartialEq, Eq)]
pub struct Handed {
    pub refusal: u32,
    pub place: Place,
}

#[repr(C)]
#[derive(Clone, Copy, Debug, Default, PartialEq, Eq)]
pub struct Answer {
    pub refusal: u32,
    pub length: u32,
    pub compositions: u32,
    pub tests: u32,
}

#[repr(C)]
#[derive(Clone, Copy, Debug, Default, PartialEq, Eq)]
pub struct Measured {
    pub refusal: u32,
    pub length: u32,
    pub compositions: u32,
    pub tests: u32,
    pub place: Place,
}

#[repr(C)]
#[derive(Clone, Copy, Debug, Default, PartialEq, Eq)]
pub struct Decision {
    pub refusal: u32,
    pub yes: u32,
    pub compositions: u32,
    pub tests: u32,
}

#[repr(C)]
#[derive(Clone, Copy, Debug, Default, PartialEq, Eq)]
pub struct Reading {
    pub refusal: u32,
    pub boards: u32,
    pub picks: u32,
}

#[repr(C)]
#[derive(Clone, Copy, Debug, Default, PartialEq, Eq)]
pub struct Saved {
    pub refusal: u32,
    pub length: u32,
}

#[link(name = "nookmallow", kind = "static")]
extern "C" {
    fn nookmallow_version() -> u32;
    fn nookmallow_open(n: u32, measure: u32, limit: u32, footprint: *const u32, footprint_len: usize, area: *mut u32, area_len: usize) -> Handed;
    fn nookmallow_pick(p: Place, area: *mut u32, area_len: usize, words: *const u32, words_len: usize) -> Handed;
    fn nookmallow_length(p: Place) -> Measured;
    fn nookmallow_whole(n: u32, measure: u32, words: *const u32, words_len: usize, area: *mut u32, area_len: usize) -> Answer;
    fn nookmallow_decide(n: u32, measure: u32, words: *const u32, words_len: usize, k: u32, area: *mut u32, area_len: usize) -> Decision;
    fn nookmallow_table(n: u32, words: *const u32, words_len: usize, out: *mut u32, out_len: usize) -> u32;
    fn nookmallow_read(bytes: *const u8, bytes_len: usize, limit: u32, out: *mut u32, out_len: usize) -> Reading;
    fn nookmallow_save(n: u32, words: *const u32, words_len: usize, out: *mut u8, out_len: usize) -> Saved;
}

// NOOKMALLOW_AREA_WORDS. None where n or limit is out of range, which a call refuses before it looks at the area.
pub fn area_words(n: u32, measure: u32, limit: u32) -> usize {
    let (n, limit) = (n as usize, limit as usize);
    if n > 32 || limit > 4096 {
        return 0;
    }
    (limit + 4) * if measure == 4 { 2 * n * n } else { n }
}

// NOOKMALLOW_FILE_BYTES. None where n or picks is out of range, which the call refuses before it looks at the output.
pub fn file_bytes(n: u32, picks: u32) -> usize {
    let (n, picks) = (n as usize, picks as usize);
    if n < 2 || n > 32 || picks > 4096 {
        return 0;
    }
    3 + picks * (3 * n * (n - 1) + 1)
}

pub fn version() -> u32 {
    unsafe { nookmallow_version() }
}

pub fn open(n: u32, measure: u32, limit: u32, footprint: &[u32], area: &mut [u32]) -> Handed {
    unsafe { nookmallow_open(n, measure, limit, footprint.as_ptr(), footprint.len(), area.as_mut_ptr(), area.len()) }
}

pub fn pick(p: Place, area: &mut [u32], words: &[u32]) -> Handed {
    unsafe { nookmallow_pick(p, area.as_mut_ptr(), area.len(), words.as_ptr(), words.len()) }
}

pub fn length(p: Place) -> Measured {
    unsafe { nookmallow_length(p) }
}

pub fn whole(n: u32, measure: u32, words: &[u32], area: &mut [u32]) -> Answer {
    unsafe { nookmallow_whole(n, measure, words.as_ptr(), words.len(), area.as_mut_ptr(), area.len()) }
}

pub fn decide(n: u32, measure: u32, words: &[u32], k: u32, area: &mut [u32]) -> Decision {
    unsafe { nookmallow_decide(n, measure, words.as_ptr(), words.len(), k, area.as_mut_ptr(), area.len()) }
}

pub fn table(n: u32, words: &[u32], out: &mut [u32]) -> u32 {
    unsafe { nookmallow_table(n, words.as_ptr(), words.len(), out.as_mut_ptr(), out.len()) }
}

pub fn read(bytes: &[u8], limit: u32, out: &mut [u32]) -> Reading {
    unsafe { nookmallow_read(bytes.as_ptr(), bytes.len(), limit, out.as_mut_ptr(), out.len()) }
}

pub fn save(n: u32, words: &[u32], out: &mut [u8]) -> Saved {
    unsafe { nookmallow_save(n, words.as_ptr(), words.len(), out.as_mut_ptr(), out.len()) }
}
