// The writer of recording files in hand-written safe Rust: the same checks, size and bytes as the archive's.
use super::nookmallow::Saved;

// The links that shut, or open, from one pick to the next, ascending by from and then to; the place behind their commands.
fn put_changes(out: &mut [u8], mut at: usize, code: u8, old: &[u32], new: &[u32], opens: bool) -> usize {
    for (a, (was, is)) in old.iter().zip(new).enumerate() {
        let mut rest = if opens { is & !was } else { was & !is };
        while rest != 0 {
            out[at..at + 3].copy_from_slice(&[code, a as u8, rest.trailing_zeros() as u8]);
            at += 3;
            rest &= rest - 1;
        }
    }
    at
}

pub fn save(n: u32, words: &[u32], out: &mut [u8]) -> Saved {
    let refused = |refusal| Saved { refusal, length: 0 };
    if !(2..=32).contains(&n) {
        return refused(1);
    }
    let boards = n as usize;
    if words.len() % boards != 0 {
        return refused(10);
    }
    if words.len() / boards > 4096 {
        return refused(3);
    }
    let mut all = [0; 32];
    for pick in words.chunks_exact(boards) {
        all[..boards].iter_mut().zip(pick).for_each(|(x, w)| *x |= w);
    }
    if (0..boards).any(|u| all[u] & !(u32::MAX >> (32 - n) & !(1 << u)) != 0) {
        return refused(5);
    }
    let none = [0; 32];
    let mut old = &none[..boards];
    let mut size = 3;
    for pick in words.chunks_exact(boards) {
        size += 1 + 3 * old.iter().zip(pick).map(|(x, y)| (x ^ y).count_ones()).sum::<u32>() as usize;
        old = pick;
    }
    if out.len() < size {
        return refused(18);
    }
    out[..2].copy_from_slice(&[0x42, n as u8]);
    let mut at = 2;
    old = &none[..boards];
    for pick in words.chunks_exact(boards) {
        if old != pick {
            at = put_changes(out, at, 0x53, old, pick, false);
            at = put_changes(out, at, 0x4F, old, pick, true);
        }
        out[at] = 0x50;
        at += 1;
        old = pick;
    }
    out[at] = 0x45;
    Saved { refusal: 0, length: size as u32 }
}
