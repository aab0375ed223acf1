// The walk in hand-written safe Rust, written for speed: what the archive is measured against. It makes the same checks, keeps the same
// words in the same parts of the lent area and charges the same counts. Where it can be quicker than the wording of the walk, it is:
// - no part is copied to be read: a split of the area lends the part that is written beside those that are read, and a ladder is composed
//   in place, since a row of a composition needs only its own row of the earlier part;
// - the own table of a connected pick is the full one, found by two searches; of another pick only boards that light enters and leaves
//   are passed over;
// - a composition of links goes by the bits of the earlier rows where these are few, else by tables of the unions of four rows each;
// - a whole run leaves its area zero, so it writes no part that only a later call could look at, and its tests end at the first row
//   that fails;
// - a composition of times folds the later rows once for each distinct set of boards that a row of the earlier part reaches.
use crate::nookmallow::{Answer, Handed, Measured, Place};
use std::sync::atomic::{AtomicBool, Ordering};

// ---- checks

const OWN: [u32; 32] = {
    let mut own = [0; 32];
    let mut u = 0;
    while u < 32 {
        own[u] = 1 << u;
        u += 1;
    }
    own
};

fn all_boards(n: usize) -> u32 {
    u32::MAX >> (32 - n)
}

fn is_clean(words: &[u32], n: usize) -> bool {
    let above = !all_boards(n);
    words.iter().zip(&OWN).fold(0, |bad, (w, own)| bad | (w & (own | above))) == 0
}

fn is_listed(list: &[u32], words: &[u32]) -> bool {
    words.iter().zip(list).fold(0, |bad, (w, l)| bad | (w & !l)) == 0
}

// E, the words of a table.
fn width(measure: u32, n: usize) -> usize {
    if measure == 4 { 2 * n * n } else { n }
}

fn is_sound(p: &Place) -> bool {
    let (m, s, b) = (p.taken, p.start, p.boundary);
    p.failed <= 1
        && p.passed <= 1
        && (2..=32).contains(&p.boards)
        && (1..=4).contains(&p.measure)
        && (1..=4096).contains(&p.limit)
        && m <= p.limit
        && b <= m
        && s >= 1
        && s <= b + 1
        && if m == 0 { p.failed == 0 && p.passed == 0 } else { s <= m }
        && p.compositions <= 4 * m
        && p.tests <= 2 * m
}

// ---- links

// Whether board 0 gets to every board and every board gets to it. Words of an area may have been altered: bits above the boards lead nowhere.
fn is_connected(t: &[u32]) -> bool {
    let all = all_boards(t.len());
    let (mut seen, mut open) = (1u32, 1u32);
    while open != 0 {
        let row = t[open.trailing_zeros() as usize] & all;
        open = (open & (open - 1)) | (row & !seen);
        seen |= row;
    }
    if seen != all {
        return false;
    }
    let mut back = 1u32;
    loop {
        let before = back;
        for (u, row) in t.iter().enumerate() {
            back |= u32::from(row & back != 0) << u;
        }
        if back == all {
            return true;
        }
        if back == before {
            return false;
        }
    }
}

// The boards that have a link out, and those that have one in.
fn ends(t: &[u32]) -> (u32, u32) {
    t.iter().enumerate().fold((0, 0), |(out, into), (u, row)| (out | u32::from(*row != 0) << u, into | row))
}

// The pairs joined within one pick.
fn close(t: &mut [u32]) {
    let all = all_boards(t.len());
    let (out, into) = ends(t);
    if out == all && into == all && is_connected(t) {
        for (row, own) in t.iter_mut().zip(&OWN) {
            *row = all & !own;
        }
        return;
    }
    let mut between = out & into;
    while between != 0 {
        let w = between.trailing_zeros();
        between &= between - 1;
        let via = t[w as usize];
        for row in t.iter_mut() {
            *row |= via & 0u32.wrapping_sub(*row >> w & 1);
        }
    }
    for (row, own) in t.iter_mut().zip(&OWN) {
        *row &= !own;
    }
}

// The unions of the rows of `right`, four rows a table, so that a row of the earlier part costs eight look-ups.
struct Unions([[u32; 16]; 8]);

impl Unions {
    fn of(right: &[u32]) -> Unions {
        let mut tables = [[0; 16]; 8];
        for (table, rows) in tables.iter_mut().zip(right.chunks(4)) {
            let mut quad = [0; 4];
            quad[..rows.len()].copy_from_slice(rows);
            for i in 1..16usize {
                table[i] = table[i & (i - 1)] | quad[i.trailing_zeros() as usize];
            }
        }
        Unions(tables)
    }

    fn row(&self, set: u32) -> u32 {
        self.0.iter().enumerate().fold(0, |acc, (k, table)| acc | table[(set >> (4 * k) & 15) as usize])
    }
}

// How the rows of an earlier part take in those of a later one.
enum Later<'a> {
    // by the bits of the earlier row, of which those in the set have a row that is not empty
    Bits(&'a [u32], u32),
    Tables(&'a [u32], Unions),
}

impl<'a> Later<'a> {
    fn of(left: &[u32], right: &'a [u32]) -> Later<'a> {
        let (out, _) = ends(right);
        let bits: u32 = left.iter().map(|row| (row & out).count_ones()).sum();
        if bits < 200 { Later::Bits(right, out) } else { Later::Tables(right, Unions::of(right)) }
    }

    fn row(&self, u: usize, row: u32) -> u32 {
        let joined = match self {
            Later::Bits(right, out) => {
                let mut acc = row | right[u];
                let mut bits = row & out;
                while bits != 0 {
                    acc |= right[bits.trailing_zeros() as usize];
                    bits &= bits - 1;
                }
                acc
            }
            Later::Tables(right, tables) => row | right[u] | tables.row(row),
        };
        joined & !OWN[u]
    }
}

fn join_in_place(left: &mut [u32], right: &[u32]) {
    let later = Later::of(left, right);
    for (u, row) in left.iter_mut().enumerate() {
        *row = later.row(u, *row);
    }
}

fn is_full(t: &[u32]) -> bool {
    let all = all_boards(t.len());
    t.iter().zip(&OWN).fold(all, |acc, (row, own)| acc & (row | own)) == all
}

// Whether the composition is full, up to its first row that is not.
fn joins_full(left: &[u32], right: &[u32]) -> bool {
    let all = all_boards(left.len());
    let later = Later::of(left, right);
    left.iter().enumerate().all(|(u, row)| later.row(u, *row) | OWN[u] == all)
}

// ---- times: 0 is none, so that the sooner of two is their least as x - 1

fn sooner(x: u32, y: u32) -> u32 {
    x.wrapping_sub(1).min(y.wrapping_sub(1)).wrapping_add(1)
}

// The pairs that have a time, as words of links.
fn marks(half: &[u32], n: usize) -> [u32; 32] {
    let mut marks = [0; 32];
    for (mark, row) in marks.iter_mut().zip(half.chunks_exact(n)) {
        *mark = row.iter().zip(&OWN).fold(0, |acc, (t, own)| acc | if *t != 0 { *own } else { 0 });
    }
    marks
}

fn turn_over(out: &mut [u32], half: &[u32], n: usize) {
    for (u, row) in out.chunks_exact_mut(n).enumerate() {
        for (t, from) in row.iter_mut().zip(half.chunks_exact(n)) {
            *t = from[u];
        }
    }
}

// Row u of a half, and the best of it and of the rows of `far` of u and of the boards that u reaches in `near`: one fold for each
// distinct set of these boards.
fn fold_sets(near: &mut [u32], far: &[u32], n: usize, best: impl Fn(u32, u32) -> u32) {
    let (out, _) = ends(&marks(far, n)[..n]);
    let mut sets = marks(near, n);
    for (set, own) in sets.iter_mut().zip(&OWN) {
        *set = (*set | own) & out;
    }
    let mut folds = [[0u32; 32]; 32];
    for u in 0..n {
        let first = sets.iter().position(|set| *set == sets[u]).unwrap_or(u);
        if first == u {
            let fold = &mut folds[u][..n];
            let mut bits = sets[u];
            while bits != 0 {
                let w = bits.trailing_zeros() as usize;
                bits &= bits - 1;
                for (f, t) in fold.iter_mut().zip(&far[w * n..w * n + n]) {
                    *f = best(*f, *t);
                }
            }
        }
        let row = &mut near[u * n..u * n + n];
        for (t, f) in row.iter_mut().zip(&folds[first][..n]) {
            *t = best(*t, *f);
        }
        row[u] = 0;
    }
}

// Departures are arrivals with time turned round, and with it the ends of each way: columns for rows, earlier for later.
fn compose_sets(left: &mut [u32], right: &[u32], n: usize) {
    let m = n * n;
    let (arrivals, departures) = left.split_at_mut(m);
    let (later_arrivals, later_departures) = right.split_at(m);
    fold_sets(arrivals, later_arrivals, n, sooner);
    let (mut near, mut far) = ([0; 1024], [0; 1024]);
    turn_over(&mut near[..m], later_departures, n);
    turn_over(&mut far[..m], departures, n);
    fold_sets(&mut near[..m], &far[..m], n, u32::max);
    turn_over(departures, &near[..m], n);
}

// The same by plain folds, a row at a time.
fn compose_rows(left: &mut [u32], right: &[u32], n: usize) {
    let (arrivals, departures) = left.split_at_mut(n * n);
    let (later_arrivals, later_departures) = right.split_at(n * n);
    let reached = marks(arrivals, n);
    for (u, row) in arrivals.chunks_exact_mut(n).enumerate() {
        let mut bits = reached[u] | OWN[u];
        while bits != 0 {
            let w = bits.trailing_zeros() as usize;
            bits &= bits - 1;
            for (a, t) in row.iter_mut().zip(&later_arrivals[w * n..w * n + n]) {
                *a = sooner(*a, *t);
            }
        }
        row[u] = 0;
    }
    for (u, row) in departures.chunks_exact_mut(n).enumerate() {
        let mut by = [0u32; 32];
        by[..n].copy_from_slice(row);
        for (d, t) in row.iter_mut().zip(&later_departures[u * n..u * n + n]) {
            *d = (*d).max(*t);
        }
        for (w, leave) in by[..n].iter().enumerate() {
            if *leave != 0 {
                for (d, t) in row.iter_mut().zip(&later_departures[w * n..w * n + n]) {
                    *d = (*d).max(if *t != 0 { *leave } else { 0 });
                }
            }
        }
        row[u] = 0;
    }
}

// Whether each pair has both ways, and the way there ends at or before the way back begins: a time of 0, less 1, is after all others.
fn in_time(t: &[u32], n: usize) -> bool {
    let (arrivals, departures) = t.split_at(n * n);
    for u in 1..n {
        let (there, leave) = (&arrivals[u * n..u * n + u], &departures[u * n..u * n + u]);
        let mut at = u;
        for (a, d) in there.iter().zip(leave) {
            if a.wrapping_sub(1) >= departures[at] || arrivals[at].wrapping_sub(1) >= *d {
                return false;
            }
            at += n;
        }
    }
    true
}

fn own_times(out: &mut [u32], words: &[u32], n: usize, pick: u32) {
    let mut joined = [0; 32];
    joined[..n].copy_from_slice(words);
    close(&mut joined[..n]);
    let (arrivals, departures) = out.split_at_mut(n * n);
    for ((a, d), word) in arrivals.chunks_exact_mut(n).zip(departures.chunks_exact_mut(n)).zip(&joined) {
        for ((a, d), own) in a.iter_mut().zip(d).zip(&OWN) {
            let time = if word & own != 0 { pick } else { 0 };
            *a = time;
            *d = time;
        }
    }
}

// ---- what the walk needs of each measure

// Whether measure 4 goes by plain folds: slower, kept to show by how much.
pub static PLAIN: AtomicBool = AtomicBool::new(false);

fn own<const M: u32>(out: &mut [u32], words: &[u32], n: usize, pick: u32) {
    match M {
        4 => own_times(out, words, n, pick),
        3 => {
            out.copy_from_slice(words);
            close(out);
        }
        _ => out.copy_from_slice(words),
    }
}

fn compose<const M: u32>(left: &mut [u32], right: &[u32], n: usize) {
    match M {
        4 if PLAIN.load(Ordering::Relaxed) => compose_rows(left, right, n),
        4 => compose_sets(left, right, n),
        3 => join_in_place(left, right),
        2 => left.iter_mut().zip(right).for_each(|(l, r)| *l |= r),
        _ => left.iter_mut().zip(right).for_each(|(l, r)| *l &= r),
    }
}

fn passes<const M: u32>(list: &[u32], t: &[u32], n: usize) -> bool {
    match M {
        4 => in_time(t, n),
        3 => is_full(t),
        2 => t == list,
        _ => is_connected(t),
    }
}

// Whether the composition passes, where nobody looks at it afterwards. Measure 4 writes it out all the same: its test needs both halves.
fn composed_passes<const M: u32>(list: &[u32], left: &[u32], right: &[u32], n: usize) -> bool {
    match M {
        3 => joins_full(left, right),
        2 => left.iter().zip(right).zip(list).fold(0, |bad, ((l, r), x)| bad | ((l | r) ^ x)) == 0,
        _ => {
            let mut t = [0; 32];
            t[..n].copy_from_slice(left);
            compose::<1>(&mut t[..n], right, n);
            is_connected(&t[..n])
        }
    }
}

// ---- the walk

// The area in its parts: those of the picks, then right ladder, window, footprint and spare.
struct Parts<'a> {
    picks: &'a mut [u32],
    right: &'a mut [u32],
    window: &'a mut [u32],
    list: &'a mut [u32],
    spare: &'a mut [u32],
}

fn parts(area: &mut [u32], limit: usize, e: usize) -> Parts<'_> {
    let (picks, rest) = area.split_at_mut(limit * e);
    let (right, rest) = rest.split_at_mut(e);
    let (window, rest) = rest.split_at_mut(e);
    let (list, rest) = rest.split_at_mut(e);
    Parts { picks, right, window, list, spare: &mut rest[..e] }
}

// The left ladder over s to m. KEPT: the words are looked at after the call.
fn rebuild<const M: u32, const KEPT: bool>(p: &mut Place, a: &mut Parts, n: usize, e: usize) {
    let (m, s) = (p.taken as usize, p.start as usize);
    for i in (s..m).rev() {
        let (left, right) = a.picks.split_at_mut(i * e);
        compose::<M>(&mut left[(i - 1) * e..], &right[..e], n);
    }
    if KEPT {
        a.right.fill(0);
    }
    p.boundary = p.taken;
    p.compositions += (m - s) as u32;
}

fn test<const M: u32, const KEPT: bool>(p: &mut Place, a: &mut Parts, n: usize, e: usize) {
    let (m, s, b) = (p.taken as usize, p.start as usize, p.boundary as usize);
    let passed = if s <= b && b < m {
        p.compositions += 1;
        let left = &a.picks[(s - 1) * e..s * e];
        if KEPT || M == 4 {
            a.window.copy_from_slice(left);
            compose::<M>(a.window, a.right, n);
            passes::<M>(a.list, a.window, n)
        } else {
            composed_passes::<M>(a.list, left, a.right, n)
        }
    } else {
        let t: &[u32] = if b < s { a.right } else { &a.picks[(s - 1) * e..s * e] };
        if KEPT {
            a.window.copy_from_slice(t);
        }
        passes::<M>(a.list, t, n)
    };
    p.tests += 1;
    p.passed = u32::from(passed);
    p.failed |= u32::from(!passed);
}

fn step<const M: u32, const KEPT: bool>(p: &mut Place, a: &mut Parts, words: &[u32], n: usize, e: usize) {
    if M == 1 && p.taken > 0 && p.passed == 0 {
        p.taken += 1;
        return;
    }
    p.start += if M == 1 { p.failed } else { p.passed };
    p.taken += 1;
    let (m, b) = (p.taken as usize, p.boundary as usize);
    own::<M>(&mut a.picks[(m - 1) * e..m * e], words, n, p.taken);
    if p.start > p.boundary + 1 {
        rebuild::<M, KEPT>(p, a, n, e);
    } else if b + 1 < m {
        compose::<M>(a.right, &a.picks[(m - 1) * e..m * e], n);
        p.compositions += 1;
    } else {
        a.right.copy_from_slice(&a.picks[(m - 1) * e..m * e]);
    }
    test::<M, KEPT>(p, a, n, e);
    if M == 1 {
        while p.passed == 0 && p.start < p.taken {
            p.start += 1;
            if p.start > p.boundary + 1 {
                rebuild::<M, KEPT>(p, a, n, e);
            }
            test::<M, KEPT>(p, a, n, e);
        }
    }
    if KEPT {
        a.spare.fill(0);
    }
}

// ---- the calls

#[inline(never)]
pub fn open(n: u32, measure: u32, limit: u32, list: &[u32], area: &mut [u32]) -> Handed {
    let refuse = |refusal| Handed { refusal, place: Place::default() };
    if !(2..=32).contains(&n) {
        return refuse(1);
    }
    if !(1..=4).contains(&measure) {
        return refuse(2);
    }
    if !(1..=4096).contains(&limit) {
        return refuse(3);
    }
    let boards = n as usize;
    if measure == 2 && list.len() != boards {
        return refuse(10);
    }
    if measure == 2 && !is_clean(list, boards) {
        return refuse(5);
    }
    let e = width(measure, boards);
    let needed = (limit as usize + 4) * e;
    if area.len() < needed {
        return refuse(4);
    }
    area[..needed].fill(0);
    if measure == 2 {
        parts(area, limit as usize, e).list.copy_from_slice(list);
    }
    Handed { refusal: 0, place: Place { boards: n, measure, limit, start: 1, ..Place::default() } }
}

#[inline(never)]
pub fn pick(mut p: Place, area: &mut [u32], words: &[u32]) -> Handed {
    let refuse = |refusal| Handed { refusal, place: p };
    if !is_sound(&p) {
        return refuse(16);
    }
    if p.limit <= p.taken {
        return refuse(7);
    }
    let (n, limit) = (p.boards as usize, p.limit as usize);
    if words.len() != n {
        return refuse(10);
    }
    if !is_clean(words, n) {
        return refuse(5);
    }
    let e = width(p.measure, n);
    if area.len() < (limit + 4) * e {
        return refuse(4);
    }
    let mut a = parts(area, limit, e);
    if p.measure == 2 && !is_listed(a.list, words) {
        return refuse(6);
    }
    match p.measure {
        1 => step::<1, true>(&mut p, &mut a, words, n, e),
        2 => step::<2, true>(&mut p, &mut a, words, n, e),
        3 => step::<3, true>(&mut p, &mut a, words, n, e),
        _ => step::<4, true>(&mut p, &mut a, words, n, e),
    }
    Handed { refusal: 0, place: p }
}

fn report(p: &Place) -> Answer {
    let (refusal, length) = if p.passed == 1 {
        (0, p.taken + 1 - p.start)
    } else if p.measure != 1 && p.start > 1 {
        (0, p.taken + 2 - p.start)
    } else {
        (9, 0)
    };
    Answer { refusal, length, compositions: p.compositions, tests: p.tests }
}

#[inline(never)]
pub fn length(p: Place) -> Measured {
    let refuse = |refusal| Answer { refusal, ..Answer::default() };
    let answer = if !is_sound(&p) {
        refuse(16)
    } else if p.taken == 0 {
        refuse(8)
    } else {
        report(&p)
    };
    let Answer { refusal, length, compositions, tests } = answer;
    Measured { refusal, length, compositions, tests, place: p }
}

fn run<const M: u32>(p: &mut Place, area: &mut [u32], words: &[u32], n: usize) {
    let e = width(M, n);
    let mut a = parts(area, words.len() / n, e);
    if M == 2 {
        a.list.copy_from_slice(&words[..n]);
        for pick in words[n..].chunks_exact(n) {
            a.list.iter_mut().zip(pick).for_each(|(l, w)| *l |= w);
        }
        p.compositions = p.limit - 1;
    }
    for pick in words.chunks_exact(n) {
        step::<M, false>(p, &mut a, pick, n, e);
    }
}

#[inline(never)]
pub fn whole(n: u32, measure: u32, words: &[u32], area: &mut [u32]) -> Answer {
    let refuse = |refusal| Answer { refusal, ..Answer::default() };
    if !(2..=32).contains(&n) {
        return refuse(1);
    }
    if !(1..=4).contains(&measure) {
        return refuse(2);
    }
    let boards = n as usize;
    if words.len() % boards != 0 {
        return refuse(10);
    }
    let m = words.len() / boards;
    if m == 0 {
        return refuse(8);
    }
    if m > 4096 {
        return refuse(3);
    }
    let needed = (m + 4) * width(measure, boards);
    if area.len() < needed {
        return refuse(4);
    }
    if !words.chunks_exact(boards).all(|pick| is_clean(pick, boards)) {
        return refuse(5);
    }
    let mut p = Place { boards: n, measure, limit: m as u32, start: 1, ..Place::default() };
    match measure {
        1 => run::<1>(&mut p, area, words, boards),
        2 => run::<2>(&mut p, area, words, boards),
        3 => run::<3>(&mut p, area, words, boards),
        _ => run::<4>(&mut p, area, words, boards),
    }
    area[..needed].fill(0);
    report(&p)
}
