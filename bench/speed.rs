// Times the archive against the walk in hand-written Rust on the same recordings, and compares all that both answer and leave.
// `speed compare` compares; `speed times` and `speed growth` print a line for each case; `speed lengths` says what the recordings are like;
// `speed SIDE MEASURE RECORDING MODE PICKS TURNS` runs one case alone, for callgrind. SIDE plain is Rust with plain folds under measure 4. Saving has no
// measure: it is mode save, with measure 0.
#[path = "../include/nookmallow.rs"]
mod nookmallow;
mod save;
mod walk;

use nookmallow::{Answer, Handed, Measured, Place, Saved};
use std::hint::black_box;
use std::sync::atomic::Ordering;
use std::time::Instant;

#[derive(Clone, Copy, PartialEq)]
enum Side {
    Archive,
    Rust,
}

impl Side {
    fn open(self, n: u32, measure: u32, limit: u32, list: &[u32], area: &mut [u32]) -> Handed {
        match self {
            Side::Archive => nookmallow::open(n, measure, limit, list, area),
            Side::Rust => walk::open(n, measure, limit, list, area),
        }
    }

    fn pick(self, p: Place, area: &mut [u32], words: &[u32]) -> Handed {
        match self {
            Side::Archive => nookmallow::pick(p, area, words),
            Side::Rust => walk::pick(p, area, words),
        }
    }

    fn length(self, p: Place) -> Measured {
        match self {
            Side::Archive => nookmallow::length(p),
            Side::Rust => walk::length(p),
        }
    }

    fn whole(self, n: u32, measure: u32, words: &[u32], area: &mut [u32]) -> Answer {
        match self {
            Side::Archive => nookmallow::whole(n, measure, words, area),
            Side::Rust => walk::whole(n, measure, words, area),
        }
    }

    fn save(self, n: u32, words: &[u32], out: &mut [u8]) -> Saved {
        match self {
            Side::Archive => nookmallow::save(n, words, out),
            Side::Rust => save::save(n, words, out),
        }
    }
}

// ---- recordings

struct Rng(u64);

impl Rng {
    fn next(&mut self) -> u32 {
        self.0 ^= self.0 << 13;
        self.0 ^= self.0 >> 7;
        self.0 ^= self.0 << 17;
        (self.0 >> 32) as u32
    }
}

// Which links are open at each pick, n words a pick:
// sparse: each link in a pick with probability 1/64, some 15 links a pick, so that windows are tens to hundreds of picks long;
// short: each link with probability 3/32, so that windows of measures 3 and 4 are some picks long;
// dense: each link with probability 1/2;
// one: a single link a pick;
// held: half of the links at first, and each link turns at a pick with probability 1/256, so that links stay for long;
// turning: the same with probability 1/16, so that windows of common links are some picks long;
// ended: as dense, but for the second pick, which has no link and ends measure 1;
// still: half of the links, the same at every pick.
fn recording(kind: &str, n: usize, picks: usize, seed: u64) -> Vec<u32> {
    let mut rng = Rng(seed);
    let all = u32::MAX >> (32 - n);
    let mut held = vec![0; n];
    let mut words = Vec::new();
    for p in 0..picks {
        let only = rng.0 as usize % n;
        for u in 0..n {
            let half = rng.next();
            let mut few = rng.next();
            for _ in 0..5 {
                few &= rng.next();
            }
            let word = match kind {
                "sparse" => few,
                "short" => half & rng.next() & rng.next() & (rng.next() | rng.next()),
                "dense" => half,
                "one" => u32::from(u == only) << (half % n as u32),
                "held" | "turning" | "still" => {
                    held[u] ^= match kind {
                        _ if p == 0 => half,
                        "still" => 0,
                        "held" => few & rng.next() & rng.next(),
                        _ => half & rng.next() & rng.next() & rng.next(),
                    };
                    held[u]
                }
                "ended" => if p == 1 { 0 } else { half },
                _ => panic!("no recording {kind}"),
            };
            words.push(word & all & !(1 << u));
        }
    }
    words
}

fn union(words: &[u32], n: usize) -> Vec<u32> {
    let mut list = vec![0; n];
    for pick in words.chunks(n) {
        list.iter_mut().zip(pick).for_each(|(l, w)| *l |= w);
    }
    list
}

// ---- runs

fn width(measure: u32, n: usize) -> usize {
    if measure == 4 { 2 * n * n } else { n }
}

// Opening, every pick, and the length after each: a sum of all that was answered.
fn by_picks(side: Side, n: usize, measure: u32, words: &[u32], list: &[u32], area: &mut [u32]) -> (Answer, u64) {
    let mut p = side.open(n as u32, measure, (words.len() / n) as u32, list, area).place;
    let mut sum = 0u64;
    let mut last = Answer::default();
    for pick in words.chunks(n) {
        p = side.pick(p, area, black_box(pick)).place;
        let Measured { refusal, length, compositions, tests, .. } = side.length(p);
        last = Answer { refusal, length, compositions, tests };
        sum = sum.wrapping_mul(31).wrapping_add(u64::from(last.length + 7 * last.refusal + 13 * last.compositions + 17 * last.tests));
    }
    (last, sum)
}

// The bytes lent for a file of so many picks: always enough.
fn file_bytes(n: usize, picks: usize) -> Vec<u8> {
    vec![0xa5; nookmallow::file_bytes(n as u32, picks as u32)]
}

// Both sides save one recording, with room and a byte short: the same answer and the same bytes.
fn compare_saved(n: u32, words: &[u32]) {
    let most = file_bytes(n as usize, words.len() / n.max(1) as usize).len() + 3;
    let longest = Side::Rust.save(n, words, &mut vec![0; most]).length as usize;
    for room in [most, longest, longest.saturating_sub(1), 0] {
        let (mut a, mut b) = (vec![0xa5; room], vec![0xa5; room]);
        assert_eq!(Side::Archive.save(n, words, &mut a), Side::Rust.save(n, words, &mut b), "n {n} room {room}");
        assert!(a == b, "n {n} room {room}: file");
    }
}

fn run(side: Side, mode: &str, n: usize, measure: u32, words: &[u32], list: &[u32], area: &mut [u32]) -> (Answer, u64) {
    match mode {
        "picks" => by_picks(side, n, measure, words, list, area),
        "whole" => (side.whole(n as u32, measure, black_box(words), area), 0),
        _ => panic!("no mode {mode}"),
    }
}

// Both sides on one recording: every answer, every place and the words that a pick may write after each pick, all words at the end; then
// the whole run. `altered` changes words between picks, which both sides must compose as they find them.
fn compare(n: usize, measure: u32, words: &[u32], altered: bool) {
    let list = union(words, n);
    let (limit, e) = (words.len() / n, width(measure, n));
    let len = (limit + 4) * e + 3;
    let mut rng = Rng(77);
    let (mut a, mut b) = (vec![0xdead; len], vec![0xdead; len]);
    let mut p = Side::Archive.open(n as u32, measure, limit as u32, &list, &mut a);
    assert_eq!(p, Side::Rust.open(n as u32, measure, limit as u32, &list, &mut b));
    for (k, pick) in words.chunks(n).enumerate() {
        if altered && k % 5 == 4 {
            let at = rng.next() as usize % ((limit + 2) * e);
            a[at] = rng.next() >> (rng.next() % 32);
            b[at] = a[at];
        }
        let q = p.place;
        p = Side::Archive.pick(q, &mut a, pick);
        assert_eq!(p, Side::Rust.pick(q, &mut b, pick), "measure {measure} n {n} pick {k}");
        assert_eq!(p.refusal, 0);
        assert_eq!(Side::Archive.length(p.place), Side::Rust.length(p.place));
        let (from, to) = (q.start as usize - 1, k + 1);
        assert!(a[from * e..to * e] == b[from * e..to * e] && a[limit * e..] == b[limit * e..], "measure {measure} n {n} pick {k}: area");
    }
    assert!(a == b, "measure {measure} n {n}: area");
    let (mut c, mut d) = (vec![0xbeef; len], vec![0xbeef; len]);
    let whole = Side::Archive.whole(n as u32, measure, words, &mut c);
    assert_eq!(whole, Side::Rust.whole(n as u32, measure, words, &mut d), "measure {measure} n {n} whole");
    assert!(c == d && c[..len - 3].iter().all(|w| *w == 0) && c[len - 3..] == [0xbeef; 3]);
}

// Measure 1 on the sparse recording ends at its first pick, on the ended one at its second: what is left is the checks.
const CASES: [(u32, &str); 17] = [
    (1, "held"),
    (1, "turning"),
    (1, "dense"),
    (1, "sparse"),
    (1, "ended"),
    (2, "sparse"),
    (2, "short"),
    (2, "dense"),
    (2, "one"),
    (3, "sparse"),
    (3, "short"),
    (3, "dense"),
    (3, "one"),
    (4, "sparse"),
    (4, "short"),
    (4, "dense"),
    (4, "one"),
];
const MODES: [&str; 2] = ["whole", "picks"];
// How much changes from pick to pick: nothing, a few links, one, some, nearly all there are.
const SAVED: [&str; 5] = ["still", "held", "one", "sparse", "dense"];
const N: usize = 32;
const SEED: u64 = 0x9e3779b97f4a7c15;

// Nanoseconds a pick of each run, a side and a number of picks, in several turns that take the runs one after the other, so that all of them meet the
// same disturbances of the machine: a row for each turn.
fn turns(runs: &[(Side, usize)], measure: u32, kind: &str, mode: &str) -> Vec<Vec<f64>> {
    let most = runs.iter().map(|r| r.1).max().unwrap();
    let words = recording(kind, N, most, SEED);
    let lists: Vec<Vec<u32>> = runs.iter().map(|r| union(&words[..r.1 * N], N)).collect();
    let mut area = vec![0; (most + 4) * width(measure, N)];
    let mut rows: Vec<Vec<f64>> = Vec::new();
    let began = Instant::now();
    while rows.len() < 9 || rows.len() < 60 && began.elapsed().as_secs_f64() < 1.5 {
        let row = runs.iter().zip(&lists).map(|((side, picks), list)| {
            let began = Instant::now();
            black_box(run(*side, mode, N, measure, &words[..picks * N], list, &mut area));
            began.elapsed().as_nanos() as f64 / *picks as f64
        });
        rows.push(row.collect());
    }
    rows
}

// The best time of each run.
fn best(rows: &[Vec<f64>]) -> Vec<f64> {
    (0..rows[0].len()).map(|k| rows.iter().map(|row| row[k]).fold(f64::MAX, f64::min)).collect()
}

// The median over the turns of the first run's time as a part of the second's.
fn median_ratio(rows: &[Vec<f64>]) -> f64 {
    let mut ratios: Vec<f64> = rows.iter().map(|row| row[0] / row[1]).collect();
    ratios.sort_by(f64::total_cmp);
    ratios[ratios.len() / 2]
}

// Both sides refuse the same calls with the same numbers, and leave the area as it was.
fn compare_refusals() {
    let words = recording("sparse", 5, 6, SEED);
    let list = union(&words, 5);
    let mut seen = [false; 17];
    let mut open = |n, measure, limit, list: &[u32], len: usize| {
        let (mut a, mut b) = (vec![7; len], vec![7; len]);
        let got = Side::Archive.open(n, measure, limit, list, &mut a);
        assert_eq!(got, Side::Rust.open(n, measure, limit, list, &mut b));
        assert!(a == b && (got.refusal == 0 || a.iter().all(|w| *w == 7)));
        seen[got.refusal as usize] = true;
    };
    for n in [0, 1, 2, 5, 32, 33, u32::MAX] {
        for measure in [0, 1, 2, 3, 4, 5] {
            for limit in [0, 1, 6, 4096, 4097] {
                for len in [0, 49, 50, 499, 500] {
                    open(n, measure, limit, &list, len);
                    open(n, measure, limit, &list[1..], len);
                    open(n, measure, limit, &[1, 0, 0, 0, 0], len);
                }
            }
        }
    }
    let mut whole = |n, measure, words: &[u32], len: usize| {
        let (mut a, mut b) = (vec![7; len], vec![7; len]);
        let got = Side::Archive.whole(n, measure, words, &mut a);
        assert_eq!(got, Side::Rust.whole(n, measure, words, &mut b));
        assert!(a == b);
        seen[got.refusal as usize] = true;
    };
    for n in [1, 2, 5, 32, 33] {
        for measure in [0, 1, 2, 3, 4, 5] {
            for len in [0, 49, 50, 499, 500] {
                whole(n, measure, &words, len);
                whole(n, measure, &[], len);
                whole(n, measure, &[31; 30], len);
                whole(n, measure, &vec![0; 4097 * 2], len);
            }
        }
    }
    let mut rng = Rng(SEED);
    for _ in 0..20000 {
        // a place near those that a walk goes through, with one of its words changed
        let measure = 1 + rng.next() % 4;
        let taken = rng.next() % 7;
        let mut p = Place { boards: 5, measure, limit: 6, taken, start: 1, boundary: 0, failed: 0, passed: 0, compositions: taken, tests: taken };
        let x = [0, 1, 2, 5, 6, 7, 33, 4097, u32::MAX][rng.next() as usize % 9];
        match rng.next() % 11 {
            0 => p.boards = x,
            1 => p.measure = x,
            2 => p.limit = x,
            3 => p.taken = x,
            4 => p.start = x,
            5 => p.boundary = x,
            6 => p.failed = x,
            7 => p.passed = x,
            8 => p.compositions = x,
            9 => p.tests = x,
            _ => {}
        }
        assert_eq!(Side::Archive.length(p), Side::Rust.length(p));
        let len = [0, 49, 50, 499, 500][rng.next() as usize % 5];
        let pick: &[u32] = [&words[..5], &words[..4], &[1, 0, 0, 0, 0], &[2, 0, 0, 0, 0]][rng.next() as usize % 4];
        let (mut a, mut b) = (vec![0; len], vec![0; len]);
        let got = Side::Archive.pick(p, &mut a, pick);
        assert_eq!(got, Side::Rust.pick(p, &mut b, pick), "{p:?}");
        assert!(a == b && (got.refusal == 0 || a.iter().all(|w| *w == 0)));
        seen[got.refusal as usize] = true;
        seen[Side::Archive.length(p).refusal as usize] = true;
    }
    // all causes but those of recording files
    assert!((0..17).all(|cause| seen[cause] || (11..16).contains(&cause)), "{seen:?}");
}

fn compare_all() {
    compare_refusals();
    for kind in SAVED {
        for n in 2..=32 {
            compare_saved(n as u32, &recording(kind, n, 40, SEED));
        }
        compare_saved(N as u32, &recording(kind, N, 4096, SEED));
    }
    for n in [0, 1, 2, 5, 32, 33, u32::MAX] {
        for words in [&[][..], &[0; 10], &[1; 10], &[0; 11], &vec![0; 2 * 4097]] {
            compare_saved(n, words);
        }
    }
    for seed in 1..60 {
        for (measure, kind) in CASES {
            let boards = 2 + seed as usize * 7 % 31;
            let words = recording(kind, boards, 90, SEED ^ seed);
            compare(boards, measure, &words, false);
            compare(boards, measure, &words, true);
        }
    }
    for (measure, kind) in CASES {
        let words = recording(kind, N, 4096, SEED);
        compare(N, measure, &words, false);
        let list = union(&words, N);
        let mut area = vec![0; 4100 * width(measure, N)];
        for mode in MODES {
            let [a, b] = [Side::Archive, Side::Rust].map(|side| run(side, mode, N, measure, &words, &list, &mut area));
            assert_eq!(a, b);
        }
    }
}

fn main() {
    let args: Vec<String> = std::env::args().skip(1).collect();
    let words: Vec<&str> = args.iter().map(String::as_str).collect();
    match words[..] {
        ["compare"] => compare_all(),
        ["times"] => {
            for (measure, kind) in CASES {
                for mode in MODES {
                    let rows = turns(&[(Side::Archive, 4096), (Side::Rust, 4096)], measure, kind, mode);
                    let best = best(&rows);
                    println!("{measure} {kind} {mode} {:.1} {:.1} {:.2}", best[0], best[1], median_ratio(&rows));
                }
            }
        }
        // nanoseconds a pick, both sides, the ratio; then bytes a pick
        ["saves"] => {
            for kind in SAVED {
                let words = recording(kind, N, 4096, SEED);
                let mut out = file_bytes(N, 4096);
                let rows: Vec<Vec<f64>> = (0..60).map(|_| [Side::Archive, Side::Rust].map(|side| {
                    let began = Instant::now();
                    black_box(side.save(N as u32, black_box(&words), &mut out));
                    began.elapsed().as_nanos() as f64 / 4096.0
                }).to_vec()).collect();
                let (best, length) = (best(&rows), Side::Rust.save(N as u32, &words, &mut out).length);
                println!("{kind} {:.1} {:.1} {:.2} {}", best[0], best[1], median_ratio(&rows), length / 4096);
            }
        }
        ["growth"] => {
            for (measure, kind) in CASES {
                for mode in MODES {
                    let best = best(&turns(&[1024, 2048, 4096].map(|picks| (Side::Archive, picks)), measure, kind, mode));
                    println!("{measure} {kind} {mode} {:.1} {:.1} {:.1}", best[0], best[1], best[2]);
                }
            }
        }
        ["lengths"] => {
            for (measure, kind) in CASES {
                let words = recording(kind, N, 4096, SEED);
                let mut area = vec![0; 4100 * width(measure, N)];
                let got = Side::Rust.whole(N as u32, measure, &words, &mut area);
                println!("{measure} {kind} {} {} {}", got.length, got.compositions, got.tests);
            }
        }
        [side, "0", kind, "save", picks, turns] => {
            let side = if side == "archive" { Side::Archive } else { Side::Rust };
            let picks: usize = picks.parse().unwrap();
            let words = recording(kind, N, picks, SEED);
            let mut out = file_bytes(N, picks);
            for _ in 0..turns.parse().unwrap() {
                black_box(side.save(N as u32, black_box(&words), &mut out));
            }
        }
        [side, measure, kind, mode, picks, turns] => {
            walk::PLAIN.store(side == "plain", Ordering::Relaxed);
            let side = if side == "archive" { Side::Archive } else { Side::Rust };
            let (measure, picks): (u32, usize) = (measure.parse().unwrap(), picks.parse().unwrap());
            let words = recording(kind, N, picks, SEED);
            let list = union(&words, N);
            let mut area = vec![0; (picks + 4) * width(measure, N)];
            for _ in 0..turns.parse().unwrap() {
                black_box(run(side, mode, N, measure, &words, &list, &mut area));
            }
        }
        _ => panic!("compare, times, saves, growth, lengths, or SIDE MEASURE RECORDING MODE PICKS TURNS"),
    }
}
