// The Rust side of check-abi: `test` checks calls whose answers are known, `test trace` prints the table that the C side prints too, from the
// declarations of include/nookmallow.rs.
#[path = "../include/nookmallow.rs"]
mod nookmallow;

use nookmallow::{area_words, decide, file_bytes, length, open, pick, read, save, table, whole};
use nookmallow::{Answer, Decision, Handed, Measured, Place, Reading, Saved};
use std::mem::{align_of, offset_of, size_of};

// ---- the table

// The C side's draws.
struct Draws(u64);

impl Draws {
    fn draw(&mut self) -> u32 {
        self.0 ^= self.0 << 13;
        self.0 ^= self.0 >> 7;
        self.0 ^= self.0 << 17;
        (self.0 >> 32) as u32
    }

    fn below(&mut self, k: u32) -> u32 {
        self.draw() % k
    }
}

fn line(name: &str, numbers: &[usize]) {
    let text: Vec<String> = numbers.iter().map(|x| x.to_string()).collect();
    println!("{} {}", name, text.join(" "));
}

fn layout() {
    line("place", &[size_of::<Place>(), align_of::<Place>(), offset_of!(Place, boards), offset_of!(Place, measure), offset_of!(Place, limit),
        offset_of!(Place, taken), offset_of!(Place, start), offset_of!(Place, boundary), offset_of!(Place, failed), offset_of!(Place, passed),
        offset_of!(Place, compositions), offset_of!(Place, tests)]);
    line("handed", &[size_of::<Handed>(), align_of::<Handed>(), offset_of!(Handed, refusal), offset_of!(Handed, place)]);
    line("answer", &[size_of::<Answer>(), align_of::<Answer>(), offset_of!(Answer, refusal), offset_of!(Answer, length),
        offset_of!(Answer, compositions), offset_of!(Answer, tests)]);
    line("measured", &[size_of::<Measured>(), align_of::<Measured>(), offset_of!(Measured, refusal), offset_of!(Measured, length),
        offset_of!(Measured, compositions), offset_of!(Measured, tests), offset_of!(Measured, place)]);
    line("decision", &[size_of::<Decision>(), align_of::<Decision>(), offset_of!(Decision, refusal), offset_of!(Decision, yes),
        offset_of!(Decision, compositions), offset_of!(Decision, tests)]);
    line("reading", &[size_of::<Reading>(), align_of::<Reading>(), offset_of!(Reading, refusal), offset_of!(Reading, boards),
        offset_of!(Reading, picks)]);
    line("saved", &[size_of::<Saved>(), align_of::<Saved>(), offset_of!(Saved, refusal), offset_of!(Saved, length)]);
    println!("version {}", nookmallow::version());
}

fn sum_of(words: &[u32]) -> u32 {
    words.iter().fold(2166136261u32, |sum, w| (sum ^ w).wrapping_mul(16777619))
}

fn sum_of_bytes(bytes: &[u8]) -> u32 {
    bytes.iter().fold(2166136261u32, |sum, b| (sum ^ u32::from(*b)).wrapping_mul(16777619))
}

fn place_text(p: Place) -> String {
    format!("{} {} {} {} {} {} {} {} {} {}", p.boards, p.measure, p.limit, p.taken, p.start, p.boundary, p.failed, p.passed, p.compositions, p.tests)
}

fn alter(g: &mut Draws, p: &mut Place) {
    if g.below(6) != 0 {
        return;
    }
    let i = g.below(10);
    let x = if g.below(3) != 0 { g.below(8) } else { g.draw() };
    match i {
        0 => p.boards = x,
        1 => p.measure = x,
        2 => p.limit = x,
        3 => p.taken = x,
        4 => p.start = x,
        5 => p.boundary = x,
        6 => p.failed = x,
        7 => p.passed = x,
        8 => p.compositions = x,
        _ => p.tests = x,
    }
}

fn one_round(g: &mut Draws) {
    let likely: [u8; 8] = [0x4F, 0x53, 0x50, 0x45, 0, 1, 2, 0x50];
    let n = 2 + g.below(4);
    let measure = 1 + g.below(4);
    let limit = 1 + g.below(6);
    let area_len = area_words(n, measure, limit) + g.below(3) as usize;
    let boards = n as usize;
    let list: Vec<u32> = (0..n).map(|u| ((1u32 << n) - 1) & !(1 << u)).collect();
    let words: Vec<u32> = (0..6 * boards).map(|i| g.draw() & list[i % boards]).collect();
    let mut area: Vec<u32> = (0..area_len).map(|_| g.draw()).collect();
    let mut h = open(n, measure, limit, &list, &mut area);
    println!("open {} {} area {}", h.refusal, place_text(h.place), sum_of(&area));
    let picks = g.below(7) as usize;
    for k in 0..picks {
        let mut p = h.place;
        alter(g, &mut p);
        h = pick(p, &mut area, &words[k * boards..(k + 1) * boards]);
        println!("pick {} {} area {}", h.refusal, place_text(h.place), sum_of(&area));
        p = h.place;
        alter(g, &mut p);
        let r = length(p);
        println!("length {} {} {} {} {}", r.refusal, r.length, r.compositions, r.tests, place_text(r.place));
    }
    let count = if g.below(8) != 0 { n * g.below(7) } else { g.below(6 * n + 1) } as usize;
    let a = whole(n, measure, &words[..count], &mut area);
    println!("whole {} {} {} {} area {}", a.refusal, a.length, a.compositions, a.tests, sum_of(&area));
    area.iter_mut().for_each(|w| *w = g.draw());
    let window = g.below(8);
    let y = decide(n, measure, &words[..count], window, &mut area);
    println!("decide {} {} {} {} area {}", y.refusal, y.yes, y.compositions, y.tests, sum_of(&area));
    let mut out: Vec<u32> = (0..40).map(|_| g.draw()).collect();
    let room = g.below(8) as usize;
    let refusal = table(n, &words[..boards * (count / boards)], &mut out[..room]);
    println!("table {} out {}", refusal, sum_of(&out));
    let bytes_len = g.below(25) as usize;
    let mut bytes: Vec<u8> = (0..24).map(|_| likely[g.below(8) as usize]).collect();
    bytes[0] = 0x42;
    bytes[1] = n as u8;
    bytes[2] = 0x50;
    if bytes_len > 2 {
        bytes[bytes_len - 1] = 0x45;
    }
    let d = read(&bytes[..bytes_len], limit, &mut out);
    println!("read {} {} {} out {}", d.refusal, d.boards, d.picks, sum_of(&out));
    let most = file_bytes(n, count as u32 / n);
    let other = if g.below(8) != 0 { n } else { g.below(7) };
    let shorter = if g.below(2) != 0 { 0 } else { g.below(20) } as usize;
    let mut file: Vec<u8> = (0..file_bytes(5, 6)).map(|_| g.draw() as u8).collect();
    let s = save(other, &words[..count], &mut file[..most - shorter.min(most)]);
    println!("save {} {} file {}", s.refusal, s.length, sum_of_bytes(&file));
}

// ---- answers known by hand

fn ten_cases() {
    let a = [2, 0, 0, 1, 2, 0, 0, 1];
    let b = [2, 1, 2, 1, 2, 1];
    let c = [6, 5, 3, 2, 4, 1, 4, 1, 2];
    let d = [2, 1, 0, 0];
    let f = [0, 0];
    let cases: [(&[u32], u32, u32, u32, u32, u32); 10] = [(&a, 2, 1, 0, 0, 1), (&a, 2, 2, 2, 6, 4), (&a, 2, 3, 2, 3, 4), (&a, 2, 4, 3, 4, 4),
        (&b, 2, 1, 3, 2, 3), (&b, 2, 3, 1, 0, 3), (&c, 3, 1, 1, 3, 5), (&d, 2, 1, 0, 1, 3), (&d, 2, 3, 2, 0, 2), (&f, 2, 2, 1, 0, 1)];
    for (words, n, measure, length, compositions, tests) in cases {
        let mut area = vec![7; area_words(n, measure, words.len() as u32 / n) + 1];
        let refusal = if length == 0 { 9 } else { 0 };
        assert_eq!(whole(n, measure, words, &mut area), Answer { refusal, length, compositions, tests });
        assert!(area[..area.len() - 1].iter().all(|w| *w == 0) && area[area.len() - 1] == 7);
    }
    let mut out = [7; 3];
    assert_eq!(table(2, &a, &mut out), 0);
    assert_eq!(out, [2, 1, 7]);
}

// Each call with a good answer and with a refusal, the words left as they should be.
fn each_call() {
    let mut area = [7; 13];
    let refused = open(2, 3, 2, &[], &mut area[..11]);
    assert_eq!(refused, Handed { refusal: 4, place: Place::default() });
    assert_eq!(area, [7; 13]);
    let opened = open(2, 3, 2, &[], &mut area);
    let fresh = Place { boards: 2, measure: 3, limit: 2, start: 1, ..Place::default() };
    assert_eq!(opened, Handed { refusal: 0, place: fresh });
    assert_eq!(area, [0, 0, 0, 0, 0, 0, 0, 0, 0, 0, 0, 0, 7]);
    assert_eq!(length(fresh), Measured { refusal: 8, length: 0, compositions: 0, tests: 0, place: fresh });
    let one = pick(fresh, &mut area, &[2, 0]);
    let p = Place { taken: 1, failed: 1, tests: 1, ..fresh };
    assert_eq!(one, Handed { refusal: 0, place: p });
    assert_eq!(length(p), Measured { refusal: 9, length: 0, compositions: 0, tests: 1, place: p });
    let held = area;
    assert_eq!(pick(p, &mut area, &[2, 4]), Handed { refusal: 5, place: p });
    assert_eq!(pick(p, &mut area, &[]), Handed { refusal: 10, place: p });
    let flagged = Place { passed: 0x8000_0001, ..p };
    assert_eq!(pick(flagged, &mut area, &[2, 1]), Handed { refusal: 16, place: flagged });
    assert_eq!(length(flagged), Measured { refusal: 16, length: 0, compositions: 0, tests: 0, place: flagged });
    assert_eq!(area, held);
    let q = pick(p, &mut area, &[0, 1]).place;
    assert_eq!(q, Place { taken: 2, passed: 1, compositions: 1, tests: 2, ..p });
    assert_eq!(length(q), Measured { refusal: 0, length: 2, compositions: 1, tests: 2, place: q });
    assert_eq!(pick(q, &mut area, &[0, 1]), Handed { refusal: 7, place: q });
    let turns = [2, 0, 0, 1, 2, 0];
    let mut lent = [7; 15];
    assert_eq!(decide(2, 3, &turns, 0, &mut lent), Decision { refusal: 17, yes: 0, compositions: 0, tests: 0 });
    assert_eq!(decide(2, 3, &turns, 4, &mut lent), Decision { refusal: 17, yes: 0, compositions: 0, tests: 0 });
    assert_eq!(decide(2, 3, &turns, 2, &mut lent[..13]), Decision { refusal: 4, yes: 0, compositions: 0, tests: 0 });
    assert_eq!(lent, [7; 15]);
    assert_eq!(decide(2, 3, &turns, 2, &mut lent), Decision { refusal: 0, yes: 1, compositions: 2, tests: 2 });
    assert_eq!(lent, [0, 0, 0, 0, 0, 0, 0, 0, 0, 0, 0, 0, 0, 0, 7]);
    assert_eq!(decide(2, 3, &turns, 1, &mut lent[..14]), Decision { refusal: 0, yes: 0, compositions: 0, tests: 1 });
    let file = [0x42, 2, 0x4F, 0, 1, 0x50, 0x45];
    let mut out = [7; 5];
    assert_eq!(read(&file, 2, &mut out), Reading { refusal: 0, boards: 2, picks: 1 });
    assert_eq!(out, [2, 0, 7, 7, 7]);
    assert_eq!(read(&file[..6], 2, &mut out), Reading { refusal: 12, boards: 0, picks: 0 });
    assert_eq!(read(&[], 2, &mut []), Reading { refusal: 12, boards: 0, picks: 0 });
    assert_eq!(table(2, &[2, 2], &mut out), 5);
    assert_eq!(out, [2, 0, 7, 7, 7]);
    let mut bytes = [7; 9];
    let refused = |refusal| Saved { refusal, length: 0 };
    assert_eq!(save(33, &[2, 0], &mut bytes), refused(1));
    assert_eq!(save(2, &[2, 0, 1], &mut bytes), refused(10));
    assert_eq!(save(2, &[0; 2 * 4097], &mut bytes), refused(3));
    assert_eq!(save(2, &[2, 2], &mut bytes), refused(5));
    assert_eq!(save(2, &[2, 0], &mut bytes[..6]), refused(18));
    assert_eq!(bytes, [7; 9]);
    assert_eq!(save(2, &[2, 0], &mut bytes), Saved { refusal: 0, length: 7 });
    assert_eq!(bytes, [0x42, 2, 0x4F, 0, 1, 0x50, 0x45, 7, 7]);
    assert_eq!(save(2, &[], &mut bytes[..3]), Saved { refusal: 0, length: 3 });
    assert_eq!(bytes, [0x42, 2, 0x45, 0, 1, 0x50, 0x45, 7, 7]);
}

fn main() {
    if std::env::args().nth(1).as_deref() == Some("trace") {
        layout();
        let mut g = Draws(0x9E3779B97F4A7C15);
        for _ in 0..1500 {
            one_round(&mut g);
        }
        return;
    }
    ten_cases();
    each_call();
    println!("Rust: every answer as known");
}
