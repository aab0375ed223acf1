// The controller of controller.c in Rust, over a safe wrapper: `Walk` owns its area and its place, so that the two stay together and
// nothing that is read overlaps what is written.
#[path = "../include/nookmallow.rs"]
mod nookmallow;

use nookmallow::Place;
use std::fmt;

const REACH: u32 = 3;

// The wait that this controller has built in.
const BUILT_IN: u32 = 3;

// The number of a refusal, 1 to 18, with what to do about it.
#[derive(Clone, Copy, Debug, PartialEq, Eq)]
struct Refusal(u32);

impl fmt::Display for Refusal {
    fn fmt(&self, f: &mut fmt::Formatter<'_>) -> fmt::Result {
        let remedy = match self.0 {
            1 => "boards not 2 to 32: correct the setup",
            2 => "no such measure: correct the setup",
            3 => "limit not 1 to 4096: correct the setup",
            4 => "area too short: lend as many words as the macro says",
            5 => "a forbidden bit: read the boards again",
            6 => "a link outside the list: open again with a wider list, and all picks from pick 1",
            7 => "limit reached: open again, hand over the last picks again, and keep the greatest length",
            8 => "no pick yet: go on, without a wait",
            9 => "no length so far: go on, without a wait",
            10 => "not a word for each board: read the boards again",
            16 => "place damaged: open again, and all picks from pick 1",
            17 => "no window of so many picks: ask with another number, or record more",
            18 => "output shorter than the file: lend more bytes, and save again",
            _ => "not a refusal of these calls",
        };
        write!(f, "refusal {}: {}", self.0, remedy)
    }
}

fn answer<T>(refusal: u32, good: T) -> Result<T, Refusal> {
    if refusal == 0 { Ok(good) } else { Err(Refusal(refusal)) }
}

// A length with the two counts.
#[derive(Clone, Copy, Debug, PartialEq, Eq)]
struct Length {
    picks: u32,
    compositions: u32,
    tests: u32,
}

// What has to come through a stop.
struct Stored {
    version: u32,
    place: Place,
    area: Vec<u32>,
    recording: Vec<u32>,
}

// `recording` has the picks taken.
struct Walk {
    place: Place,
    area: Vec<u32>,
    recording: Vec<u32>,
}

impl Walk {
    fn open(n: u32, measure: u32, limit: u32, footprint: &[u32]) -> Result<Walk, Refusal> {
        let mut area = vec![0; nookmallow::area_words(n, measure, limit)];
        let h = nookmallow::open(n, measure, limit, footprint, &mut area);
        answer(h.refusal, Walk { place: h.place, area, recording: Vec::new() })
    }

    // A refused pick changes nothing, so it may be put right and handed over again.
    fn pick(&mut self, words: &[u32]) -> Result<(), Refusal> {
        let h = nookmallow::pick(self.place, &mut self.area, words);
        self.place = h.place;
        if h.refusal == 0 {
            self.recording.extend_from_slice(words);
        }
        answer(h.refusal, ())
    }

    fn length(&self) -> Result<Length, Refusal> {
        let r = nookmallow::length(self.place);
        debug_assert_eq!(r.place, self.place);
        answer(r.refusal, Length { picks: r.length, compositions: r.compositions, tests: r.tests })
    }

    fn taken(&self) -> u32 {
        self.place.taken
    }

    fn stop(self) -> Stored {
        Stored { version: nookmallow::version(), place: self.place, area: self.area, recording: self.recording }
    }

    // None where another version stored it: the picks have to be taken again from pick 1.
    fn start(stored: Stored) -> Option<Walk> {
        if stored.version != nookmallow::version() {
            return None;
        }
        Some(Walk { place: stored.place, area: stored.area, recording: stored.recording })
    }
}

// Whether a wait of k picks is long enough wherever it begins in a recorded design.
fn will_do(n: u32, measure: u32, design: &[u32], k: u32) -> Result<bool, Refusal> {
    let mut area = vec![0; nookmallow::area_words(n, measure, design.len() as u32 / n)];
    let d = nookmallow::decide(n, measure, design, k, &mut area);
    answer(d.refusal, d.yes == 1)
}

// The recording file of some picks.
fn file_of(n: u32, recording: &[u32]) -> Result<Vec<u8>, Refusal> {
    let mut file = vec![0; nookmallow::file_bytes(n, recording.len() as u32 / n)];
    let s = nookmallow::save(n, recording, &mut file);
    file.truncate(s.length as usize);
    answer(s.refusal, file)
}

// The boards and the picks of a recording file of up to `limit` picks.
fn read_file(file: &[u8], limit: u32) -> Result<(u32, Vec<u32>), Refusal> {
    let mut recording = vec![0; 32 * limit as usize];
    let r = nookmallow::read(file, limit, &mut recording);
    recording.truncate((r.boards * r.picks) as usize);
    answer(r.refusal, (r.boards, recording))
}

// Takes a pick; the wait is its length, and there is none without one.
fn weave(walk: &mut Walk, words: &[u32]) -> Result<u32, Refusal> {
    walk.pick(words)?;
    Ok(walk.length()?.picks)
}

fn wait_of(walk: &Walk) -> u32 {
    walk.length().map_or(0, |l| l.picks)
}

fn main() -> Result<(), Refusal> {
    let woven: [[u32; 3]; 9] = [[2, 4, 0], [0, 0, 1], [2, 4, 1], [1, 4, 1], [2, 4, 1], [0, 4, 0], [2, 0, 0], [0, 0, 0], [0, 4, 1]];
    match will_do(3, REACH, &[2, 4, 0, 0, 0, 1, 2, 4, 0, 0, 0, 1], BUILT_IN) {
        Ok(yes) => println!("built-in wait of {} picks: {}", BUILT_IN, if yes { "will do" } else { "too short" }),
        Err(refusal) => println!("built-in wait of {} picks, {}", BUILT_IN, refusal),
    }
    let mut walk = Walk::open(3, REACH, 16, &[])?;
    for (i, words) in woven.iter().enumerate() {
        let wait = weave(&mut walk, words);
        match wait {
            Ok(picks) => println!("row {}, pick {}: wait {} picks", i + 1, walk.taken(), picks),
            Err(refusal) => println!("row {}, pick {}, {}", i + 1, walk.taken(), refusal),
        }
        if wait == Err(Refusal(5)) {
            weave(&mut walk, &[2, 4, 1])?;
            println!("read again, pick {}: wait {} picks", walk.taken(), wait_of(&walk));
        }
        if walk.taken() == 5 {
            let stored = walk.stop();
            let Some(later) = Walk::start(stored) else { return Ok(()) };
            walk = later;
            println!("stopped and started after pick {}: wait {} picks", walk.taken(), wait_of(&walk));
        }
    }
    let file = file_of(3, &walk.recording)?;
    let same = read_file(&file, 16)? == (3, walk.recording.clone());
    println!("saving {} picks: {} bytes, read back {}", walk.taken(), file.len(), if same { "the same" } else { "otherwise" });
    // A damaged place is refused, never trusted.
    let stored = walk.stop();
    let place = Place { start: 99, ..stored.place };
    let Some(mut walk) = Walk::start(Stored { place, ..stored }) else { return Ok(()) };
    if let Err(refusal) = weave(&mut walk, &woven[0]) {
        println!("damaged, {}", refusal);
    }
    Ok(())
}
