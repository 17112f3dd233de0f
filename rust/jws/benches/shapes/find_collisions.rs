//! Searches for names of one fingerprint, stage by stage: two segments of four characters each that lead to the same fingerprint after all
//! that was found before. The lines that it prints go into `STAGES` of `fingerprint.rs`.
//!
//!     cargo run --release --offline --locked -p jws --example find_collisions -- STAGES [THREADS [BITS]]
//!
//! Of the fingerprint's 64 bits the lowest BITS must agree, all of them where nothing is said: that takes some 2^32 rounds a stage.
//!
//! The search is Pollard's rho with distinguished points (van Oorschot, Wiener 1999): many walks, each by the rounds of one function from a
//! start of its own to the first value that ends in zeros. Two that end alike have met, and where they met the function has one value for
//! two.

mod fingerprint;

use std::collections::HashMap;
use std::sync::atomic::{AtomicBool, Ordering};
use std::sync::Mutex;

use case_generator::rng::Rng;
use fingerprint::{after, step, START};

/// Walks that a thread takes at once, so that their multiplications overlap.
const WALKS: usize = 8;
/// A walk that is so many times longer than most goes in a circle.
const CIRCLE: u64 = 32;

/// The code point for 16 bits: three or four bytes of UTF-8, no surrogate, and another one for any other 16 bits.
#[inline]
fn code_point(bits: u64) -> u64 {
    let bits = bits & 0xFFFF;
    let moved = matches!(bits & 0xF800, 0 | 0xD800);
    bits + (u64::from(moved) << 16)
}

/// The four code points for 64 bits.
fn segment(bits: u64) -> String {
    let character = |quarter: u32| {
        u32::try_from(code_point(bits >> (16 * quarter)))
            .ok()
            .and_then(char::from_u32)
    };
    (0..4)
        .map(|quarter| character(quarter).expect("a code point"))
        .collect()
}

/// The function that is walked by: from some bits to those of the fingerprint after the four code points for them.
#[derive(Clone, Copy)]
struct Rounds {
    state: u64,
    mask: u64,
    /// A value ends a walk if these of its bits are 0.
    end: u64,
}

impl Rounds {
    /// After a fingerprint, by the lowest `bits` bits; a walk then takes 2^12 times fewer rounds than the search.
    fn new(state: u64, bits: u32) -> Self {
        Rounds {
            state,
            mask: u64::MAX >> (64 - bits),
            end: (1 << (bits / 2 - 12)) - 1,
        }
    }

    #[inline]
    fn next(self, at: u64) -> u64 {
        let quarters = [at, at >> 16, at >> 32, at >> 48];
        quarters
            .iter()
            .fold(self.state, |state, bits| step(state, code_point(*bits)))
            & self.mask
    }

    fn ends(self, at: u64) -> bool {
        at & self.end == 0
    }

    fn ahead(self, at: u64, rounds: u64) -> u64 {
        (0..rounds).fold(at, |at, _| self.next(at))
    }

    /// Two values with one next value, by two walks that end alike; none where one walk began on the other.
    fn meeting(self, [one, other]: [Walk; 2]) -> Option<[u64; 2]> {
        let same_length = |walk: Walk| self.ahead(walk.start, walk.length - one.length.min(other.length));
        let (mut a, mut b) = (same_length(one), same_length(other));
        if a == b {
            return None;
        }
        while self.next(a) != self.next(b) {
            (a, b) = (self.next(a), self.next(b));
        }
        Some([a, b])
    }
}

/// A walk that came to its end.
#[derive(Clone, Copy)]
struct Walk {
    start: u64,
    length: u64,
}

/// Walks side by side, of one thread.
struct Walks {
    rng: Rng,
    at: [u64; WALKS],
    starts: [u64; WALKS],
    began: [u64; WALKS],
    now: u64,
}

impl Walks {
    fn new(rng: Rng, rounds: Rounds) -> Self {
        let nowhere = [0; WALKS];
        let mut walks = Walks {
            rng,
            at: nowhere,
            starts: nowhere,
            began: nowhere,
            now: 0,
        };
        (0..WALKS).for_each(|i| walks.begin(i, rounds));
        walks
    }

    /// Begins a walk anew, somewhere else.
    fn begin(&mut self, i: usize, rounds: Rounds) {
        self.starts[i] = self.rng.number() & rounds.mask;
        (self.at[i], self.began[i]) = (self.starts[i], self.now);
    }

    /// Takes a round of every walk, and says whether one ends there.
    #[inline]
    fn step(&mut self, rounds: Rounds) -> bool {
        self.at = self.at.map(|at| rounds.next(at));
        self.now += 1;
        self.at.iter().any(|at| rounds.ends(*at))
    }

    fn walk(&self, i: usize) -> Walk {
        let (start, length) = (self.starts[i], self.now - self.began[i]);
        Walk { start, length }
    }
}

/// What the threads share: the walks by their ends, and the two values that were looked for.
struct Search {
    rounds: Rounds,
    ended: Mutex<HashMap<u64, Walk>>,
    met: Mutex<Option<[u64; 2]>>,
    done: AtomicBool,
}

impl Search {
    /// Walks until the search is done.
    fn walk(&self, rng: Rng) {
        let rounds = self.rounds;
        let mut walks = Walks::new(rng, rounds);
        while !self.done.load(Ordering::Relaxed) {
            // About as long as one walk.
            for _ in 0..=rounds.end {
                if walks.step(rounds) {
                    for i in 0..WALKS {
                        if rounds.ends(walks.at[i]) {
                            self.end(walks.at[i], walks.walk(i));
                            walks.begin(i, rounds);
                        }
                    }
                }
            }
            for i in 0..WALKS {
                if walks.walk(i).length > CIRCLE * (rounds.end + 1) {
                    walks.begin(i, rounds);
                }
            }
        }
    }

    /// Notes the end of a walk; where another one ended there too, looks where they met.
    fn end(&self, end: u64, walk: Walk) {
        let before = self.ended.lock().unwrap().insert(end, walk);
        let Some(values) = before.and_then(|other| self.rounds.meeting([walk, other])) else {
            return;
        };
        *self.met.lock().unwrap() = Some(values);
        self.done.store(true, Ordering::Relaxed);
    }
}

/// Two segments that lead from a fingerprint to one and the same, in its lowest `bits` bits.
fn found(state: u64, threads: usize, bits: u32) -> [String; 2] {
    let search = Search {
        rounds: Rounds::new(state, bits),
        ended: Mutex::default(),
        met: Mutex::default(),
        done: AtomicBool::new(false),
    };
    std::thread::scope(|scope| {
        for thread in 0..threads as u64 {
            let search = &search;
            scope.spawn(move || search.walk(Rng::of_case(state, thread)));
        }
    });
    let values = search.met.into_inner().unwrap().expect("two values");
    let segments = values.map(segment);
    let [one, other] = segments
        .each_ref()
        .map(|segment| after(state, segment) & search.rounds.mask);
    assert!(segments[0] != segments[1] && one == other);
    segments
}

fn main() {
    let words: Vec<usize> = std::env::args()
        .skip(1)
        .map(|word| word.parse().expect("a number"))
        .collect();
    let (stages, threads, bits) = match words[..] {
        [stages] => (stages, 1, 64),
        [stages, threads] => (stages, threads, 64),
        [stages, threads, bits] => (stages, threads, bits as u32),
        _ => panic!("find_collisions STAGES [THREADS [BITS]]"),
    };
    assert!(
        threads >= 1 && (24..=64).contains(&bits),
        "at least one thread, and 24 to 64 bits"
    );
    let mut state = START;
    for _ in 0..stages {
        let [one, other] = found(state, threads, bits);
        println!("    [\"{}\", \"{}\"],", one.escape_unicode(), other.escape_unicode());
        state = after(state, &one);
    }
}

#[test]
fn code_points_are_characters_and_differ() {
    let all: std::collections::BTreeSet<u64> = (0..=0xFFFF).map(code_point).collect();
    assert_eq!(all.len(), 0x1_0000);
    let written = |point: &u64| u32::try_from(*point).ok().and_then(char::from_u32).map(char::len_utf8);
    assert!(all.iter().all(|point| matches!(written(point), Some(3 | 4))));
    assert_eq!(segment(0xFFFF_D800_0800_0000), "\u{10000}\u{800}\u{1D800}\u{FFFF}");
}

/// The search finds what it looks for, where it is quick: in the lowest 40 bits, stage after stage.
#[test]
fn segments_of_one_fingerprint_in_40_bits() {
    for threads in [1, 2] {
        let mut state = START;
        for _ in 0..3 {
            let [one, other] = found(state, threads, 40);
            assert_eq!([one.chars().count(), other.chars().count()], [4, 4]);
            assert_ne!(one, other);
            assert_eq!((after(state, &one) ^ after(state, &other)) << 24, 0);
            state = after(state, &one);
        }
    }
}
