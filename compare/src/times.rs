//! Processor time of both, in turns.
use crate::batches::Batch;
use crate::generate::{self, over, sheet_of, turns, Claim, Set, MOST_MOMENTS, MOST_WORDS, MOST_WORK};
use crate::random::Random;
use crate::{equal, ffi, plain};
use std::hint::black_box;

/// One timing lasts at least so many nanoseconds, far above the grain of the clock.
const LEAST: u64 = 2_000_000;

pub struct Times {
    /// The one row that is wanted, or all.
    pub only: Option<String>,
    pub repetitions: usize,
    pub rows: usize,
}

/// The nanoseconds of so many rounds.
fn time(rounds: u64, work: &mut impl FnMut()) -> u64 {
    let begun = ffi::process_time();
    for _ in 0..rounds {
        work();
    }
    ffi::process_time() - begun
}

/// The number a fraction of the way up.
fn quantile(numbers: &mut [f64], fraction: f64) -> f64 {
    numbers.sort_by(f64::total_cmp);
    numbers[((numbers.len() - 1) as f64 * fraction).round() as usize]
}

/// Nanoseconds with as many digits as tell them apart.
fn shown(time: f64) -> String {
    let digits = if time < 10.0 { 2 } else { 1 };
    format!("{time:.digits$}")
}

/// So many rounds that they last long enough.
fn enough(work: &mut impl FnMut()) -> u64 {
    let mut rounds = 1;
    while time(rounds, work) < LEAST {
        rounds *= 2;
    }
    rounds
}

/// Times rounds of so many calls, or words, of two in turns, and prints the row of one.
fn row(name: &str, repetitions: usize, parts: usize, mut one: impl FnMut(), mut other: impl FnMut()) {
    let (rounds, other_rounds) = (enough(&mut one), enough(&mut other));
    let each = |time: u64, rounds: u64| time as f64 / (rounds * parts as u64) as f64;
    let (mut of_one, mut of_other, mut ratios) = (Vec::new(), Vec::new(), Vec::new());
    for repetition in 0..repetitions {
        let (first, second);
        if repetition % 2 == 0 {
            first = each(time(rounds, &mut one), rounds);
            second = each(time(other_rounds, &mut other), other_rounds);
        } else {
            second = each(time(other_rounds, &mut other), other_rounds);
            first = each(time(rounds, &mut one), rounds);
        }
        of_one.push(first);
        of_other.push(second);
        ratios.push(first / second);
    }
    println!(
        "{name:<18} {:>10} {:>10} {:>7.2} {:>7.2} {:>7.2}",
        shown(quantile(&mut of_one, 0.5)),
        shown(quantile(&mut of_other, 0.5)),
        quantile(&mut ratios, 0.5),
        quantile(&mut ratios, 0.25),
        quantile(&mut ratios, 0.75),
    );
}

impl Times {
    /// The row of ours and plain.
    fn row(&mut self, name: &str, parts: usize, ours: impl FnMut(), plain: impl FnMut()) {
        if self.only.as_deref().is_some_and(|only| only != name) || parts == 0 {
            return;
        }
        if self.rows == 0 {
            println!("medians of {} repetitions in turns; from, to: the middle half of the ratios", self.repetitions);
            println!("ns of one call; of tidies and tidies-idle, batches of calls, ns of one word of the lists given");
            println!("{:<18} {:>10} {:>10} {:>7} {:>7} {:>7}", "row", "ours ns", "plain ns", "ratio", "from", "to");
        }
        self.rows += 1;
        row(name, self.repetitions, parts, ours, plain);
    }

    fn claims(&mut self, name: &str, claims: &[Claim]) {
        let (mut work, mut other_work) = (vec![0; MOST_WORK], vec![0; MOST_WORK]);
        let ours = || {
            for claim in claims {
                let work = &mut work[..claim.work];
                black_box(ffi::claim_span(
                    black_box(&claim.sheet),
                    black_box(&claim.f),
                    black_box(&claim.g),
                    black_box(work),
                ));
            }
        };
        let plain = || {
            for claim in claims {
                let work = &mut other_work[..claim.work];
                black_box(plain::claim_span(
                    black_box(&claim.sheet),
                    black_box(&claim.f),
                    black_box(&claim.g),
                    black_box(work),
                ));
            }
        };
        self.row(name, claims.len(), ours, plain);
    }

    /// The claims of a set: those that are answered, then those that are refused.
    pub fn set(&mut self, set: Set, seed: u64) {
        let mut random = set.random(seed);
        let count = if set == Set::Largest { 24 } else { 300 };
        let mut work = vec![0; MOST_WORK];
        let drawn = (0..count).map(|_| generate::claim(&mut random, set));
        let is_answered = |claim: &Claim| {
            equal::fault(ffi::claim_span(&claim.sheet, &claim.f, &claim.g, &mut work[..claim.work])) == 0
        };
        let (answered, refused): (Vec<Claim>, Vec<Claim>) = drawn.partition(is_answered);
        self.claims(set.name(), &answered);
        self.claims(&format!("{}-refused", set.name()), &refused);
    }

    /// The batches of tidyings, by the word.
    pub fn tidies(&mut self, seed: u64) {
        for batch in Batch::all(seed) {
            assert_eq!(batch.tidy(ffi::tidy), batch.tidy(plain::tidy));
            let ours = || {
                black_box(batch.tidy(ffi::tidy));
            };
            let plain = || {
                black_box(batch.tidy(plain::tidy));
            };
            self.row(batch.name, batch.words, ours, plain);
        }
    }

    /// The single operations on lists of so many words.
    pub fn operations(&mut self, words: usize, seed: u64) {
        const CALLS: usize = 100;
        let mut random = Random(seed);
        let a = turns(&mut random, words, 0);
        let b = turns(&mut random, words, 1);
        let sheet = sheet_of("a", &a);
        // a claim that fails for good from the last date on
        let (all, short) = (&a[..], &a[..words - 1]);
        let (f, g) = if a[words - 1] % 2 == 1 { (all, short) } else { (short, all) };
        macro_rules! call {
            (|$out:ident| $call:ident($($argument:expr),*)) => {
                call!(16, |$out| $call($($argument),*))
            };
            // the fault stands from that bit on
            ($bit:literal, |$out:ident| $call:ident($($argument:expr),*)) => {{
                let mut $out = [0u32; MOST_WORDS];
                assert_eq!(ffi::$call($($argument),*) >> $bit, 0, "{}-{words} is refused", stringify!($call));
                black_box(&mut $out);
                self.row(
                    &format!("{}-{words}", stringify!($call)),
                    CALLS,
                    || {
                        let mut $out = [0u32; MOST_WORDS];
                        for _ in 0..CALLS {
                            black_box(ffi::$call($(black_box($argument)),*));
                        }
                        black_box(&mut $out);
                    },
                    || {
                        let mut $out = [0u32; MOST_WORDS];
                        for _ in 0..CALLS {
                            black_box(plain::$call($(black_box($argument)),*));
                        }
                        black_box(&mut $out);
                    },
                )
            }};
        }
        call!(|out| tidy(&a, &mut out));
        call!(|out| connective(8, &a, &b, &mut out));
        call!(|out| not(&a, &mut out));
        call!(|out| rising(&a, &mut out));
        call!(|out| sr(&a, &b, &mut out));
        call!(|out| rs(&a, &b, &mut out));
        call!(|out| ton(2, &a, &mut out));
        call!(|out| tof(2, &a, &mut out));
        call!(|out| tp(2, &a, &mut out));
        call!(|out| implies(&a, &a));
        call!(32, |out| implies_span(f, g));
        call!(48, |out| uptime(&sheet, b"a", generate::M as u32, &mut out));
    }

    /// Columns of the most moments, over all dates of a list of so many words.
    pub fn column(&mut self, words: usize, seed: u64) {
        let (list, moments) = chart(words, seed);
        let call = |values: fn(&[u32], &[u32], &mut [u32]) -> u64| {
            let (list, moments, mut out) = (&list, &moments, vec![0; MOST_MOMENTS]);
            move || {
                black_box(values(black_box(list), black_box(moments), black_box(&mut out)));
            }
        };
        self.row(&format!("column-{words}"), 1, call(ffi::values), call(plain::values));
    }
}

/// A list of so many words that goes up and down in turn, and the most moments, over all its dates.
fn chart(words: usize, seed: u64) -> (Vec<u32>, Vec<u32>) {
    let mut random = Random(seed);
    let list = turns(&mut random, words, 0);
    let moments = over(&mut random, &list, MOST_MOMENTS);
    (list, moments)
}

/// Times single calls of ours beside a column of ours for the same moments.
pub fn singles(seed: u64) {
    const REPETITIONS: usize = 61;
    println!("medians of {REPETITIONS} repetitions in turns; from, to: the middle half of the ratios");
    println!("ns of {MOST_MOMENTS} moments on a list of so many words, by single calls and by one column");
    println!("{:<18} {:>10} {:>10} {:>7} {:>7} {:>7}", "words", "single ns", "column ns", "ratio", "from", "to");
    for words in [3, 16, MOST_WORDS] {
        let (list, moments) = chart(words, seed);
        let (mut out, mut single_out) = (vec![0; MOST_MOMENTS], vec![0; MOST_MOMENTS]);
        let mut column = || {
            black_box(ffi::values(black_box(&list), black_box(&moments), black_box(&mut out)));
        };
        let mut single = || {
            for (value, moment) in single_out.iter_mut().zip(black_box(&moments)) {
                *value = ffi::value(black_box(&list), *moment);
            }
            black_box(&mut single_out);
        };
        row(&words.to_string(), REPETITIONS, 1, &mut single, &mut column);
        assert_eq!(out, single_out);
    }
}
