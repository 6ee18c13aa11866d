//! Both give each call the same answer: the same number, and the same words in the whole of the output.
use crate::generate::{self, Asked, Chart, Claim, Given, Set, MOST_MOMENTS, MOST_WORDS};
use crate::random::Random;
use crate::{ffi, plain};
use std::fmt::Write;

/// How many claims hold, fail until an instant, until a gap or for good, and are refused with each fault.
#[derive(Default)]
pub struct Tally {
    pub holds: usize,
    pub fails: [usize; 3],
    pub refused: [usize; 19],
}

impl Tally {
    fn count(&mut self, span: u64) {
        match (fault(span), span >> 32) {
            (0, _) if span == 0 => self.holds += 1,
            (0, 0) => self.fails[2] += 1,
            (0, last) => self.fails[last as usize % 2] += 1,
            (fault, _) => self.refused[fault as usize] += 1,
        }
    }

    pub fn all_refused(&self) -> usize {
        self.refused.iter().sum()
    }
}

/// The fault of a span, 0 for none.
pub fn fault(span: u64) -> u64 {
    if span as u32 == 0 {
        span >> 32
    } else {
        0
    }
}

/// A span without its end, packed as the calls do that do not say it.
fn verdict(span: u64) -> u64 {
    fault(span) << 40 | span & 0xffff_ffff
}

fn span_text(span: u64) -> String {
    let (first, last) = (span & 0xffff_ffff, span >> 32);
    if first == 0 {
        return if last == 0 { "holds".to_string() } else { format!("refused {last}") };
    }
    let first = format!("fails {} {}", ["at", "after"][first as usize % 2], first / 2);
    match last {
        0 => format!("{first} for good"),
        _ if last % 2 == 0 => format!("{first} until {}", last / 2),
        _ => format!("{first} until before {}", last / 2 + 1),
    }
}

fn written_text(written: u32, out: &[u32]) -> String {
    match written / 65536 {
        0 => format!("{} words, output {out:?}", written % 65536),
        fault => format!("refused {fault}, output {out:?}"),
    }
}

fn hex(bytes: &[u8]) -> String {
    let mut hex = String::new();
    for byte in bytes {
        write!(hex, "{byte:02x}").unwrap();
    }
    hex
}

fn claim_text(claim: &Claim) -> String {
    let hex = hex(&claim.sheet);
    let (f, g) = (claim.f.escape_ascii(), claim.g.escape_ascii());
    format!("sheet {hex}\nF {f}\nG {g}\nwork area of {} words", claim.work)
}

/// A claim call.
pub type ClaimCall = fn(&[u8], &[u8], &[u8], &mut [u32]) -> u64;

/// A claim refused by check 18 or before leaves the work area as it was.
fn is_kept(span: u64, work: &[u32], old: &[u32]) -> bool {
    matches!(fault(span), 0 | 5 | 6) || work == old
}

/// Claims of a set, with their ends and without, and their formulas by themselves: the first difference, or how they came out.
pub fn claims(set: Set, seed: u64, count: usize, other: ClaimCall) -> Result<Tally, String> {
    let mut random = set.random(seed);
    let mut tally = Tally::default();
    for _ in 0..count {
        let claim = generate::claim(&mut random, set);
        let old = vec![7; claim.work];
        let (first, second) = (&mut old.clone(), &mut old.clone());
        let ours = ffi::claim_span(&claim.sheet, &claim.f, &claim.g, first);
        let others = other(&claim.sheet, &claim.f, &claim.g, second);
        if ours != others {
            let (ours, others) = (span_text(ours), span_text(others));
            return Err(format!("{}\nours: {ours}\nplain: {others}", claim_text(&claim)));
        }
        let without = ffi::claim(&claim.sheet, &claim.f, &claim.g, first);
        if without != verdict(ours) {
            return Err(format!("{}\nours: {}\nwithout its end: {without}", claim_text(&claim), span_text(ours)));
        }
        if !is_kept(ours, first, &old) || !is_kept(ours, second, &old) {
            return Err(format!("{}\nthe work area was written: {}", claim_text(&claim), span_text(ours)));
        }
        tally.count(ours);
        for (letter, formula) in [("F", &claim.f), ("G", &claim.g)] {
            let room = if random.one_in(4) { random.below(20) } else { MOST_WORDS };
            let (mut out, mut other_out) = (vec![7; room], vec![7; room]);
            let ours = ffi::evaluate(&claim.sheet, formula, first, &mut out);
            let others = plain::evaluate(&claim.sheet, formula, second, &mut other_out);
            if (ours, &out) != (others, &other_out) {
                let (ours, others) = (written_text(ours, &out), written_text(others, &other_out));
                return Err(format!("{}\n{letter} by itself\nours: {ours}\nplain: {others}", claim_text(&claim)));
            }
        }
    }
    Ok(tally)
}

/// A call on lists, its answer as a number, made by either.
pub struct ListCall {
    pub name: &'static str,
    pub ours: fn(&Given, &mut [u32]) -> u64,
    pub plain: fn(&Given, &mut [u32]) -> u64,
}

macro_rules! list_calls {
    ($(|$given:ident, $out:ident| $call:ident($($argument:expr),*)),* $(,)?) => {
        [$(ListCall {
            name: stringify!($call),
            ours: |$given, $out| ffi::$call($($argument),*).into(),
            plain: |$given, $out| plain::$call($($argument),*).into(),
        }),*]
    };
}

pub const LIST_CALLS: [ListCall; 12] = list_calls![
    |given, out| tidy(&given.a, out),
    |given, out| not(&given.a, out),
    |given, out| rising(&given.a, out),
    |given, out| falling(&given.a, out),
    |given, out| ton(given.number, &given.a, out),
    |given, out| tof(given.number, &given.a, out),
    |given, out| tp(given.number, &given.a, out),
    |given, out| connective(given.number, &given.a, &given.b, out),
    |given, out| sr(&given.a, &given.b, out),
    |given, out| rs(&given.a, &given.b, out),
    |given, _out| implies(&given.a, &given.b),
    |given, _out| implies_span(&given.a, &given.b),
];

/// Every call on lists that are drawn: the first difference, or how many calls were answered and how many refused.
pub fn lists(seed: u64, count: usize, calls: &[ListCall]) -> Result<(usize, usize), String> {
    let mut random = Random(seed);
    let (mut answered, mut refused) = (0, 0);
    for _ in 0..count {
        let given = generate::given(&mut random);
        for call in calls {
            let room = if random.one_in(4) { random.below(300) } else { MOST_WORDS };
            let (mut out, mut other_out) = (vec![7; room], vec![7; room]);
            let ours = (call.ours)(&given, &mut out);
            let others = (call.plain)(&given, &mut other_out);
            if (ours, &out) != (others, &other_out) {
                let Given { number, a, b } = given;
                let (name, words) = (call.name, format!("number {number}\na {a:?}\nb {b:?}\noutput of {room} words"));
                return Err(format!(
                    "{name}\n{words}\nours: {ours}, output {out:?}\nplain: {others}, output {other_out:?}"
                ));
            }
            let is_answered = match call.name {
                "implies" => ours >> 40 == 0,
                "implies_span" => fault(ours) == 0,
                _ => ours >> 16 == 0,
            };
            if is_answered {
                answered += 1;
            } else {
                refused += 1;
            }
        }
    }
    Ok((answered, refused))
}

/// An up-time call.
pub type UpTimeCall = fn(&[u8], &[u8], u32, &mut [u32]) -> u64;

/// Up-times on sheets of a set: the first difference, or how many were refused with each fault, 0 for none.
pub fn uptimes(set: Set, seed: u64, count: usize, other: UpTimeCall) -> Result<[usize; 20], String> {
    let mut random = set.random(seed);
    let mut met = [0; 20];
    for _ in 0..count {
        let Asked { sheet, name, h } = generate::asked(&mut random, set);
        let room = if random.one_in(4) { random.below(20) } else { MOST_WORDS };
        let (mut out, mut other_out) = (vec![7; room], vec![7; room]);
        let ours = ffi::uptime(&sheet, &name, h, &mut out);
        let others = other(&sheet, &name, h, &mut other_out);
        if (ours, &out) != (others, &other_out) {
            let (hex, name) = (hex(&sheet), name.escape_ascii());
            return Err(format!(
                "uptime\nsheet {hex}\nname {name}\nhorizon {h}\nours: {ours}, output {out:?}\nplain: {others}, output {other_out:?}"
            ));
        }
        met[(ours >> 48) as usize] += 1;
    }
    Ok(met)
}

/// A tidying call.
pub type TidyCall = fn(&[u32], &mut [u32]) -> u32;

/// How many tidyings were refused with each fault, 0 for none, and how many dropped a word.
#[derive(Default)]
pub struct Tidied {
    pub met: [usize; 8],
    pub dropped: usize,
}

/// Tidyings of lists of which many have idle words, into outputs that are long, of any length, exactly long enough, and a word short:
/// the first difference, or how they came out.
pub fn tidyings(seed: u64, count: usize, other: TidyCall) -> Result<Tidied, String> {
    let mut random = Random(seed);
    let mut tidied = Tidied::default();
    for _ in 0..count {
        let list = generate::untidy(&mut random);
        // 0 where the list is refused
        let answer = ffi::tidy(&list, &mut [7; MOST_WORDS]) as usize % 65536;
        let room = match random.below(5) {
            0 => random.below(300),
            1 => answer,
            2 => answer.saturating_sub(1),
            _ => MOST_WORDS,
        };
        let (mut out, mut other_out) = (vec![7; room], vec![7; room]);
        let ours = ffi::tidy(&list, &mut out);
        let others = other(&list, &mut other_out);
        if (ours, &out) != (others, &other_out) {
            let (ours, others) = (written_text(ours, &out), written_text(others, &other_out));
            return Err(format!("tidy\nlist {list:?}\noutput of {room} words\nours: {ours}\nplain: {others}"));
        }
        tidied.met[ours as usize / 65536] += 1;
        tidied.dropped += (1..list.len()).contains(&(ours as usize)) as usize;
    }
    Ok(tidied)
}

/// A column call.
pub type ColumnCall = fn(&[u32], &[u32], &mut [u32]) -> u64;

/// How many columns were refused with each fault, 0 for none, and how many moments those that were answered have together.
#[derive(Default)]
pub struct Charted {
    pub met: [usize; 21],
    pub moments: usize,
}

/// Columns into outputs that are long, of any length, exactly long enough, and a word short, and their single calls: the first difference,
/// or how they came out.
pub fn columns(seed: u64, count: usize, other: ColumnCall) -> Result<Charted, String> {
    let mut random = Random(seed);
    let mut charted = Charted::default();
    for _ in 0..count {
        let Chart { list, moments } = generate::chart(&mut random);
        let room = match random.below(5) {
            0 => random.below(50),
            1 => moments.len(),
            2 => moments.len().saturating_sub(1),
            _ => MOST_MOMENTS + 1,
        };
        let (mut out, mut other_out) = (vec![7; room], vec![7; room]);
        let ours = ffi::values(&list, &moments, &mut out);
        let others = other(&list, &moments, &mut other_out);
        let given = || format!("column\nlist {list:?}\nmoments {moments:?}\noutput of {room} words");
        if (ours, &out) != (others, &other_out) {
            let given = given();
            return Err(format!("{given}\nours: {ours}, output {out:?}\nplain: {others}, output {other_out:?}"));
        }
        charted.met[(ours >> 48) as usize] += 1;
        if ours >> 48 != 0 {
            continue;
        }
        charted.moments += moments.len();
        for (&moment, &value) in moments.iter().zip(&out) {
            let single = ffi::value(&list, moment);
            if single != value {
                return Err(format!("{}\nours at {moment}: {value}, the single call: {single}", given()));
            }
        }
    }
    Ok(charted)
}
