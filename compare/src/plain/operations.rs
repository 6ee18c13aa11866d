//! The operations on accepted lists, each built in a slot, and the implication.
use super::answers::Answer;
use super::delays;
use super::lists::{Both, WORDS};
use super::pulses;

/// Row by the first operand, column by the second.
pub type Table = [[bool; 2]; 2];

pub const AND: Table = [[false, false], [false, true]];
pub const OR: Table = [[false, true], [true, true]];

/// The operations of one list.
#[derive(Clone, Copy)]
pub enum One {
    Not,
    Rising,
    Falling,
    Ton(u32),
    Tof(u32),
    Tp(u32),
}

/// The operations of two lists.
#[derive(Clone, Copy)]
pub enum Two {
    Connective(Table),
    Sr,
    Rs,
}

pub fn one(operation: One, a: &[u32], slot: &mut [u32; WORDS]) -> Result<usize, u32> {
    match operation {
        One::Not => Ok(not(a, slot)),
        One::Rising => edges(true, a, slot),
        One::Falling => edges(false, a, slot),
        One::Ton(length) => delays::delay(true, length, a, slot),
        One::Tof(length) => delays::delay(false, length, a, slot),
        One::Tp(length) => pulses::pulses(length, a, slot),
    }
}

pub fn two(operation: Two, a: &[u32], b: &[u32], slot: &mut [u32; WORDS]) -> Result<usize, u32> {
    match operation {
        Two::Connective(table) => connective(table, a, b, slot),
        Two::Sr => latch(true, a, b, slot),
        Two::Rs => latch(false, a, b, slot),
    }
}

fn cell(table: Table, a: bool, b: bool) -> bool {
    table[a as usize][b as usize]
}

/// Both values of each word turned.
fn not(a: &[u32], slot: &mut [u32; WORDS]) -> usize {
    slot[0] = 1 - a[0];
    for (word, turned) in a[1..].iter().zip(&mut slot[1..]) {
        *turned = word ^ 3;
    }
    a.len()
}

fn connective(table: Table, a: &[u32], b: &[u32], slot: &mut [u32; WORDS]) -> Result<usize, u32> {
    let mut both = Both::new(a, b);
    let mut answer = Answer::begin(slot, cell(table, both.a.value, both.b.value));
    while let Some(change) = both.next() {
        answer.put(change.date, cell(table, change.a_at, change.b_at), cell(table, change.a_after, change.b_after));
    }
    answer.finish()
}

/// The edges to a value: that value at a date, and the other just before it.
fn edges(to: bool, a: &[u32], slot: &mut [u32; WORDS]) -> Result<usize, u32> {
    let mut answer = Answer::begin(slot, false);
    let mut before = a[0] == 1;
    for word in &a[1..] {
        let at = word & 2 != 0;
        answer.put(word / 4, at == to && before != to, false);
        before = word & 1 != 0;
    }
    answer.finish()
}

/// A latch. What it holds in a gap is down wherever r is up; SR also shows s there.
fn latch(set_wins: bool, s: &[u32], r: &[u32], slot: &mut [u32; WORDS]) -> Result<usize, u32> {
    let mut both = Both::new(s, r);
    let mut held = both.a.value && !both.b.value;
    let mut answer = Answer::begin(slot, held || set_wins && both.a.value);
    while let Some(change) = both.next() {
        let (s, r) = (change.a_at, change.b_at);
        let at = if set_wins { s || held && !r } else { !r && (s || held) };
        let (s, r) = (change.a_after, change.b_after);
        held = !r && (s || at);
        answer.put(change.date, at, held || set_wins && s);
    }
    answer.finish()
}

/// Where an implication fails first, if it does, and the last moment of that run of failing moments.
#[derive(Clone, Copy)]
pub enum Verdict {
    Holds,
    FailsAt(u32, End),
    FailsAfter(u32, End),
}

/// An instant, the gap before one, or none: the run never ends.
#[derive(Clone, Copy)]
pub enum End {
    At(u32),
    Before(u32),
    Never,
}

/// The first moment not to fail ends the run; it fails in the gap where the readers stand.
fn end(mut both: Both) -> End {
    while let Some(change) = both.next() {
        if !change.a_at || change.b_at {
            return End::Before(change.date);
        }
        if !change.a_after || change.b_after {
            return End::At(change.date);
        }
    }
    End::Never
}

pub fn implication(f: &[u32], g: &[u32]) -> Verdict {
    let mut both = Both::new(f, g);
    if both.a.value && !both.b.value {
        return Verdict::FailsAfter(0, end(both));
    }
    while let Some(change) = both.next() {
        let fails_after = change.a_after && !change.b_after;
        if change.a_at && !change.b_at {
            return Verdict::FailsAt(change.date, if fails_after { end(both) } else { End::At(change.date) });
        }
        if fails_after {
            return Verdict::FailsAfter(change.date, end(both));
        }
    }
    Verdict::Holds
}
