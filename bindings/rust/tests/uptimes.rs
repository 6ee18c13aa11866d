// Up-times: document 02's cases; and random lists, against a count gap by gap.
mod random;

use random::{later, Random};
use rascrunel::{calls, Fault, List, Sheet, Stretch, UpTime, LIST_WORDS, M};

fn sheet(words: &[u32]) -> Sheet {
    Sheet::begin().unwrap().append("other", &[1]).unwrap().append("a", words).unwrap()
}

fn page(words: &[u32], h: u32) -> String {
    sheet(words).uptime("a", h).unwrap().to_string()
}

#[test]
fn printed() {
    let f = [0, 23, 36];
    assert_eq!(page(&f, 8), "5 3\ntotal 3");
    assert_eq!(page(&f, 0), "total 0");
    assert_eq!(page(&f, 5), "total 0");
    assert_eq!(page(&f, 6), "5 1\ntotal 1");
    assert_eq!(page(&f, M), "5 4\ntotal 4");
    assert_eq!(page(&[1, 20, 39], 12), "0 5\n9 3\ntotal 8");
    assert_eq!(page(&[1], M), format!("0 {M}\ntotal {M}"));
    // a lone instant: up it has no line, down it parts nothing
    assert_eq!(page(&[0, 22], M), "total 0");
    assert_eq!(page(&[1, 21], 12), "0 12\ntotal 12");
    assert_eq!(sheet(&f).uptime("a", 8).unwrap(), UpTime { stretches: vec![Stretch { first: 5, length: 3 }], total: 3 });
}

#[test]
fn faults() {
    let on = sheet(&[1, 20, 39]);
    assert_eq!(on.uptime("a", M + 1), Err(Fault::HorizonAboveM));
    assert_eq!(on.uptime("b", M + 1), Err(Fault::UnknownName));
    assert_eq!(on.uptime("A", M + 1), Err(Fault::Name));
    assert_eq!(calls::uptime(&on.bytes()[1..], b"A", M + 1, &mut []), Err(Fault::Mark));
    let mut out = [7; 5];
    assert_eq!(calls::uptime(on.bytes(), b"a", M + 1, &mut out[..0]), Err(Fault::HorizonAboveM));
    assert_eq!(calls::uptime(on.bytes(), b"a", 12, &mut out[..3]), Err(Fault::ShortOutput));
    assert_eq!(calls::uptime(on.bytes(), b"a", 0, &mut []), Ok((0, 0)));
    assert_eq!(out, [7; 5]);
    assert_eq!(calls::uptime(on.bytes(), b"a", 12, &mut out), Ok((4, 8)));
    assert_eq!(out, [0, 5, 9, 3, 7]);
}

/// Whether gap k is up: the value after the last change up to k.
fn is_up(words: &[u32], k: u32) -> bool {
    let last = words[1..].iter().rev().find(|&&word| word / 4 <= k);
    *last.unwrap_or(&words[0]) % 2 == 1
}

/// The runs of gaps before h that are as they should be, gap by gap.
fn runs(h: u32, wanted: impl Fn(u32) -> bool) -> UpTime {
    let mut stretches: Vec<Stretch> = Vec::new();
    let mut total = 0;
    for k in (0..h).filter(|&k| wanted(k)) {
        total += 1;
        match stretches.last_mut() {
            Some(last) if last.first + last.length == k => last.length += 1,
            _ => stretches.push(Stretch { first: k, length: 1 }),
        }
    }
    UpTime { stretches, total }
}

/// Its runs: that from gap 0 on is as much longer, the others begin as much later.
fn runs_later(runs: UpTime, by: u32) -> UpTime {
    let mut later = runs;
    for stretch in &mut later.stretches {
        if stretch.first == 0 {
            stretch.length += by;
            later.total += by;
        } else {
            stretch.first += by;
        }
    }
    later
}

fn compare(words: &[u32], h: u32, by: u32) {
    let (up, down) = (runs(h, |k| is_up(words, k)), runs(h, |k| !is_up(words, k)));
    assert_eq!(up.total + down.total, h);
    let (up, down, moved, h) = (runs_later(up, by), runs_later(down, by), later(words, by), h + by);
    let on = sheet(&moved);
    assert_eq!(on.uptime("a", h).unwrap(), up, "{moved:?} {h}");
    // the complement's up-time is the down-time, and both make h
    let not = List::new(&moved).unwrap().not().unwrap();
    let complement = sheet(not.words()).uptime("a", h).unwrap();
    assert_eq!(complement, down, "not {moved:?} {h}");
    assert_eq!(up.total + complement.total, h);
    // an output just long enough, and one that is a word too short
    let count = 2 * up.stretches.len();
    let mut out = [7; LIST_WORDS + 1];
    if count > 0 {
        assert_eq!(calls::uptime(on.bytes(), b"a", h, &mut out[..count - 1]), Err(Fault::ShortOutput));
        assert_eq!(out, [7; LIST_WORDS + 1]);
    }
    assert_eq!(calls::uptime(on.bytes(), b"a", h, &mut out[..count]), Ok((count, up.total)));
    assert!(out[count..].iter().all(|&word| word == 7));
}

/// Lists of all lengths, horizons before, at, between and after their dates; `by` moves the dates of a list whose last one is given.
fn compare_random(seed: u64, lists: usize, by: impl Fn(u32) -> u32) {
    let mut random = Random(seed);
    for round in 0..lists {
        let count = match round % 8 {
            0 => 256,
            1 => 200 + random.below(56),
            _ => 1 + random.below(24),
        };
        let step = 1 + random.below(3);
        let words = random.list(count as usize, step);
        let last = words[words.len() - 1] / 4;
        for _ in 0..3 {
            let h = 1 + random.below(last + 6);
            let by = by(last.max(h));
            compare(&words, h, by);
        }
    }
}

#[test]
fn gap_by_gap() {
    for h in 0..3 {
        compare(&[0, 7], h, 0);
        compare(&[1, 4], h, 0);
    }
    compare_random(1, 3000, |_| 0);
}

#[test]
fn near_m() {
    // the last date, or the horizon, is M
    compare_random(2, 3000, |last| M - last);
}
