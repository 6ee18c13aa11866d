// Columns: cases by hand; random lists at random moments, against single calls and a count of the changes; moments that are refused,
// against the sentences of document 02.
mod random;

use random::{later, Random};
use rascrunel::{calls, Column, Fault, List, Moment, Verdict, COLUMN_MOMENTS, M};
use Moment::{Gap, Instant};

fn list(words: &[u32]) -> List {
    List::new(words).unwrap()
}

/// Down, up only at 5, up after 9.
fn spiked() -> List {
    list(&[0, 22, 37])
}

/// The values as digits, and the words passed.
fn told(list: &List, moments: &[Moment]) -> (String, usize) {
    let Column { values, passed } = list.values(moments).unwrap();
    (values.into_iter().map(|value| if value { '1' } else { '0' }).collect(), passed)
}

#[test]
fn by_hand() {
    let all = [Gap(0), Gap(4), Instant(5), Gap(5), Instant(9), Gap(9), Instant(10), Gap(M)];
    assert_eq!(told(&spiked(), &all), ("00100111".to_string(), 3));
    // the words passed: by the last moment, at a word's instant and in its gap
    for (last, passed) in
        [(Gap(0), 1), (Instant(1), 1), (Gap(4), 1), (Instant(5), 2), (Gap(5), 2), (Gap(8), 2), (Instant(9), 3), (Gap(9), 3)]
    {
        assert_eq!(spiked().values(&[last]).unwrap().passed, passed, "{last}");
    }
    assert_eq!(told(&spiked(), &[]), (String::new(), 0));
    let late = list(&[0, 4 * M + 3]);
    assert_eq!(told(&late, &[Gap(M - 1), Instant(M), Gap(M)]), ("011".to_string(), 2));
    assert_eq!(told(&late, &[Gap(M - 1)]), ("0".to_string(), 1));
    assert_eq!(told(&list(&[1]), &[Gap(0), Gap(M)]), ("11".to_string(), 1));
}

#[test]
fn faults_in_order() {
    let (f, turned) = ([0, 23, 36], [11, 10]);
    let mut out = [7; 4];
    let mut refused = |list: &[u32], moments: &[u32], room: usize, fault| {
        assert_eq!(calls::values(list, moments, &mut out[..room]), Err(fault), "{list:?} {moments:?}");
        assert_eq!(out, [7; 4]);
    };
    // the list before the moments, their order before their dates, these before the output
    refused(&[], &turned, 0, Fault::ListLength);
    refused(&[0; 257], &turned, 0, Fault::ListLength);
    refused(&[2], &turned, 0, Fault::FirstWord);
    refused(&[0, 23, 21], &turned, 0, Fault::DateOrder);
    refused(&[0, 20], &turned, 0, Fault::NoChange);
    refused(&[], &[], 0, Fault::ListLength);
    refused(&f, &turned, 0, Fault::MomentOrder);
    refused(&f, &[10, 10], 4, Fault::MomentOrder);
    refused(&f, &[1, 0], 4, Fault::MomentOrder);
    refused(&f, &[0, 5, 4], 4, Fault::MomentOrder);
    refused(&f, &[u32::MAX, 5], 4, Fault::MomentOrder);
    refused(&f, &[0, 1], 0, Fault::Date);
    refused(&f, &[0], 4, Fault::Date);
    refused(&f, &[1, 2 * M + 2], 1, Fault::Date);
    refused(&f, &[u32::MAX], 4, Fault::Date);
    refused(&f, &[9, 10], 1, Fault::ShortOutput);
    refused(&f, &[1], 0, Fault::ShortOutput);
    // what is left of the output stays
    assert_eq!(calls::values(&f, &[], &mut []), Ok((0, 0)));
    assert_eq!(calls::values(&f, &[9, 10, 2 * M + 1], &mut out), Ok((3, 3)));
    assert_eq!(out, [0, 1, 0, 7]);
}

#[test]
fn as_many_as_there_may_be() {
    let gaps = |count: u32| (0..count).map(Gap).collect::<Vec<Moment>>();
    let column = spiked().values(&gaps(1000)).unwrap();
    assert_eq!((COLUMN_MOMENTS, column.values.len(), column.passed), (1000, 1000, 3));
    assert_eq!(column.values.iter().filter(|&&value| value).count(), 991);
    for count in [1001, 1002, 2000, 70_000] {
        assert_eq!(spiked().values(&gaps(count)), Err(Fault::MomentOrder));
    }
    // whatever they are: no moments at all, dates past M that rise
    assert_eq!(spiked().values(&[Instant(0); 1001]), Err(Fault::MomentOrder));
    let past = |count: u32| (0..count).map(|i| Instant(u32::MAX - 1001 + i)).collect::<Vec<Moment>>();
    assert_eq!(spiked().values(&past(1001)), Err(Fault::MomentOrder));
    assert_eq!(spiked().values(&past(1000)), Err(Fault::Date));
    // one that does not rise, at the end
    let mut falls = past(1000);
    falls[999] = falls[998];
    assert_eq!(spiked().values(&falls), Err(Fault::MomentOrder));
    falls[999] = Gap(0);
    assert_eq!(spiked().values(&falls), Err(Fault::MomentOrder));
    falls[999] = Gap(u32::MAX);
    assert_eq!(spiked().values(&falls), Err(Fault::Date));
}

/// The value that a single call gives.
fn single(list: &List, moment: Moment) -> Result<bool, Fault> {
    let value = match moment {
        Instant(k) => list.value_at(k),
        Gap(k) => list.value_in(k),
    };
    assert_eq!(list.value(moment), value);
    value
}

/// The words dated at or before the last moment, the first counted as date 0.
fn passed(list: &List, moments: &[Moment]) -> usize {
    match moments.last() {
        None => 0,
        Some(&(Instant(k) | Gap(k))) => 1 + list.changes().filter(|change| change.date <= k).count(),
    }
}

fn number(moment: Moment) -> u32 {
    let number = match moment {
        Instant(k) => 2 * k,
        Gap(k) => 2 * k + 1,
    };
    assert_eq!(moment.number(), Some(number));
    number
}

/// A column and each of its single calls; an output just long enough, one that is a word too short, and one that is longer.
fn compare(list: &List, moments: &[Moment]) {
    let column = list.values(moments).unwrap();
    let values: Vec<bool> = moments.iter().map(|&moment| single(list, moment).unwrap()).collect();
    assert_eq!(column, Column { values, passed: passed(list, moments) }, "{list:?} {moments:?}");
    let numbers: Vec<u32> = moments.iter().map(|&moment| number(moment)).collect();
    let count = numbers.len();
    let mut out = vec![7; count + 3];
    if count > 0 {
        assert_eq!(calls::values(list.words(), &numbers, &mut out[..count - 1]), Err(Fault::ShortOutput));
        assert!(out.iter().all(|&word| word == 7));
    }
    for room in [count, count + 3] {
        assert_eq!(calls::values(list.words(), &numbers, &mut out[..room]), Ok((count, column.passed)));
        assert!(out[..count].iter().zip(&column.values).all(|(&word, &value)| word == value as u32));
        assert!(out[count..].iter().all(|&word| word == 7));
    }
}

/// Moments from a tick on, one to so many numbers apart, until there are so many or M is past.
fn rising(random: &mut Random, from: u32, step: u32, most: usize) -> Vec<Moment> {
    let mut number = 2 * from + 1;
    let mut moments = Vec::new();
    while moments.len() < most && number <= 2 * M + 1 {
        moments.push(if number.is_multiple_of(2) { Instant(number / 2) } else { Gap(number / 2) });
        number += 1 + random.below(step);
    }
    moments
}

/// Lists of all lengths, every other one near M, at few and at many moments, close and far apart.
#[test]
fn single_calls() {
    let mut random = Random(7);
    let (mut before, mut all, mut full) = (0, 0, 0);
    for round in 0..1500 {
        let most = [3, 8, 40, 256, 256][round % 5];
        let (count, step) = (1 + random.below(most) as usize, 1 + random.below(4));
        let words = random.list(count, step);
        let last = words[words.len() - 1] / 4;
        let by = if round % 2 == 0 { 0 } else { M - last - random.below(3) };
        let list = list(&later(&words, by));
        let most = [1, 4, 30, COLUMN_MOMENTS][random.below(4) as usize];
        let from = by + random.below(last + 3).saturating_sub(random.below(8));
        let step = [1, 3, 12][random.below(3) as usize];
        let moments = rising(&mut random, from, step, most);
        compare(&list, &moments);
        before += (passed(&list, &moments) == 1) as usize;
        all += (count > 1 && passed(&list, &moments) == count) as usize;
        full += (moments.len() == COLUMN_MOMENTS) as usize;
    }
    assert!(before > 50 && all > 300 && full > 100, "{before} {all} {full}");
}

/// Every moment of a list's dates and around them.
#[test]
fn each_moment() {
    let mut random = Random(8);
    for count in (1..240).step_by(7) {
        let words = random.list(count, 2);
        let list = list(&words);
        let each: Vec<Moment> = (0..words[count - 1] / 4 + 2).flat_map(|k| [Gap(k), Instant(k + 1)]).take(COLUMN_MOMENTS).collect();
        compare(&list, &each);
    }
}

fn date(moment: Moment) -> u32 {
    match moment {
        Instant(k) | Gap(k) => k,
    }
}

/// Whether a moment is after another: it has a later date, or is the gap after the other.
fn is_after(moment: Moment, other: Moment) -> bool {
    date(moment) > date(other) || date(moment) == date(other) && matches!((moment, other), (Gap(_), Instant(_)))
}

/// 20 when a moment is not after the one before it or there are more than 1,000; 9 when one is instant 0 or has a date above M.
fn fault(moments: &[Moment]) -> Option<Fault> {
    if moments.windows(2).any(|pair| !is_after(pair[1], pair[0])) || moments.len() > 1000 {
        Some(Fault::MomentOrder)
    } else if moments.iter().any(|&moment| moment == Instant(0) || date(moment) > M) {
        Some(Fault::Date)
    } else {
        None
    }
}

/// Moments at the start, around M, around the last with a number of 32 bits, and the last ones.
const EDGES: [Moment; 16] = [
    Instant(0),
    Gap(0),
    Instant(1),
    Gap(M - 1),
    Instant(M),
    Gap(M),
    Instant(M + 1),
    Gap(M + 1),
    Instant((1 << 31) - 1),
    Gap((1 << 31) - 1),
    Instant(1 << 31),
    Gap(1 << 31),
    Instant((1 << 31) + 1),
    Gap((1 << 31) + M),
    Instant(u32::MAX),
    Gap(u32::MAX),
];

fn answered_or_refused(list: &List, moments: &[Moment]) {
    let values = list.values(moments).map(|column| column.values);
    let wanted = match fault(moments) {
        Some(fault) => Err(fault),
        None => Ok(moments.iter().map(|&moment| single(list, moment).unwrap()).collect()),
    };
    assert_eq!(values, wanted, "{moments:?}");
}

#[test]
fn at_the_edges() {
    let list = list(&[0, 4 * M + 2]);
    answered_or_refused(&list, &[]);
    // each row of up to four of them
    for code in 0..17usize.pow(4) {
        let places = [code % 17, code / 17 % 17, code / 289 % 17, code / 4913];
        let moments: Vec<Moment> = places.into_iter().filter_map(|place| EDGES.get(place).copied()).collect();
        answered_or_refused(&list, &moments);
    }
    // each rising row of any number of them, and the same with one that does not rise
    for set in 0..1 << EDGES.len() {
        let mut moments: Vec<Moment> = (0..EDGES.len()).filter(|i| set >> i & 1 == 1).map(|i| EDGES[i]).collect();
        answered_or_refused(&list, &moments);
        if let [first, .., last] = &mut moments[..] {
            *last = *first;
            answered_or_refused(&list, &moments);
        }
    }
}

#[test]
fn order_and_words() {
    // they are written as they rise
    for (i, a) in EDGES.into_iter().enumerate() {
        for (j, b) in EDGES.into_iter().enumerate() {
            assert_eq!((a.cmp(&b), a.partial_cmp(&b), a == b), (i.cmp(&j), Some(i.cmp(&j)), i == j), "{a} {b}");
            assert_eq!((a > b, a < b), (is_after(a, b), is_after(b, a)), "{a} {b}");
        }
    }
    assert_eq!((Instant(5).to_string(), Gap(5).to_string()), ("at 5".to_string(), "after 5".to_string()));
    assert_eq!(format!("{:>8}", Gap(5)), " after 5");
    for moment in EDGES {
        let verdict: Verdict = format!("fails {moment} for good").parse().unwrap();
        assert_eq!(verdict.first(), Some(moment));
    }
    assert_eq!(Verdict::Holds.first(), None);
}
