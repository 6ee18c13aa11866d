// How long a claim fails: document 02's cases; and random lists and claims, against a count moment by moment. The numbers of the calls that
// do not say it are compared on each.
mod random;

use random::{later, Random};
use rascrunel::{calls, Checker, End, Fault, List, Sheet, Verdict, M, WORK_WORDS};

/// The line of an implication.
fn line(a: &[u32], b: &[u32]) -> String {
    List::new(a).unwrap().implies(&List::new(b).unwrap()).unwrap().to_string()
}

#[test]
fn printed() {
    // 01's printed case, up to an instant, the rest of the job
    assert_eq!(line(&[0, 23, 36], &[0, 31, 36]), "fails at 5 until before 7");
    assert_eq!(line(&[0, 23, 30], &[0]), "fails at 5 until 7");
    assert_eq!(line(&[0, 23], &[0]), "fails at 5 for good");
    assert_eq!(line(&[0, 22], &[0, 23]), "holds");
    // one instant, one gap, gap 0
    assert_eq!(line(&[0, 22], &[0]), "fails at 5 until 5");
    assert_eq!(line(&[0, 21, 24], &[0]), "fails after 5 until before 6");
    assert_eq!(line(&[1, 4], &[0]), "fails after 0 until before 1");
    assert_eq!(line(&[1], &[0]), "fails after 0 for good");
    // a lone good instant, one good gap, and a longer run later
    assert_eq!(line(&[1, 29], &[0]), "fails after 0 until before 7");
    assert_eq!(line(&[0, 23, 30, 35], &[0]), "fails at 5 until 7");
    assert_eq!(line(&[0, 22, 43], &[0]), "fails at 5 until 5");
    assert_eq!(line(&[1], &[1, 20, 27, 40]), "fails at 5 until before 6");
    // words of both lists at one date
    assert_eq!(line(&[0, 23, 30], &[1, 20, 29]), "fails at 5 until 7");
    assert_eq!(line(&[0, 23, 30], &[1, 20, 31]), "fails at 5 until before 7");
    assert_eq!(line(&[0, 23], &[1, 22]), "fails after 5 for good");
}

#[test]
fn near_the_last_date() {
    let m = 4 * M;
    assert_eq!(line(&[0, 23, m], &[0]), "fails at 5 until before 1073741823");
    assert_eq!(line(&[1], &[0, m + 1]), "fails after 0 until 1073741823");
    assert_eq!(line(&[0, m + 2], &[0]), "fails at 1073741823 until 1073741823");
    assert_eq!(line(&[0, m + 3], &[0]), "fails at 1073741823 for good");
    assert_eq!(line(&[0, m + 1], &[0]), "fails after 1073741823 for good");
    let longest = line(&[0, m - 3, m], &[0]);
    assert_eq!((longest.as_str(), longest.len()), ("fails after 1073741822 until before 1073741823", 46));
}

#[test]
fn numbers() {
    let (f, e, bad) = ([0, 23, 36], [0, 22], [0, 20]);
    assert_eq!(calls::implies_number(&f, &[0, 31, 36]), 10);
    assert_eq!(calls::implies_number(&[1], &f), 1);
    assert_eq!(calls::implies_number(&e, &f), 0);
    assert_eq!(calls::implies_number(&bad, &[2]), 4 << 40);
    assert_eq!(calls::implies(&bad, &[2]), Err(Fault::NoChange));
    assert_eq!(calls::implies(&f, &[]), Err(Fault::ListLength));
    let sheet = Sheet::begin().unwrap().append("a", &f).unwrap();
    let both = |f: &str, g: &str, room: usize| {
        let work = &mut [0; WORK_WORDS][..room];
        let verdict = calls::claim(sheet.bytes(), f.as_bytes(), g.as_bytes(), work);
        (calls::claim_number(sheet.bytes(), f.as_bytes(), g.as_bytes(), work), verdict)
    };
    assert_eq!(both("a", "TON(2,a)", WORK_WORDS), (10, Ok(Verdict::FailsAt(5, End::Before(7)))));
    assert_eq!(both("^a", "0", WORK_WORDS), (10, Ok(Verdict::FailsAt(5, End::At(5)))));
    assert_eq!(both("1", "0", WORK_WORDS), (1, Ok(Verdict::FailsAfter(0, End::Never))));
    assert_eq!(both("a", "a", WORK_WORDS), (0, Ok(Verdict::Holds)));
    assert_eq!(both("a", "b", WORK_WORDS), (13 << 40, Err(Fault::UnknownName)));
    assert_eq!(both("TOF(1073741823,a)", "a", WORK_WORDS), (6 << 40, Err(Fault::ChangesAfterM)));
    assert_eq!(both("a", "a", WORK_WORDS - 1), (18 << 40, Err(Fault::ShortWork)));
}

/// The moments from gap 0 on up to a tick; 2k is the instant k, 2k + 1 the gap after it.
fn moments(last: u32) -> std::ops::Range<u32> {
    1..2 * last + 2
}

/// Whether a list is up at a moment.
fn is_up(words: &[u32], moment: u32) -> bool {
    let last = *words[1..].iter().rev().find(|&&word| word / 4 <= moment / 2).unwrap_or(&words[0]);
    if moment.is_multiple_of(2) && last / 4 == moment / 2 {
        last / 2 % 2 == 1
    } else {
        last % 2 == 1
    }
}

/// The first unbroken run of failing moments, moment by moment: its first, and its last but where it reaches the end.
fn run(last: u32, fails: impl Fn(u32) -> bool) -> Option<(u32, Option<u32>)> {
    let first = moments(last).find(|&m| fails(m))?;
    Some((first, moments(last).find(|&m| m > first && !fails(m)).map(|m| m - 1)))
}

/// The verdict of a run, and the number of the call that does not say until when; every date but the start is as much later.
fn told(run: Option<(u32, Option<u32>)>, by: u32) -> (Verdict, u64) {
    let Some((first, last)) = run else { return (Verdict::Holds, 0) };
    let first = if first == 1 { 1 } else { first + 2 * by };
    let end = match last.map(|last| last + 2 * by) {
        None => End::Never,
        Some(last) if last % 2 == 0 => End::At(last / 2),
        Some(last) => End::Before(last / 2 + 1),
    };
    let verdict = if first % 2 == 0 { Verdict::FailsAt(first / 2, end) } else { Verdict::FailsAfter(first / 2, end) };
    (verdict, first.into())
}

/// How often each form of a verdict came: holds, and by first moment and end.
#[derive(Default)]
struct Forms([usize; 7]);

impl Forms {
    fn count(&mut self, verdict: Verdict) {
        let form = |end| match end {
            End::At(_) => 1,
            End::Before(_) => 2,
            End::Never => 3,
        };
        self.0[match verdict {
            Verdict::Holds => 0,
            Verdict::FailsAt(_, end) => form(end),
            Verdict::FailsAfter(_, end) => 3 + form(end),
        }] += 1;
    }

    fn each_at_least(&self, least: usize) {
        assert!(self.0.iter().all(|&count| count >= least), "{:?}", self.0);
    }
}

/// A list beside another: at its dates, with some of its values.
fn beside(random: &mut Random, words: &[u32]) -> Vec<u32> {
    let mut other = vec![random.below(2)];
    for word in &words[1..] {
        let values = if random.below(4) > 0 { word % 4 } else { random.below(4) };
        if random.below(8) > 0 && values != 3 * (other[other.len() - 1] % 2) {
            other.push(word / 4 * 4 + values);
        }
    }
    other
}

/// Random pairs of lists; every other one ends at M or near it.
#[test]
fn lists() {
    let mut random = Random(5);
    let mut forms = Forms::default();
    for round in 0..6000 {
        let most = [3, 8, 8, 40, 256][round % 5];
        let (count, step) = (1 + random.below(most) as usize, 1 + random.below(3));
        let a = random.list(count, step);
        let b = match random.below(3) {
            0 => beside(&mut random, &a),
            1 => vec![random.below(2)],
            _ => {
                let count = 1 + random.below(most) as usize;
                random.list(count, step)
            }
        };
        let last = 1 + a[a.len() - 1].max(b[b.len() - 1]) / 4;
        let by = if random.below(2) == 0 { 0 } else { M + 1 - last };
        for (a, b) in [(&a, &b), (&b, &a)] {
            let (verdict, number) = told(run(last, |m| is_up(a, m) && !is_up(b, m)), by);
            let (a, b) = (later(a, by), later(b, by));
            assert_eq!(calls::implies(&a, &b), Ok(verdict), "{a:?} {b:?}");
            assert_eq!(calls::implies_number(&a, &b), number, "{a:?} {b:?}");
            forms.count(verdict);
        }
    }
    forms.each_at_least(100);
}

/// The longest off-delay of a formula, and how deep it goes.
const DELAY: u32 = 3;
const DEPTH: u32 = 3;

/// A formula with its values moment by moment, the first that of gap 0.
fn formula(random: &mut Random, signals: &[Vec<bool>], depth: u32) -> (String, Vec<bool>) {
    let number = random.below(signals.len() as u32) as usize;
    if depth == 0 || random.below(4) == 0 {
        return (format!("s{number}"), signals[number].clone());
    }
    let (f, up) = formula(random, signals, depth - 1);
    let each = |value: &dyn Fn(usize) -> bool| (0..up.len()).map(value).collect();
    // instants stand at every other place, from the second on
    let instant = |i: usize| i % 2 == 1;
    match random.below(7) {
        0 => (format!("!({f})"), each(&|i| !up[i])),
        1 => (format!("^({f})"), each(&|i| instant(i) && up[i] && !up[i - 1])),
        2 => (format!("~({f})"), each(&|i| instant(i) && !up[i] && up[i - 1])),
        3 => {
            let d = random.below(DELAY + 1);
            (format!("TOF({d},{f})"), each(&|i| up[i.saturating_sub(2 * d as usize)..=i].contains(&true)))
        }
        sort => {
            let (g, other) = formula(random, signals, depth - 1);
            if sort == 4 {
                (format!("({f}).({g})"), each(&|i| up[i] && other[i]))
            } else {
                (format!("({f})+({g})"), each(&|i| up[i] || other[i]))
            }
        }
    }
}

/// Random claims on sheets of three signals; every other sheet ends near M.
#[test]
fn claims() {
    let mut random = Random(6);
    let mut forms = Forms::default();
    let mut work = [0; WORK_WORDS];
    for round in 0..6000 {
        let lists: Vec<Vec<u32>> = (0..3)
            .map(|_| {
                let (count, step) = (1 + random.below(6) as usize, 1 + random.below(3));
                random.list(count, step)
            })
            .collect();
        let last = 1 + DELAY * DEPTH + lists.iter().map(|words| words[words.len() - 1] / 4).max().unwrap();
        let by = if round % 2 == 0 { 0 } else { M + 1 - last };
        let mut sheet = Sheet::begin().unwrap();
        for (i, words) in lists.iter().enumerate() {
            sheet = sheet.append(&format!("s{i}"), &later(words, by)).unwrap();
        }
        let signals: Vec<Vec<bool>> = lists.iter().map(|words| moments(last).map(|moment| is_up(words, moment)).collect()).collect();
        let (f, f_up) = formula(&mut random, &signals, DEPTH);
        let (g, g_up) = formula(&mut random, &signals, DEPTH);
        let (verdict, number) = told(run(last, |m| f_up[m as usize - 1] && !g_up[m as usize - 1]), by);
        assert_eq!(Checker::new().claim(&sheet, &f, &g), Ok(verdict), "{lists:?} {by} {f} {g}");
        assert_eq!(calls::claim_number(sheet.bytes(), f.as_bytes(), g.as_bytes(), &mut work), number, "{lists:?} {by} {f} {g}");
        forms.count(verdict);
    }
    forms.each_at_least(30);
}
