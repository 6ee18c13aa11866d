// Document 01's cases, its examples of faults, and document 02's pulse timer, through the bindings.
use rascrunel::{
    calls, Change, Checker, Column, End, Fault, Formula, FormulaRefusal, List, Moment, NoFault, ParseVerdictError, Refusal, Sheet,
    SheetRefusal, Verdict, M,
};
use std::num::NonZeroU32;

fn list(words: &[u32]) -> List {
    List::new(words).unwrap()
}

fn f() -> List {
    list(&[0, 23, 36])
}

fn e() -> List {
    list(&[0, 22])
}

fn l() -> List {
    list(&[0, 21])
}

#[test]
fn checked_by_hand() {
    assert_eq!(f().ton(3).unwrap().words(), [0, 35, 36]);
    assert_eq!(f().ton(4).unwrap().words(), [0]);
    assert_eq!(f().tof(2).unwrap().words(), [0, 23, 44]);
    assert_eq!(e().tof(2).unwrap().words(), [0, 23, 30]);
    assert_eq!(e().ton(0).unwrap(), e());
    assert_eq!(list(&[1]).ton(3).unwrap().words(), [0, 15]);
    assert_eq!(f().rising().unwrap().words(), [0, 22]);
    assert_eq!(l().rising().unwrap().words(), [0]);
    assert_eq!(e().falling().unwrap().words(), [0]);
    assert_eq!(e().sr(&e()).unwrap().words(), [0, 23]);
    assert_eq!(e().rs(&e()).unwrap().words(), [0]);
    assert_eq!(f().sr(&f()).unwrap(), f());
    assert_eq!(l().implies(&e()), Ok(Verdict::FailsAfter(5, End::Never)));
    assert_eq!(list(&[1]).implies(&f()), Ok(Verdict::FailsAfter(0, End::Before(5))));
    let last = list(&[0, 4294967294]);
    assert_eq!(last.ton(1).unwrap().words(), [0]);
    assert_eq!(last.tof(1), Err(Fault::ChangesAfterM));
}

#[test]
fn pulses() {
    assert_eq!(f().tp(3).unwrap().words(), [0, 23, 32]);
    assert_eq!(f().tp(10).unwrap().words(), [0, 23, 60]);
    assert_eq!(e().tp(3).unwrap().words(), [0, 23, 32]);
    assert_eq!(l().tp(3).unwrap().words(), [0]);
    assert_eq!(list(&[1]).tp(3).unwrap().words(), [0]);
    assert_eq!(f().tp(0).unwrap().words(), [0]);
    // a second rise before the pulse ends, where it ends, after it
    assert_eq!(list(&[0, 22, 30]).tp(3).unwrap().words(), [0, 23, 32]);
    assert_eq!(list(&[0, 22, 34]).tp(3).unwrap().words(), [0, 23, 44]);
    assert_eq!(list(&[0, 22, 38]).tp(3).unwrap().words(), [0, 23, 32, 39, 48]);
    let last = list(&[0, 4294967294]);
    assert_eq!(last.tp(1), Err(Fault::ChangesAfterM));
    assert_eq!(f().tp(M + 1), Err(Fault::LengthAboveM));
    let apart = |n: u32| -> Vec<u32> { std::iter::once(0).chain((1..=n).map(|i| 4 * (10 * i) + 2)).collect() };
    assert_eq!(list(&apart(128)).tp(3), Err(Fault::TooLong));
    assert_eq!(list(&apart(127)).tp(3).unwrap().words().len(), 255);
    assert_eq!(calls::tp(3, f().words(), &mut [0; 2]), Err(Fault::ShortOutput));
    assert_eq!(calls::tp(M + 1, &[0, 20], &mut [0; 2]), Err(Fault::NoChange));
}

#[test]
fn questions() {
    assert_eq!(f().value_at(5), Ok(true));
    assert_eq!(f().value_in(4), Ok(false));
    assert_eq!(f().value_in(0), Ok(false));
    assert_eq!(f().value_in(M), Ok(false));
    assert_eq!(e().value_at(5), Ok(true));
    assert_eq!(e().value_in(5), Ok(false));
    assert_eq!(l().value_at(5), Ok(false));
    assert_eq!(l().value_in(5), Ok(true));
    assert_eq!(f().value_at(0), Err(Fault::Date));
    assert_eq!(f().value_at(M + 1), Err(Fault::Date));
    assert_eq!(f().value_in(M + 1), Err(Fault::Date));
    assert_eq!(e().equal(&e()), Ok(true));
    assert_eq!(e().equal(&l()), Ok(false));
    assert_eq!(e().implies(&f()), Ok(Verdict::Holds));
    assert_eq!(f().implies(&e()), Ok(Verdict::FailsAfter(5, End::Before(9))));
    assert_eq!(f().not().unwrap().words(), [1, 20, 39]);
}

#[test]
fn tables() {
    // every table, at the four pairs of values
    let a = list(&[1, 4, 11, 16]);
    let b = list(&[1, 8, 15, 16]);
    for table in 0..16u32 {
        let mut out = [7; 256];
        let n = calls::connective(table + 16 * table, a.words(), b.words(), &mut out).unwrap();
        let c = list(&out[..n]);
        for k in 0..6 {
            let p = a.value_in(k).unwrap() as u32;
            let q = b.value_in(k).unwrap() as u32;
            assert_eq!(c.value_in(k), Ok(table >> (2 * p + q) & 1 == 1));
        }
    }
}

#[test]
fn tidying() {
    assert_eq!(List::tidy(&[0, 16, 23, 27, 36]).unwrap().words(), [0, 23, 36]);
    assert_eq!(List::tidy(&[0, 23, 21]), Err(Fault::DateOrder));
}

#[test]
fn list_faults() {
    assert_eq!(List::new(&[]), Err(Fault::ListLength));
    assert_eq!(List::new(&[0; 257]), Err(Fault::ListLength));
    assert_eq!(List::new(&[2]), Err(Fault::FirstWord));
    assert_eq!(List::new(&[0, 23, 21]), Err(Fault::DateOrder));
    assert_eq!(List::new(&[0, 20]), Err(Fault::NoChange));
    assert_eq!(List::new(&[0, 3]), Err(Fault::DateOrder));
    let odd: Vec<u32> = std::iter::once(0).chain((0..200).map(|i| 4 * (2 * i + 1) + 2)).collect();
    let even: Vec<u32> = std::iter::once(0).chain((0..200).map(|i| 4 * (2 * i + 2) + 2)).collect();
    assert_eq!(list(&odd).or(&list(&even)), Err(Fault::TooLong));
    assert_eq!(list(&[0, 4294967295]).ton(1), Err(Fault::ChangesAfterM));
    assert_eq!(f().ton(M + 1), Err(Fault::LengthAboveM));
    assert_eq!(calls::not(&[0], &mut []), Err(Fault::ShortOutput));
}

#[test]
fn refused_writes_nothing_and_the_rest_stays() {
    let mut out = [9, 9, 9];
    assert_eq!(calls::not(&[0, 23, 36, 41], &mut out), Err(Fault::ShortOutput));
    assert_eq!(out, [9, 9, 9]);
    assert_eq!(calls::not(&[0, 23], &mut out), Ok(2));
    assert_eq!(out, [1, 20, 9]);
    let mut bytes = [9; 8];
    assert_eq!(calls::begin(&mut bytes[..6]), Err(Fault::ShortOutput));
    assert_eq!(bytes, [9; 8]);
    assert_eq!(calls::begin(&mut bytes), Ok(7));
    assert_eq!(bytes, *b"SGL\x01\0\0\0\x09");
}

// Document 01's program case: the sheet byte by byte.
const PRINTED: &[u8] = b"SGL\x01\0\x01\0a\0\0\0\0\0\0\0\x03\0\0\0\0\0\x17\0\0\0\x24\0\0\0";

#[test]
fn sheets() {
    let sheet = Sheet::begin().unwrap().append("a", &[0, 23, 36]).unwrap();
    assert_eq!(sheet.bytes(), PRINTED);
    assert_eq!(Sheet::new(PRINTED).unwrap(), sheet);
    assert_eq!(sheet.names().unwrap(), ["a"]);
    assert_eq!(sheet.lookup("a").unwrap(), f());
    assert_eq!(sheet.lookup("b"), Err(Fault::UnknownName));
    assert_eq!(sheet.lookup(""), Err(Fault::Name));
    assert_eq!(sheet.lookup("A"), Err(Fault::Name));
    assert_eq!(sheet.append("a", &[0]), Err(Fault::Name));
    assert_eq!(sheet.append("b", &[0, 20]), Err(Fault::NoChange));
    assert_eq!(Sheet::new(b"SGL\x02\0"), Err(Fault::Mark));
    assert_eq!(Sheet::new(b"SGL\x01\0\x01\0"), Err(Fault::SheetSize));
    assert_eq!(Sheet::new(b"SGL\x01\0\x01\0A\0\0\0\0\0\0\0"), Err(Fault::Name));
    assert_eq!(Sheet::new(b"SGL\x01\0\x01\0a\0\0\0\0\0\0\0\0\0"), Err(Fault::SheetList));
}

#[test]
fn a_full_sheet() {
    let words: Vec<u32> = std::iter::once(0).chain((1..256).map(|i| 4 * i + 2)).collect();
    let mut sheet = Sheet::begin().unwrap();
    for i in 0..32 {
        sheet = sheet.append(&format!("signal{i}"), &words).unwrap();
    }
    assert_eq!(sheet.bytes().len(), rascrunel::SHEET_BYTES);
    assert_eq!(sheet.lookup("signal31").unwrap().words(), words);
    assert_eq!(sheet.names().unwrap(), (0..32).map(|i| format!("signal{i}")).collect::<Vec<_>>());
    let mut signals = sheet.signals();
    for left in (0..32).rev() {
        assert!(signals.next().is_some());
        assert_eq!((signals.len(), signals.size_hint()), (left, (left, Some(left))));
    }
    assert!(signals.next().is_none() && signals.len() == 0);
    assert_eq!(sheet.append("more", &[0]), Err(Fault::SheetSize));
}

#[test]
fn formulas_and_claims() {
    let sheet = Sheet::new(PRINTED).unwrap();
    let mut checker = Checker::new();
    let mut words = |text: &str| checker.evaluate(&sheet, text).map(Vec::from).map_err(Fault::from);
    assert_eq!(words("a"), Ok(vec![0, 23, 36]));
    assert_eq!(words("TON(2,a)"), Ok(vec![0, 31, 36]));
    assert_eq!(words("TP(2,a)"), Ok(vec![0, 23, 28]));
    assert_eq!(words("TP(2,TON(1,a))"), Ok(vec![0, 27, 32]));
    assert_eq!(words("TP"), Err(Fault::Grammar));
    assert_eq!(words("TP(1073741824,a)"), Err(Fault::LengthAboveM));
    assert_eq!(words("SR(^a,~a)"), Ok(vec![0, 23, 36]));
    assert_eq!(words("!a+a"), Ok(vec![1]));
    assert_eq!(words(""), Err(Fault::FormulaLength));
    assert_eq!(words(&"a".repeat(1025)), Err(Fault::FormulaLength));
    assert_eq!(words("a+"), Err(Fault::Grammar));
    assert_eq!(words("TON(1073741824,a)"), Err(Fault::LengthAboveM));
    assert_eq!(words(&("!".repeat(17) + "a")), Err(Fault::TooComplex));
    assert_eq!(words(&("!".repeat(16) + "a")), Ok(vec![0, 23, 36]));
    assert_eq!(words(&["a"; 17].join("+")), Err(Fault::TooComplex));
    assert_eq!(words(&["a"; 16].join("+")), Ok(vec![0, 23, 36]));
    assert_eq!(words("b"), Err(Fault::UnknownName));
    assert_eq!(words("0.TOF(1073741823,a)"), Err(Fault::ChangesAfterM));
    let mut claim = |f: &str, g: &str| checker.claim(&sheet, f, g).map_err(Fault::from);
    assert_eq!(claim("a", "TON(2,a)"), Ok(Verdict::FailsAt(5, End::Before(7))));
    assert_eq!(claim("TON(2,a)", "a"), Ok(Verdict::Holds));
    assert_eq!(claim("a", "TP(3,a)"), Ok(Verdict::FailsAt(8, End::Before(9))));
    assert_eq!(claim("TP(3,a)", "a"), Ok(Verdict::Holds));
    assert_eq!(claim("1", "a"), Ok(Verdict::FailsAfter(0, End::Before(5))));
    assert_eq!(claim("a", "b"), Err(Fault::UnknownName));
    let mut out = [7; 4];
    assert_eq!(calls::evaluate(PRINTED, b"a", &mut [0; 8191], &mut out), Err(Fault::ShortWork));
    assert_eq!(calls::evaluate(PRINTED, b"a", &mut [0; 8192], &mut out[..2]), Err(Fault::ShortOutput));
    assert_eq!(out, [7; 4]);
    assert_eq!(calls::evaluate(PRINTED, b"a", &mut [0; 8192], &mut out), Ok(3));
    assert_eq!(out, [0, 23, 36, 7]);
    assert_eq!(calls::claim(PRINTED, b"a", b"a", &mut [0; 8191]), Err(Fault::ShortWork));
}

#[test]
fn numbers_and_texts() {
    for n in 1..=20 {
        let fault = Fault::of(n).unwrap();
        assert_eq!(fault.number(), n);
        assert!(!fault.text().is_empty());
    }
    assert_eq!(Fault::of(0), None);
    let none = Fault::try_from(0).unwrap_err();
    for line in
        ["refused 0", "refused 013", "refused +1", "refused", "refused ", "refused 4294967296", "refused 4: word", "13", "holds", ""]
    {
        assert_eq!(line.parse::<Fault>(), Err(none), "{line}");
    }
    // numbers that these bindings do not know
    for n in [21, 65535, u32::MAX] {
        let fault = Fault::of(n).unwrap();
        assert_eq!((fault, fault.number(), u32::from(fault)), (Fault::Other(n), n, n));
        assert_eq!(Fault::from(NonZeroU32::new(n).unwrap()), fault);
        assert_eq!((Fault::try_from(n), format!("refused {n}").parse()), (Ok(fault), Ok(fault)));
        assert!(fault.to_string().starts_with(&format!("refused {n}: ")));
    }
    assert_eq!(Fault::Name.to_string(), "refused 16: name malformed or repeated");
}

#[test]
fn changes_and_signals() {
    let list = list(&[1, 5, 10, 15, 16]);
    assert!(list.start());
    let all = [(1, false, true), (2, true, false), (3, true, true), (4, false, false)].map(|(date, at, after)| Change { date, at, after });
    assert_eq!(list.changes().collect::<Vec<_>>(), all);
    assert_eq!((&list).into_iter().rev().collect::<Vec<_>>(), all.iter().rev().copied().collect::<Vec<_>>());
    let mut changes = list.changes();
    assert_eq!((changes.len(), changes.next(), changes.next_back(), changes.len()), (4, Some(all[0]), Some(all[3]), 2));
    assert_eq!(List::new(&[0]).unwrap().changes().next(), None);
    assert_eq!(List::try_from([0, 23].as_slice()).unwrap().as_ref(), [0, 23]);
    assert_eq!(List::try_from(vec![0, 20]), Err(Fault::NoChange));
    let sheet = Sheet::begin().unwrap().append("a", list.words()).unwrap().append("needle12", &[0]).unwrap();
    let signals: Vec<(&str, List)> = sheet.signals().collect();
    assert_eq!(signals, [("a", list), ("needle12", List::new(&[0]).unwrap())]);
    assert_eq!(Sheet::begin().unwrap().signals().count(), 0);
    assert_eq!(Sheet::try_from(sheet.as_ref()).unwrap(), sheet);
    assert_eq!(Sheet::try_from(b"SGL".to_vec()).unwrap_err().fault, Fault::Mark);
    assert_eq!(Vec::from(sheet.clone()), sheet.bytes());
}

#[test]
fn verdicts_read_back() {
    let ends = [End::At(7), End::Before(7), End::Never, End::At(u32::MAX)];
    let fails =
        ends.into_iter().flat_map(|end| [0, 5, M].into_iter().flat_map(move |k| [Verdict::FailsAt(k, end), Verdict::FailsAfter(k, end)]));
    for verdict in fails.chain([Verdict::Holds]) {
        let line = verdict.to_string();
        assert_eq!(line.parse(), Ok(verdict), "{line}");
        // no other line is read as a verdict: a byte less, one more, two blanks, needless zeros
        for wrong in [line[1..].to_string(), format!("{line} "), format!(" {line}"), line.replacen(' ', "  ", 1)] {
            assert!(wrong == line || wrong.parse::<Verdict>().is_err(), "{wrong}");
        }
    }
    let wrong =
        ["", "hold", "holds good", "fails", "fails at", "fails at 5", "fails at 5 until", "fails at 5 until before", "fails at 5 for"];
    let wrong =
        wrong.into_iter().chain(["fails at +5 for good", "fails at 05 until 7", "fails at 5 until 07", "fails at 4294967296 for good"]);
    for line in wrong.chain(["fails at 5 until -7", "refused 13", "fails on 5 for good", "fails at 5 until before before 7", "Holds"]) {
        assert!(line.parse::<Verdict>().is_err(), "{line}");
    }
}

// What carries answers goes from thread to thread and is an error where it is one.
#[test]
fn threads_and_errors() {
    fn shared<T: Send + Sync + std::fmt::Debug>() {}
    fn error<T: std::error::Error + Clone + Eq + Send + Sync + 'static>() {}
    shared::<(Checker, Sheet, List, Verdict, End, Formula, Change, Moment, Column)>();
    error::<Fault>();
    error::<Refusal>();
    error::<FormulaRefusal>();
    error::<SheetRefusal>();
    error::<ParseVerdictError>();
    error::<NoFault>();
    error::<calls::Stop>();
}

#[test]
fn formulas_by_themselves() {
    let formula: Formula = "SR(^left.TOF(500,^right),!left)+a1".parse().unwrap();
    assert_eq!(formula.names(), ["left", "right", "left", "a1"]);
    assert_eq!(Formula::try_from(formula.to_string()).as_ref(), Ok(&formula));
    let text: &str = formula.as_ref();
    assert_eq!((text, formula.as_str(), String::from(formula.clone())), (text, text, text.to_string()));
    // taken where a text is
    let sheet = Sheet::new(PRINTED).unwrap();
    let a = Formula::new("a").unwrap();
    assert_eq!(Checker::new().claim(&sheet, &a, String::from("a")), Ok(Verdict::Holds));
    let faults = [("", 10), ("a+", 11), ("TON(1073741824,a)", 8), (&"!".repeat(17), 11), (&("!".repeat(17) + "a"), 12)];
    for (text, number) in faults {
        assert_eq!(Formula::try_from(text).unwrap_err().fault.number(), number, "{text}");
    }
}
