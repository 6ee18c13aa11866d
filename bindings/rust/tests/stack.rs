// The formulas that go deepest, an up-time and a column, through the safe calls, in threads of STACK_BYTES bytes of stack.
use rascrunel::{Checker, Fault, List, Moment, Sheet, COLUMN_MOMENTS, STACK_BYTES};
use std::thread;

// What opens a level, what stands in the innermost, and what closes a level.
const SHAPES: [(&str, &str, &str); 13] = [
    ("(", "a", ")"),
    ("!", "a", ""),
    ("(!", "a", ")"),
    ("SR(", "a", ",a)"),
    ("SR(a,", "a", ")"),
    ("TON(0,", "a", ")"),
    ("TP(0,", "a", ")"),
    ("a+", "a", ""),
    ("a.", "a", ""),
    ("(a+", "a", ")"),
    ("(a.", "a", ")"),
    ("TON(0,a+", "a", ")"),
    ("SR(a,a.", "a", ")"),
];

fn refused(text: String, fault: Fault) {
    let sheet = Sheet::begin().unwrap().append("a", &[0, 23, 36]).unwrap();
    let calls = move || {
        // where each is refused is found in the same stack
        let mut checker = Checker::new();
        assert_eq!(checker.evaluate(&sheet, &text).unwrap_err().fault, fault);
        assert_eq!(checker.claim(&sheet, &text, "1").unwrap_err().fault, fault);
        assert_eq!(checker.claim(&sheet, "1", &text).unwrap_err().fault, fault);
    };
    thread::Builder::new().stack_size(STACK_BYTES).spawn(calls).unwrap().join().unwrap();
}

#[test]
fn deepest_formulas() {
    for (open, inner, close) in SHAPES {
        refused(open.repeat(1024 / open.len()), Fault::Grammar);
        let levels = 1023 / (open.len() + close.len());
        refused(open.repeat(levels) + inner + &close.repeat(levels), Fault::TooComplex);
    }
    refused("(".repeat(1025), Fault::FormulaLength);
}

/// The longest list, up and down in turn.
fn turns() -> Vec<u32> {
    (0..256).map(|i| 4 * i + if i % 2 == 1 { 3 } else { 0 }).collect()
}

#[test]
fn uptime() {
    let sheet = Sheet::begin().unwrap().append("a", &turns()).unwrap();
    let call = move || assert_eq!(sheet.uptime("a", 1000).unwrap().stretches.len(), 128);
    thread::Builder::new().stack_size(STACK_BYTES).spawn(call).unwrap().join().unwrap();
}

#[test]
fn column() {
    let list = List::new(&turns()).unwrap();
    let moments: Vec<Moment> = (0..COLUMN_MOMENTS as u32).map(Moment::Gap).collect();
    let call = move || assert_eq!(list.values(&moments).unwrap().passed, 256);
    thread::Builder::new().stack_size(STACK_BYTES).spawn(call).unwrap().join().unwrap();
}
