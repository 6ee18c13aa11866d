// Where sheets, formulas and claims are refused, against readers of sheets and formulas that stand here and ask the library nothing.
mod random;
mod trees;

use random::{later, Random};
use rascrunel::whereabouts::{Field, Why};
use rascrunel::{calls, sheet_refusal, Checker, Fault, Formula, FormulaPlace, List, Place, Refusal, Sheet, Which, M};
use trees::{tree, Pair, Tree};

fn said(bytes: &[u8]) -> String {
    sheet_refusal(bytes).unwrap().to_string()
}

// Two signals: the fields of the first at 7, 15 and 17, those of the second at 29, 37 and 39; 47 bytes.
fn two() -> Vec<u8> {
    Sheet::begin().unwrap().append("a", &[0, 23, 36]).unwrap().append("needle", &[1, 4]).unwrap().into()
}

#[test]
fn sheets_in_words() {
    let changed = |at: usize, bytes: &[u8]| {
        let mut sheet = two();
        sheet[at..at + bytes.len()].copy_from_slice(bytes);
        said(&sheet)
    };
    assert_eq!(said(b""), "refused 14: no sheet: it is empty");
    assert_eq!(said(b"\x7fELF\0\0\0\0\0"), "refused 14: no sheet: it begins with \"\\u{7f}ELF\\0\\0\\0\\0\", not with \"SGL\"");
    assert_eq!(said(b"SG"), "refused 14: the sheet is cut, it ends at byte 2 in its mark");
    assert_eq!(said(b"SGL\x01"), "refused 14: the sheet is cut, it ends at byte 4 in its version");
    assert_eq!(changed(3, &[2]), "refused 14: a sheet of version 2, not 1, at byte 3");
    assert_eq!(said(&two()[..6]), "refused 15: the sheet is cut, it ends at byte 6 in its count of signals");
    assert_eq!(changed(5, &[33]), "refused 15: 33 signals, over 32, at byte 5");
    assert_eq!(said(&two()[..33]), "refused 15: signal 2 of 2: the sheet is cut, it ends at byte 33 in the name");
    assert_eq!(said(&two()[..38]), "refused 15: signal 2 of 2, \"needle\": the sheet is cut, it ends at byte 38 in the count of words");
    assert_eq!(said(&two()[..43]), "refused 15: signal 2 of 2, \"needle\": the sheet is cut, it ends at byte 43 in word 2 of 2");
    assert_eq!(changed(5, &[1]), "refused 15: 18 bytes too many after the last signal, from byte 29 on");
    assert_eq!(said(&[two(), vec![0]].concat()), "refused 15: 1 byte too many after the last signal, at byte 47");
    let rule = "1 to 8 lowercase letters and digits, a letter first, then zero bytes";
    assert_eq!(changed(29, b"N\x1b"), format!("refused 16: signal 2 of 2, \"N\\u{{1b}}edle\": its name, at byte 29, is none: {rule}"));
    assert_eq!(changed(29, b"a\0\0\0\0\0\0"), "refused 16: signal 2 of 2, \"a\": its name, at byte 29, is that of signal 1");
    assert_eq!(changed(15, &[0]), "refused 17: signal 1 of 2, \"a\": a list without words, at byte 15");
    assert_eq!(changed(15, &[1, 1]), "refused 17: signal 1 of 2, \"a\": a list of 257 words, over 256, at byte 15");
    let word = |at, value| changed(at, &[value]).replace("refused 17: signal 1 of 2, \"a\": ", "");
    assert_eq!(word(17, 2), "word 1 of 3, at byte 17, is 2: the first word is 0 or 1");
    assert_eq!(word(21, 3), "word 2 of 3, at byte 21, is 3: its date is 0, and dates begin at 1");
    assert_eq!(word(25, 21), "word 3 of 3, at byte 25, is 21: its date, 5, is not above the last, 5");
    assert_eq!(word(25, 39), "word 3 of 3, at byte 25, is 39: it changes nothing, before its date, 9, the signal is up already");
}

#[test]
fn texts_given_as_sheets() {
    let hint = "`sheet make TEXT SHEET` makes a sheet of a text";
    let begins = |bytes: &[u8], line: &str| {
        let refusal = sheet_refusal(bytes).unwrap();
        assert!(matches!(refusal.why, Why::Text(_)), "{refusal}");
        assert_eq!(refusal.to_string(), format!("refused 14: a text and no sheet, it begins {line}; {hint}"));
    };
    for (text, line) in [
        ("needle : down\n", "\"needle : down\""),
        ("\u{feff}needle : down\r\n", "\"needle : down\""),
        ("\n\n  \tneedle = 0 23", "\"  \\tneedle = 0 23\""),
        ("old : up\rold2 : up\r", "\"old : up\""),
        ("# nädel\n", "\"# nädel\""),
        ("x", "\"x\""),
        ("SG: up", "\"SG: up\""),
        ("sgl\n", "\"sgl\""),
        // marks that combine with the letter before them, and signs of several characters
        ("# na\u{308}del\n", "\"# na\\u{308}del\""),
        ("# e\u{301}t\u{e9}\n", "\"# e\\u{301}té\""),
        ("# \u{2702}\u{fe0f} \u{1f469}\u{200d}\u{1f3ed}\n", "\"# \u{2702}\\u{fe0f} \u{1f469}\\u{200d}\u{1f3ed}\""),
    ] {
        begins(text.as_bytes(), line);
        // in UTF-16 the same, of either order
        let units: Vec<u16> = text.trim_start_matches('\u{feff}').encode_utf16().collect();
        for (mark, unit) in [([0xff, 0xfe], u16::to_le_bytes as fn(u16) -> [u8; 2]), ([0xfe, 0xff], u16::to_be_bytes)] {
            begins(&[&mark, units.iter().flat_map(|&u| unit(u)).collect::<Vec<u8>>().as_slice()].concat(), line);
        }
    }
    // as Latin-1 has it
    begins(b"# N\xe4hnadel \xfcber \xa7\r\nneedle : up\r\n", "\"# N\\xe4hnadel \\xfcber \\xa7\"");
    begins(b"\x80", "\"\\x80\"");
    let others: [&[u8]; 11] = [
        b"",
        b"S",
        b"SGL",
        b"\n \r\n",
        b"needle : down\n\0",
        b"n\0e\0",
        b"\xff\xfen\0\0\0",
        b"\xff\xfe\x1b\0",
        b"n\x1b[2J",
        b"N\xe4\x07",
        b"\x7fELF",
    ];
    for bytes in others {
        assert!(!said(bytes).contains("sheet make"), "{}", said(bytes));
    }
    // what is kept of a long text is short, and tells that there is more
    for (sign, most) in [("n", 244), ("ü", 244), ("\u{1f469}", 244)] {
        begins(sign.repeat(60).as_bytes(), &format!("\"{}\"", sign.repeat(60)));
        begins(sign.repeat(61).as_bytes(), &format!("\"{}\"..", sign.repeat(60)));
        let long = sign.repeat(300_000);
        begins(long.as_bytes(), &format!("\"{}\"..", sign.repeat(60)));
        let Why::Text(line) = sheet_refusal(long.as_bytes()).unwrap().why else { panic!() };
        assert!(line.len() <= most && long.as_bytes().starts_with(&line));
    }
}

// What is wrong with a sheet: the fault, the byte, the signal's number and the word's; and why, but for a mark that is none.
type Judged = (u32, usize, Option<usize>, Option<usize>, Option<Why>);

// A sheet read front to back by the rules of document 01.
fn judge(bytes: &[u8]) -> Option<Judged> {
    let number = |at: usize, bytes: &[u8], count: usize| bytes[at..at + count].iter().rev().fold(0u32, |n, &b| n << 8 | u32::from(b));
    let end = bytes.len();
    let cut = |fault, signal, field| Some((fault, end, signal, None, Some(if end == 0 { Why::Empty } else { Why::Cut(field) })));
    let given = end.min(3);
    if bytes[..given] != b"SGL"[..given] {
        return Some((14, 0, None, None, None));
    }
    if end < 5 {
        return cut(14, None, if end < 3 { Field::Mark } else { Field::Version });
    }
    let version = number(3, bytes, 2);
    if version != 1 {
        return Some((14, 3, None, None, Some(Why::Version(version as u16))));
    }
    if end < 7 {
        return cut(15, None, Field::Count);
    }
    let count = number(5, bytes, 2) as usize;
    if count > 32 {
        return Some((15, 5, None, None, Some(Why::Signals(count))));
    }
    let mut names: Vec<&[u8]> = Vec::new();
    let mut at = 7;
    for signal in 1..=count {
        if end < at + 8 {
            return cut(15, Some(signal), Field::Name);
        }
        let name = &bytes[at..at + 8];
        let letters = name.iter().take_while(|b| b.is_ascii_lowercase() || b.is_ascii_digit()).count();
        let well = name[0].is_ascii_lowercase() && name[letters..].iter().all(|&b| b == 0);
        let first = (1..signal).find(|&earlier| names[earlier - 1] == name);
        if !well || first.is_some() {
            return Some((16, at, Some(signal), None, Some(first.map_or(Why::Name, Why::Repeated))));
        }
        names.push(name);
        if end < at + 10 {
            return cut(15, Some(signal), Field::WordCount);
        }
        let words = number(at + 8, bytes, 2) as usize;
        if words == 0 || words > 256 {
            return Some((17, at + 8, Some(signal), None, Some(Why::Words(words))));
        }
        at += 10;
        let (mut last, mut value) = (0, 0);
        for word in 1..=words {
            if end < at + 4 {
                return cut(15, Some(signal), Field::Word(word, words));
            }
            let w = number(at, bytes, 4);
            let wrong = if word == 1 { w > 1 } else { w / 4 <= last || w % 4 == 3 * value };
            if wrong {
                return Some((17, at, Some(signal), Some(word), Some(Why::Word)));
            }
            (last, value) = (w / 4, w % 2);
            at += 4;
        }
    }
    (at < end).then(|| (15, at, None, None, Some(Why::TooLong(end - at))))
}

// Good sheets with bytes changed, put in, taken out, cut off and put on; names and words of small numbers, so that every fault comes.
#[test]
fn bad_sheets() {
    let mut random = Random(21);
    let mut times = [0; 20];
    let (mut words, mut too_long, mut cut_words) = (0, 0, 0);
    let mut repeated = [0; 6];
    for round in 0..30_000 {
        let mut sheet = Sheet::begin().unwrap();
        let mut starts = Vec::new();
        for i in 0..random.below(5) {
            starts.push(sheet.bytes().len());
            let count = 1 + random.below(if round % 50 == 0 { 256 } else { 6 }) as usize;
            let list = random.list(count, 3);
            let list = if random.below(4) == 0 { later(&list, M - list[list.len() - 1] / 4) } else { list };
            sheet = sheet.append(&format!("{}{i}", ["a", "needle", "x"][random.below(3) as usize]), &list).unwrap();
        }
        let mut bytes = Vec::from(sheet);
        // the name of one signal, of a later one too
        if starts.len() > 1 && random.below(3) == 0 {
            let [from, to] = [0; 2].map(|_| starts[random.below(starts.len() as u32) as usize]);
            bytes.copy_within(from..from + 8, to);
        }
        for _ in 0..1 + random.below(2) {
            let at = random.below(bytes.len() as u32) as usize;
            match random.below(10) {
                0 => bytes.truncate(at),
                1 => drop(bytes.remove(at)),
                2 => bytes.insert(at, random.below(5) as u8),
                3 => bytes.extend((0..1 + random.below(5)).map(|_| 0)),
                4 if at >= 7 => bytes[at] = b'a' + random.below(26) as u8,
                5 if at + 8 < bytes.len() => bytes.copy_within(7.min(at)..7.min(at) + 8, at),
                6 => bytes[at] ^= 1 << random.below(8),
                7 if bytes.len() > 15 => bytes[15] = bytes[15].wrapping_add(random.below(3) as u8).wrapping_sub(1),
                _ => bytes[at] = random.below(40) as u8,
            }
            if bytes.is_empty() {
                break;
            }
        }
        let found = sheet_refusal(&bytes);
        let told = found.as_ref().map(|r| {
            let (signal, word) = (r.signal.as_ref().map(|signal| signal.number), r.word.as_ref().map(|word| word.number));
            let why = (!matches!(r.why, Why::Text(_) | Why::Mark(_))).then(|| r.why.clone());
            (r.fault.number(), r.byte, signal, word, why)
        });
        assert_eq!(told, judge(&bytes), "{bytes:?}");
        let Some(refusal) = found else {
            assert!(Sheet::new(&bytes).is_ok());
            continue;
        };
        times[refusal.fault.number() as usize] += 1;
        let text = refusal.to_string();
        assert!(text.starts_with(&format!("refused {}: ", refusal.fault.number())) && !text.contains(char::is_control), "{text}");
        assert!(refusal.why != Why::Other, "{text}");
        if let Some(signal) = &refusal.signal {
            assert_eq!(signal.of, usize::from(bytes[5]));
            assert!(text.contains(&format!("signal {} of {}", signal.number, signal.of)), "{text}");
        }
        if let Some(word) = &refusal.word {
            words += 1;
            assert_eq!(word.value.to_le_bytes(), bytes[refusal.byte..refusal.byte + 4]);
            let count = refusal.byte - 4 * (word.number - 1) - 2;
            assert_eq!(word.of, usize::from(u16::from_le_bytes([bytes[count], bytes[count + 1]])));
            assert!(
                text.contains(&format!("word {} of {}, at byte {}, is {}: ", word.number, word.of, refusal.byte, word.value)),
                "{text}"
            );
        }
        match refusal.why {
            Why::Repeated(first) => {
                repeated[first] += 1;
                assert!(text.ends_with(&format!("is that of signal {first}")), "{text}");
            }
            Why::TooLong(_) => too_long += 1,
            Why::Cut(field) => {
                assert!(matches!(field, Field::Name) == text.contains("in the name"), "{text}");
                if let Field::Word(number, of) = field {
                    cut_words += usize::from(number < of);
                    assert!(text.ends_with(&format!("in word {number} of {of}")), "{text}");
                }
            }
            _ => {}
        }
    }
    assert!(
        times[14..18].iter().all(|&times| times > 1000)
            && repeated[1..4].iter().all(|&times| times > 20)
            && words > 1000
            && too_long > 300
            && cut_words > 300,
        "{times:?} {repeated:?} {words} {too_long} {cut_words}"
    );
}

// Whether some formula begins with this text: a machine that goes byte by byte, with the open brackets on a stack.
fn begins_a_formula(text: &[u8]) -> bool {
    #[derive(Clone, Copy, PartialEq)]
    enum At {
        // an operand is to come
        Operand,
        // one stands there; it is a name of so many letters, 0 for anything else
        After(usize),
        // letters of a block were read
        Word(&'static str, usize),
        // its bracket is to come
        Bracket(&'static str),
        // a length is to come, or its digits stand there, or a lone 0
        Length,
        Digits,
        Zero,
    }
    // what an open bracket may still take: a comma, or its end
    let mut open: Vec<bool> = Vec::new();
    let mut at = At::Operand;
    for &b in text {
        at = match at {
            At::Operand => match b {
                b'!' | b'^' | b'~' => At::Operand,
                b'(' => {
                    open.push(false);
                    At::Operand
                }
                b'0' | b'1' => At::After(0),
                b'a'..=b'z' => At::After(1),
                b'S' => At::Word("SR", 1),
                b'R' => At::Word("RS", 1),
                b'T' => At::Word("T", 1),
                _ => return false,
            },
            At::After(letters) => match b {
                b'a'..=b'z' | b'0'..=b'9' if (1..8).contains(&letters) => At::After(letters + 1),
                b'+' | b'.' => At::Operand,
                b',' if open.last() == Some(&true) => {
                    *open.last_mut().unwrap() = false;
                    At::Operand
                }
                b')' if open.last() == Some(&false) => {
                    open.pop();
                    At::After(0)
                }
                _ => return false,
            },
            At::Word(word, read) => match (word, b) {
                ("T", b'P') => At::Bracket("TP"),
                ("T", b'O') => At::Word("TO", 2),
                ("TO", b'N' | b'F') => At::Bracket("TO"),
                _ if word.as_bytes().get(read) == Some(&b) => At::Bracket(word),
                _ => return false,
            },
            At::Bracket(word) if b == b'(' => {
                let latch = word == "SR" || word == "RS";
                open.push(latch);
                if latch {
                    At::Operand
                } else {
                    At::Length
                }
            }
            At::Length if b == b'0' => At::Zero,
            At::Length | At::Digits if b.is_ascii_digit() => At::Digits,
            At::Zero | At::Digits if b == b',' => At::Operand,
            _ => return false,
        };
    }
    true
}

// The longest beginning of a text that a formula begins with.
fn stop(text: &[u8]) -> usize {
    (0..=text.len()).rev().find(|&n| begins_a_formula(&text[..n])).unwrap()
}

fn two_signals() -> Sheet {
    Sheet::new(&two()).unwrap()
}

// The place of the one formula of a call.
fn place_of(refusal: &Refusal) -> &FormulaPlace {
    match &refusal.place {
        Place::Formula(Which::Only, place) => place,
        place => panic!("{place:?}"),
    }
}

const SIGNS: &[u8] = b"!^~().,+01259azbSRTONFP A_-\t\n\0\x1b\xc3\xff";

#[test]
fn where_reading_stopped() {
    let sheet = two_signals();
    let mut random = Random(22);
    let mut checker = Checker::new();
    let mut length = |random: &mut Random| random.below(3000);
    let (mut refused, mut cut) = (0, 0);
    for round in 0..40_000 {
        let most = 1 + random.below(14);
        let made = tree(&mut random, most, &["a", "needle", "abcdefgh"], &mut length);
        let mut text = made.text(&mut random).into_bytes();
        for _ in 0..round % 3 {
            let at = random.below(text.len() as u32) as usize;
            let sign = SIGNS[random.below(SIGNS.len() as u32) as usize];
            match random.below(4) {
                0 => text[at] = sign,
                1 => text.insert(at, sign),
                2 => text.truncate(at.max(1)),
                _ if text.len() > 1 => drop(text.remove(at)),
                _ => text[at] = sign,
            }
        }
        let place = stop(&text);
        match calls::formula_fault(&text) {
            Ok(()) => assert_eq!(place, text.len()),
            Err(stop) => assert_eq!((stop.fault, stop.place), (Fault::Grammar, place), "{:?}", String::from_utf8_lossy(&text)),
        }
        // the calls know of formulas that are texts
        let Ok(text) = String::from_utf8(text) else { continue };
        let Err(refusal) = checker.evaluate(&sheet, &text) else { continue };
        if refusal.fault != Fault::Grammar {
            continue;
        }
        refused += 1;
        assert_eq!(Formula::new(text.as_str()).unwrap_err().place, *place_of(&refusal));
        let FormulaPlace::Byte { byte, rest, expected, .. } = place_of(&refusal) else { panic!("{refusal}") };
        assert_eq!((*byte, rest.as_slice()), (place, &text.as_bytes()[place..]), "{text}");
        // what is expected makes a longer beginning, and all that does is expected, but for what goes on with a name
        let longer = |with: &str| begins_a_formula([&text.as_bytes()[..place], with.as_bytes()].concat().as_slice());
        for sign in ["!", "^", "~", "(", "0", "1", "SR", "RS", "TON", "TOF", "TP", "+", ".", ",", ")", "R", "S", "O", "P", "N", "F"] {
            let goes_on_with_a_name = matches!(sign, "0" | "1") && longer("z") && !longer("!");
            let is_digit = matches!(sign, "0" | "1") && expected.contains(&"a digit");
            let begins_a_block = matches!(sign, "S" | "R") && longer("!");
            if !goes_on_with_a_name && !is_digit && !begins_a_block {
                assert_eq!(expected.contains(&sign), longer(sign), "{refusal}: {sign}");
            }
        }
        assert_eq!(expected.contains(&"a name"), longer("!"), "{refusal}");
        assert_eq!(expected.contains(&"a digit"), longer("9") && !longer("z"), "{refusal}");
        assert_eq!(expected.contains(&"the end"), Tree::read(&text[..place]).is_some_and(|_| place > 0), "{refusal}");
        let words = if place == text.len() {
            cut += 1;
            format!("refused 11: the formula is cut short at byte {place}: expected ")
        } else {
            format!("refused 11: byte {place}, at \"")
        };
        assert!(refusal.to_string().starts_with(&words) && !refusal.to_string().contains(char::is_control), "{refusal}");
    }
    assert!(refused > 10_000 && cut > 1000, "{refused} {cut}");
}

#[test]
fn formulas_in_words() {
    let sheet = two_signals();
    let said = |text: &str| Checker::new().evaluate(&sheet, text).unwrap_err().to_string();
    assert_eq!(said(""), "refused 10: the formula is empty");
    assert_eq!(said(&"a+".repeat(600)), "refused 10: the formula has 1200 bytes, over 1024");
    let spaces = "(a formula has no spaces)";
    assert_eq!(said("a b"), format!("refused 11: byte 1, at \" b\", is outside the grammar: expected `+`, `.` or the end {spaces}"));
    assert_eq!(said("SR(a\x1b[2J"), "refused 11: byte 4, at \"\\u{1b}[2J\", is outside the grammar: expected `+`, `.` or `,`");
    assert_eq!(said("TOM(5,a)"), "refused 11: byte 2, at \"M(5,a)\", is outside the grammar: expected `N` or `F`");
    assert_eq!(said("TON(05,a)"), "refused 11: byte 5, at \"5,a)\", is outside the grammar: expected `,`");
    assert_eq!(said("TON(x,a)"), "refused 11: byte 4, at \"x,a)\", is outside the grammar: expected a digit");
    let name = "(a name is 1 to 8 lowercase letters and digits, a letter first)";
    let after = format!("is outside the grammar: expected `+`, `.` or the end {name}");
    assert_eq!(said("abcdefghij"), format!("refused 11: byte 8, at \"ij\", {after}"));
    assert_eq!(said("needle_up"), format!("refused 11: byte 6, at \"_up\", {after}"));
    assert_eq!(said("nädel"), format!("refused 11: byte 1, at \"ädel\", {after}"));
    assert_eq!(said("a&needle"), "refused 11: byte 1, at \"&needle\", is outside the grammar: expected `+`, `.` or the end");
    let operand = "a name, `0`, `1`, `!`, `^`, `~`, `(`, `SR`, `RS`, `TON`, `TOF` or `TP`";
    assert_eq!(said("a+"), format!("refused 11: the formula is cut short at byte 2: expected {operand}"));
    assert_eq!(said("a+Needle"), format!("refused 11: byte 2, at \"Needle\", is outside the grammar: expected {operand} {name}"));
    assert_eq!(said("TP(1073741824,a)"), "refused 8: the length \"1073741824\", at byte 3, is above 1073741823");
    assert_eq!(said(&"!".repeat(17)), format!("refused 11: the formula is cut short at byte 17: expected {operand}"));
    assert_eq!(said(&["a"; 17].join("+")), "refused 12: over 32 parts, or depth over 16");
    assert_eq!(said("a.knife"), "refused 13: the sheet has no signal named \"knife\"");
    assert_eq!(
        said("!(a+TOF(1073741823,a)).a"),
        "refused 6: the part \"TOF(1073741823,a)\" (part 3 of 7): its signal changes after 1073741823"
    );
    // as long as a formula may be, and cut short there: nothing can be asked of what would be longer
    let full = "(".repeat(1024);
    assert_eq!(said(&full), "refused 11: the formula is cut short at byte 1024");
    // one byte shorter: what finds no room is not told
    let one = "a name, `0`, `1`, `!`, `^`, `~` or `(`";
    assert_eq!(said(&full[1..]), format!("refused 11: the formula is cut short at byte 1023: expected {one}"));
    assert_eq!(
        said(&full[2..]),
        format!(
            "refused 11: the formula is cut short at byte 1022: expected {}",
            "a name, `0`, `1`, `!`, `^`, `~`, `(`, `SR`, `RS` or `TP`"
        )
    );
}

// Lengths above M among others: the first of them is told.
#[test]
fn lengths_above_m() {
    let sheet = two_signals();
    let mut random = Random(23);
    let mut found = 0;
    for _ in 0..3000 {
        let mut length = |random: &mut Random| if random.below(3) == 0 { M + 1 + random.below(9) } else { M - random.below(9) };
        let made = tree(&mut random, 12, &["a", "abcdef12"], &mut length);
        let text = made.text(&mut random);
        let above = |text: &str| text.parse::<u32>().is_ok_and(|d| d > M);
        let first = text.split(|c: char| !c.is_ascii_digit()).find(|run| above(run));
        let Err(refusal) = checker_fault(&sheet, &text, Fault::LengthAboveM) else { continue };
        found += 1;
        let FormulaPlace::Ticks { byte, digits, .. } = place_of(&refusal) else { panic!("{refusal}") };
        assert_eq!(Some(digits.as_str()), first, "{text}");
        assert_eq!(*byte, text.find(first.unwrap()).unwrap(), "{text}");
    }
    assert!(found > 500, "{found}");
    // any number of digits
    for (before, count) in [("a+", 900), ("", 1018)] {
        let refusal = Checker::new().evaluate(&sheet, format!("{before}TP({},a)", "9".repeat(count))).unwrap_err();
        let FormulaPlace::Ticks { byte, digits, .. } = place_of(&refusal) else { panic!("{refusal}") };
        assert_eq!((*byte, digits.len()), (before.len() + 3, count));
        assert!(refusal.to_string().len() < 150);
    }
    // what is outside the grammar comes first, and where the end may stand is told although the length is above M
    let refusal = Checker::new().evaluate(&sheet, "TP(1073741824,a) ").unwrap_err();
    assert!(
        refusal.to_string().contains("refused 11: byte 16, at \" \", is outside the grammar: expected `+`, `.` or the end"),
        "{refusal}"
    );
}

// The refusal with this fault, if it is refused so.
fn checker_fault(sheet: &Sheet, text: &str, fault: Fault) -> Result<(), Refusal> {
    match Checker::new().evaluate(sheet, text) {
        Err(refusal) if refusal.fault == fault => Err(refusal),
        _ => Ok(()),
    }
}

// The first part of a tree, in working-out order, whose operation on lists is refused with 5 or 6: its number from 1, and the fault.
fn work_out(tree: &Tree, sheet: &Sheet, number: &mut usize) -> Result<List, (usize, Fault, Tree)> {
    let list = match tree {
        Tree::Leaf(text) if text == "0" || text == "1" => List::new(&[u32::from(text == "1")]),
        Tree::Leaf(name) => sheet.lookup(name),
        Tree::Prefix(sign, of) => {
            let of = work_out(of, sheet, number)?;
            match sign {
                '!' => of.not(),
                '^' => of.rising(),
                _ => of.falling(),
            }
        }
        Tree::Timer(block, d, of) => {
            let of = work_out(of, sheet, number)?;
            match block.as_str() {
                "TON" => of.ton(*d),
                "TOF" => of.tof(*d),
                _ => of.tp(*d),
            }
        }
        Tree::Pair(pair, left, right) => {
            let left = work_out(left, sheet, number)?;
            let right = work_out(right, sheet, number)?;
            match pair {
                Pair::Or => left.or(&right),
                Pair::And => left.and(&right),
                Pair::Sr => left.sr(&right),
                Pair::Rs => left.rs(&right),
            }
        }
    };
    *number += 1;
    list.map_err(|fault| (*number, fault, tree.clone()))
}

// Lists of many lone instants, and lists up to M.
fn crowded() -> Sheet {
    let lone = |from: u32| -> Vec<u32> { std::iter::once(0).chain((0..150).map(|i| 4 * (3 * i + from) + 2)).collect() };
    let sheet = Sheet::begin().unwrap().append("odd", &lone(1)).unwrap().append("even", &lone(2)).unwrap();
    let sheet = sheet.append("late", &[0, 4 * (M - 20) + 3, 4 * (M - 10)]).unwrap().append("last", &[0, 4 * M + 2]).unwrap();
    sheet.append("calm", &[0, 23, 36]).unwrap()
}

#[test]
fn parts_that_are_refused() {
    let sheet = crowded();
    let mut random = Random(24);
    let mut times = [0; 20];
    let mut inner = 0;
    for _ in 0..20_000 {
        let most = 1 + random.below(14);
        let made = tree(&mut random, most, &["odd", "even", "odd", "even", "late", "last", "calm"], &mut |random| random.below(30));
        let text = made.text(&mut random);
        let (mut number, of) = (0, made.parts().len());
        let wanted = work_out(&made, &sheet, &mut number);
        let found = Checker::new().evaluate(&sheet, &text);
        match (wanted, found) {
            (Ok(list), Ok(found)) => assert_eq!(found, list, "{text}"),
            (Err((number, fault, part)), Err(refusal)) => {
                assert_eq!(refusal.fault, fault, "{text}");
                let FormulaPlace::Part { text: told, number: n, of: all, .. } = place_of(&refusal) else { panic!("{text}: {refusal}") };
                assert_eq!((*n, *all), (number, of), "{text}: {refusal}");
                assert_eq!(Tree::read(told), Some(part), "{text}: {refusal}");
                assert_eq!(trees::needless_brackets(told), 0, "{text}: {refusal}");
                times[fault.number() as usize] += 1;
                inner += usize::from(number < of);
            }
            (wanted, found) => panic!("{text}: {wanted:?}, {found:?}"),
        }
    }
    assert!(times[5] > 500 && times[6] > 500 && inner > 1000, "{times:?} {inner}");
}

// Formulas that are refused in a known way, or not at all: the text and the fault.
fn drawn(random: &mut Random, sheet: &Sheet) -> (String, Option<Fault>) {
    let lengths = |random: &mut Random| random.below(30);
    let made = tree(random, 6, &["odd", "even", "late", "last", "calm"], &mut { lengths });
    let text = made.text(random);
    match random.below(9) {
        0 => (String::new(), Some(Fault::FormulaLength)),
        1 => (format!("{text}+"), Some(Fault::Grammar)),
        2 => (format!("TON(1073741824,{text})"), Some(Fault::LengthAboveM)),
        3 => (format!("{}({text})", "!".repeat(17)), Some(Fault::TooComplex)),
        4 => (format!("({text}).knife+lamp"), Some(Fault::UnknownName)),
        _ => {
            let fault = work_out(&made, sheet, &mut 0).err().map(|(_, fault, _)| fault);
            (text, fault)
        }
    }
}

// Whether it is F or G: all that can be read in F comes first, then in G, then what is met when F is worked out, then G.
#[test]
fn which_formula() {
    let sheet = crowded();
    let mut random = Random(25);
    let mut times = std::collections::BTreeMap::new();
    let mut checker = Checker::new();
    for _ in 0..20_000 {
        let ((f, in_f), (g, in_g)) = (drawn(&mut random, &sheet), drawn(&mut random, &sheet));
        let late = |fault: &Fault| matches!(fault, Fault::TooLong | Fault::ChangesAfterM);
        let both = [(Which::F, in_f), (Which::G, in_g)];
        let all = || both.iter().filter_map(|&(which, fault)| fault.map(|fault| (which, fault)));
        let wanted = all().find(|(_, fault)| !late(fault)).or_else(|| all().next());
        let found = checker.claim(&sheet, &f, &g);
        let told = found.as_ref().err().map(|refusal| match &refusal.place {
            Place::Formula(which, place) => {
                // but for 12 there is always more to tell
                assert_eq!(*place == FormulaPlace::Untold, refusal.fault == Fault::TooComplex, "{f} {g}: {refusal}");
                (*which, refusal.fault)
            }
            place => panic!("{f} {g}: {place:?}"),
        });
        assert_eq!(told, wanted, "{f} {g}: {found:?}");
        if let (Err(refusal), Some((which, fault))) = (found, wanted) {
            let words = format!("refused {}: {which:?}: ", fault.number());
            assert!(refusal.to_string().starts_with(&words), "{f} {g}: {refusal}");
            if fault == Fault::UnknownName {
                assert!(refusal.to_string().contains("no signal named \"knife\""), "{refusal}");
            }
            *times.entry(words).or_insert(0) += 1;
        }
    }
    assert!(times.len() == 14 && times.values().all(|&times| times > 50), "{times:?}");
}

// Unknown names among known ones: the first that stands there.
#[test]
fn unknown_names() {
    let sheet = two_signals();
    let mut random = Random(26);
    let mut found = 0;
    for _ in 0..5000 {
        let made = tree(&mut random, 12, &["a", "needle", "needl", "knife1", "abcdefgh", "aa"], &mut |random| random.below(9));
        let text = made.text(&mut random);
        let first = made.names().into_iter().find(|name| !["a", "needle"].contains(name)).map(str::to_string);
        let Err(refusal) = checker_fault(&sheet, &text, Fault::UnknownName) else {
            assert_eq!(first, None, "{text}");
            continue;
        };
        found += 1;
        let FormulaPlace::Name { byte, name, .. } = place_of(&refusal) else { panic!("{refusal}") };
        assert_eq!(Some(name), first.as_ref(), "{text}");
        // where it stands, as a whole word
        let word = |c: char| c.is_ascii_lowercase() || c.is_ascii_digit();
        let at = text
            .match_indices(name.as_str())
            .map(|(at, _)| at)
            .find(|&at| !text[..at].ends_with(word) && !text[at + name.len()..].starts_with(word));
        assert_eq!(Some(*byte), at, "{text}");
    }
    assert!(found > 1000, "{found}");
}

// What is refused for the sheet is told as that, before all formulas.
#[test]
fn claims_on_bad_sheets() {
    let mut checker = Checker::new();
    let mut bytes = two();
    assert!(checker.claim_bytes(&bytes, b"a", b"a").unwrap().holds());
    bytes[25] = 21;
    let refusal = checker.claim_bytes(&bytes, b"", b"\xff").unwrap_err();
    assert!(matches!(&refusal.place, Place::Sheet(of) if of.byte == 25));
    let words = "refused 17: signal 1 of 2, \"a\": word 3 of 3, at byte 25, is 21: its date, 5, is not above the last, 5";
    assert_eq!((refusal.fault, refusal.to_string().as_str()), (Fault::SheetList, words));
    let refusal = checker.claim_bytes(two(), b"a", b"\xff\x1b").unwrap_err();
    assert!(refusal.to_string().starts_with("refused 11: G: byte 0, at \"\\xff\\u{1b}\", is outside the grammar"), "{refusal}");
}

// Random bytes: an answer or a refusal, and never anything else.
#[test]
fn garbage() {
    let mut random = Random(27);
    let mut checker = Checker::new();
    for _ in 0..5000 {
        let count = random.below(60) as usize;
        let mut bytes = |from: &[u8]| -> Vec<u8> { from.iter().copied().chain((0..count).map(|_| random.below(256) as u8)).collect() };
        let (sheet, f, g) = (bytes(b"SGL\x01\0"), bytes(b"a"), bytes(b""));
        assert_eq!(sheet_refusal(&sheet).is_none(), Sheet::new(&sheet).is_ok());
        for sheet in [sheet, two()] {
            if let Err(refusal) = checker.claim_bytes(&sheet, &f, &g) {
                let text = refusal.to_string();
                assert!(!text.contains(char::is_control) && text.len() < 500, "{text}");
            }
        }
    }
}
