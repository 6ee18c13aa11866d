// Sheets as text, and the tool that makes, shows and checks them. Texts are written here by hand, word by word, in any style; the places
// told are held to those that were counted while writing.
mod random;
mod tool;
mod writing;

use random::Random;
use rascrunel::{raw, sheet_refusal, text, List, Sheet, Wrongs, M};
use std::error::Error;
use std::fs;
use std::path::{Path, PathBuf};
use tool::{folder, sheet};
use writing::{broken, broken_list, some_signals, words_of, write, Signal, Written};

#[test]
fn each_change() {
    let given = "# up at, after, from\na : down, up from 5, down from 9\ne : down, up at 5\nl : down, up after 5\n\
                 u : up, down at 3, down after 4\nw = 0 23 36\n";
    let sheet = text::read(given).unwrap();
    assert_eq!(sheet.lookup("a").unwrap().words(), [0, 23, 36]);
    assert_eq!(sheet.lookup("e").unwrap().words(), [0, 22]);
    assert_eq!(sheet.lookup("l").unwrap().words(), [0, 21]);
    assert_eq!(sheet.lookup("u").unwrap().words(), [1, 13, 18]);
    assert_eq!(sheet.lookup("w").unwrap().words(), [0, 23, 36]);
    let shown = text::write(&sheet);
    assert_eq!(
        shown,
        "a : down, up from 5, down from 9\ne : down, up at 5\nl : down, up after 5\n\
         u : up, down at 3, down after 4\nw : down, up from 5, down from 9\n"
    );
    assert_eq!(text::read(&shown).unwrap(), sheet);
    assert_eq!((shown.parse::<Sheet>().unwrap(), sheet.to_string()), (sheet, shown));
}

#[test]
fn lists_alone() {
    let list: List = " down,up  from 5 ,\n down from 09".parse().unwrap();
    assert_eq!((list.words(), list.to_string().as_str()), (&[0, 23, 36][..], "down, up from 5, down from 9"));
    let what = |t: &str| t.parse::<List>().unwrap_err().to_string();
    assert_eq!(what(""), "line 1, column 1: a change is missing here");
    assert_eq!(what("down,\nup from 9, up at 10"), "line 2, column 12: refused 4: \"up at 10\" changes nothing: the signal is up already");
    assert_eq!(what("0 23"), "line 1, column 1: \"0\" in \"0 23\" is neither `up` nor `down`; words are given as `NAME = words`");
}

fn what(text: &str) -> String {
    text::read(text).unwrap_err().to_string()
}

const NAMES: &str = "a name is 1 to 8 lowercase letters and digits, a letter first";

#[test]
fn wrong_names() {
    assert_eq!(what("a : down\n\nB : up\n"), format!("line 3, column 1: refused 16: the name \"B\" has \"B\" in it: {NAMES}"));
    assert_eq!(what("a : down\n b:up\n\ta = 1\n"), "line 3, column 2: refused 16: the name \"a\" is that of line 1 already");
    assert_eq!(what("= 0"), format!("line 1, column 1: refused 16: the name \"\" is empty: {NAMES}"));
    assert_eq!(what("abcdefghi : up"), format!("line 1, column 1: refused 16: the name \"abcdefghi\" has 9 characters: {NAMES}"));
    assert_eq!(what("7up : up"), format!("line 1, column 1: refused 16: the name \"7up\" begins with \"7\": {NAMES}"));
    let mark = "has a byte order mark in it, which stands at the start of a text only";
    assert_eq!(
        what("# cat a b\na : up\n\u{feff}b : up"),
        format!("line 3, column 1: refused 16: the name \"\\u{{feff}}b\" {mark}: {NAMES}")
    );
    let many: String = (0..34).map(|i| format!("s{i} : up\n")).collect();
    assert_eq!(
        what(&many),
        "line 33, column 1: refused 15: \"s32\" is signal 33, and a sheet has at most 32\n\
         line 34, column 1: refused 15: \"s33\" is signal 34, and a sheet has at most 32"
    );
}

#[test]
fn wrong_lists() {
    for (text, wanted) in [
        ("a : down, up from 9, down from 5", "22: refused 3: the date of \"down from 5\" is not above 9, that of \"up from 9\" before it"),
        ("a : down, up from 0", "11: refused 3: the date of \"up from 0\" is 0, and dates begin at 1"),
        ("a : down, down from 9", "11: refused 4: \"down from 9\" changes nothing: the signal is down already; `sheet tidy` leaves it out"),
        (
            "a = 0 20",
            "7: refused 4: the word \"20\": it changes nothing, before its date, 5, the signal is down already; `sheet tidy` leaves it out",
        ),
        ("a = 0 3", "7: refused 3: the word \"3\": its date is 0, and dates begin at 1"),
        ("a = 0 23 20", "10: refused 3: the word \"20\": its date, 5, is not above the last, 5"),
        ("a = 2 23", "5: refused 2: the word \"2\": the first word is 0 or 1"),
        ("a =", "4: refused 1: the list is empty: it has at least one word"),
        ("a : down, up from 1073741824", "19: the date \"1073741824\" is above M = 1073741823"),
        ("a : down, up from 99999999999999999999", "19: the date \"99999999999999999999\" is above M = 1073741823"),
        ("a : down, up from 5s", "19: \"5s\" in \"up from 5s\" is no date: a date is a number in digits"),
        ("a : down, up from 1,500", "21: \"500\" is neither `up` nor `down`; a number has no comma in it"),
        ("a : up, down", "9: \"down\" has neither `from`, `after` nor `at`, nor a date, as only the first change may"),
        ("a : up, down 5", "14: \"5\" in \"down 5\" is none of `from`, `after` and `at`"),
        ("a : up, down from", "9: \"down from\" has no date"),
        ("a : up, down from 5 6", "21: \"6\" in \"down from 5 6\" is too much: a change ends with its date"),
        ("a : up from 3", "5: \"up from 3\" is the first change, which is `up` or `down` alone"),
        ("a : down, 1,500", "11: \"1\" is neither `up` nor `down`; a number has no comma in it"),
        ("a : 0", "5: \"0\" is neither `up` nor `down`; words are given as `NAME = words`"),
        ("a : 0 23 36", "5: \"0\" in \"0 23 36\" is neither `up` nor `down`; words are given as `NAME = words`"),
        ("a : high", "5: \"high\" is neither `up` nor `down`"),
        ("a : up: down", "5: \"up:\" in \"up: down\" is neither `up` nor `down`"),
        ("a : up, up: from 5", "9: \"up:\" in \"up: from 5\" is neither `up` nor `down`"),
        ("a :", "4: a change is missing here"),
        ("a : up,, down from 5", "8: a change is missing here"),
        ("a", "1: \"a\" is neither `NAME : changes` nor `NAME = words`"),
        ("  a, b", "3: \"a, b\" is neither `NAME : changes` nor `NAME = words`"),
        ("a = +1", "5: \"+1\" is no word: a word is a number in digits"),
        ("a = 0 4294967296", "7: the word \"4294967296\" is above 4294967295: its date is above M = 1073741823"),
    ] {
        assert_eq!(what(text), format!("line 1, column {wanted}"));
    }
    // a list of 257, of which a later one is wrong too: the library's fault is that of the length
    let changes: String = (1..=256).map(|date| format!(", {} from {date}", ["down", "up"][date % 2])).collect();
    let told = "\"down from 256\" is number 257 of its list, which has at most 256";
    assert_eq!(
        what(&format!("a : down{changes}, up from 3")),
        format!("line 1, column {}: refused 1: {told}", 4 + "a : down".len() + changes.len() - 16)
    );
    // what is quoted of a long piece is not long, and is a line without control characters
    assert_eq!(
        what(&format!("a : {}", "ü".repeat(1000))),
        format!("line 1, column 5: \"{}\".. is neither `up` nor `down`", "ü".repeat(60))
    );
    assert_eq!(what("a : \x1b[2J\u{202e}"), "line 1, column 5: \"\\u{1b}[2J\\u{202e}\" is neither `up` nor `down`");
}

#[test]
fn every_wrong_line() {
    assert_eq!(
        what("a : up\nB : sideways\n# c\nb : up, up at 5\na : down,\nd\ne : up"),
        format!(
            "line 2, column 1: refused 16: the name \"B\" has \"B\" in it: {NAMES}\n\
             line 2, column 5: \"sideways\" is neither `up` nor `down`\n\
             line 4, column 9: refused 4: \"up at 5\" changes nothing: the signal is up already; `sheet tidy` leaves it out\n\
             line 5, column 1: refused 16: the name \"a\" is that of line 1 already\n\
             line 6, column 1: \"d\" is neither `up` nor `down`"
        )
    );
    // the name of a line whose list is wrong counts
    assert!(what("a : high\na : up").contains("line 2, column 1: refused 16: the name \"a\" is that of line 1 already"));
    let Wrongs { first, more, .. } = text::read(&"a\n".repeat(50)).unwrap_err();
    assert_eq!((first.len(), more), (20, 30));
    let wrongs = text::read("a\nb\n").unwrap_err();
    let lines: Vec<usize> = (&wrongs).into_iter().chain(wrongs.iter()).map(|wrong| wrong.line).collect();
    assert_eq!((lines, wrongs.into_iter().map(|wrong| wrong.line).collect::<Vec<_>>()), (vec![1, 2, 1, 2], vec![1, 2]));
    let wrongs: Box<dyn Error> = text::read("a").unwrap_err().into();
    assert_eq!(wrongs.to_string(), what("a"));
}

#[test]
fn lists_that_go_on() {
    let one = text::read("a : down, up from 5, down from 9\nb : up\n").unwrap();
    for text in [
        "a : down,\nup from 5,\n\t down from 9\nb : up\n",
        "a:down , \r\n up from 5, down from 9\r\nb : up",
        "\u{feff}a : down,\n up from 5,\n down from 9\n\nb : up",
    ] {
        assert_eq!(text::read(text).unwrap(), one, "{text:?}");
    }
    // only changes go on, not words; not over a line that says nothing, nor into that of a signal
    assert_eq!(
        what("a : down,\n\nup from 5"),
        "line 1, column 10: a change is missing here\nline 3, column 1: \"up from 5\" is neither `NAME : changes` nor `NAME = words`"
    );
    assert_eq!(what("a : down,\n# up\n"), "line 1, column 10: a change is missing here");
    assert_eq!(
        what("a : down,\nb : high"),
        "line 1, column 10: a change is missing here\nline 2, column 5: \"high\" is neither `up` nor `down`"
    );
    assert_eq!(what("a : down,"), "line 1, column 10: a change is missing here");
    assert_eq!(
        what("a = 0,\n23"),
        "line 1, column 5: \"0,\" is no word: a word is a number in digits\n\
         line 2, column 1: \"23\" is neither `NAME : changes` nor `NAME = words`"
    );
    // tidied, they stand on one line
    assert_eq!(text::tidy("a : down,\r\n up from 5,\r\n up from 7\r\n# b,\r\n").unwrap(), "a : down, up from 5\r\n# b,\r\n");
}

#[test]
fn marks_and_ends_of_lines() {
    let one = text::read("a : down, up from 5\nb = 0 23\n").unwrap();
    for text in [
        "\u{feff}a : down, up from 5\r\nb = 0 23\r\n",
        "a : down, up from 5\r\nb = 0 23\r",
        "\u{feff}\n\ta\t:\tdown\t,\tup\tfrom\t5\n b =\t0\t23",
    ] {
        assert_eq!(text::read(text).unwrap(), one, "{text:?}");
    }
    // at the end of a text a carriage return ends a line by itself, in a comment too, as it always did; and it stays
    assert!(text::read("a : up\n# b\r").is_ok());
    assert_eq!(text::tidy("a : up, up at 5\r").unwrap(), "a : up\r");
    assert!(what("a : up\r\r").starts_with("line 1, column 7: \"\\r\" is a carriage return without"));
    // the mark has no column; a mark elsewhere is a letter that no piece has; a comment may have it
    assert_eq!(what("\u{feff}A : up").split(':').next(), Some("line 1, column 1"));
    assert_eq!(what("a = \u{feff}0"), "line 1, column 5: \"\\u{feff}0\" is no word: a word is a number in digits");
    assert!(text::read("a : up\n# \u{feff}\n").is_ok());
    // a carriage return alone ended a line once: a comment would hide the rest of such a text
    let alone = "\"\\r\" is a carriage return without a line feed after it: a line ends with a line feed, or with both";
    assert_eq!(what("# old\ra : up\rb : up\r"), format!("line 1, column 6: {alone}"));
    assert_eq!(what("a : up\nb : up,\r\n\rdown from 5"), format!("line 3, column 1: {alone}"));
    let zero = "\"\\0\" is a zero byte, and a text has none";
    assert_eq!(what("a : up\n#\0\n"), format!("line 2, column 2: {zero}"));
    // and to be tidied
    assert_eq!(text::tidy("\u{feff}a : up, up at 5\r\n#\r\n").unwrap(), "\u{feff}a : up\r\n#\r\n");
    assert_eq!(text::tidy("# a\rb : up").unwrap_err().to_string(), format!("line 1, column 4: {alone}"));
    assert_eq!(text::tidy("#\0").unwrap_err().to_string(), format!("line 1, column 2: {zero}"));
}

#[test]
fn bytes_that_are_no_text() {
    let what = |bytes: &[u8]| text::utf8(bytes).unwrap_err().to_string();
    assert_eq!(
        what(b"a : up\n# na\xcc\x88del \xe4\n"),
        "line 2, column 10: byte 17 of the file, 0xe4, is no UTF-8; save the text as UTF-8"
    );
    assert_eq!(what(b"\xef\xbb\xbf\xc3"), "line 1, column 1: byte 3 of the file, 0xc3, is no UTF-8; save the text as UTF-8");
    for bytes in [&b"\xff\xfea\0:\0"[..], b"\xfe\xff\0a\0:"] {
        assert_eq!(what(bytes), "line 1, column 1: the file is in UTF-16; save the text as UTF-8");
    }
}

// The sheet of signals, by append alone.
fn sheet_of(signals: &[Signal]) -> Sheet {
    signals.iter().fold(Sheet::begin().unwrap(), |sheet, signal| sheet.append(&signal.name, &signal.words).unwrap())
}

// A sheet that is shown is made again, and a text that was shown is shown again.
fn round_trip(sheet: &Sheet) -> String {
    let shown = text::write(sheet);
    let made = text::read(&shown).unwrap();
    assert_eq!(made.bytes(), sheet.bytes(), "{shown}");
    assert_eq!(text::write(&made), shown);
    let on_one_line = shown.split(",\n").map(str::trim_start).collect::<Vec<_>>().join(", ");
    assert_eq!(text::tidy(&shown).unwrap(), on_one_line);
    shown
}

// 32 signals of 256 words, the last of each at M.
fn largest(random: &mut Random) -> Vec<Signal> {
    let names = (0..32).map(|i| format!("signal{i:02}"));
    names.map(|name| Signal::new(random, name, words_of(256, M))).collect()
}

#[test]
fn round_trips() {
    let mut random = Random(5);
    let (mut longest, mut signals_seen) = (0, [false; 33]);
    for round in 0..800 {
        let signals = if round == 0 { largest(&mut random) } else { some_signals(&mut random, 33) };
        let sheet = sheet_of(&signals);
        let Written { text, .. } = write(&mut random, &signals);
        assert_eq!(text::read(&text).unwrap_or_else(|wrongs| panic!("{wrongs}\n{text}")).bytes(), sheet.bytes(), "{text}");
        let shown = round_trip(&sheet);
        assert!(shown.lines().all(|line| line.len() <= 120), "{shown}");
        signals_seen[signals.len()] = true;
        longest = longest.max(shown.len());
    }
    assert!(signals_seen.iter().all(|seen| *seen) && longest > 150_000, "{longest}");
    // a list goes on below its beginning, where the next change, with a comma after it, has no room
    let shown = round_trip(&Sheet::begin().unwrap().append("ab", &words_of(256, M)).unwrap());
    let lines: Vec<&str> = shown.lines().collect();
    assert!(lines.len() > 40 && lines[0].starts_with("ab : down, up from 1073741569, "));
    for pair in lines.windows(2) {
        let next = pair[1].strip_prefix("     ").unwrap();
        assert!(next.starts_with("up") || next.starts_with("down"), "{next}");
        assert!(pair[0].ends_with(',') && pair[0].len() + 1 + next.split(',').next().unwrap().len() + 1 > 120, "{shown}");
    }
}

// What is told of a text with something wrong in it is the place, the piece and the rule.
#[test]
fn broken_texts() {
    let mut random = Random(6);
    let mut kinds = std::collections::BTreeMap::new();
    for _ in 0..6_000 {
        let mut signals = some_signals(&mut random, 8);
        let Some(wrong) = broken(&mut random, &mut signals) else { continue };
        *kinds.entry(wrong.kind).or_insert(0) += 1;
        let written = write(&mut random, &signals);
        let Wrongs { first, more, .. } = text::read(&written.text).expect_err(&written.text);
        assert_eq!((first.len(), more), (1, 0), "{} {first:?}\n{}", wrong.kind, written.text);
        wrong.told(&first[0], &written);
        match text::tidy(&written.text) {
            Err(wrongs) => assert!(wrong.of_tidying() && wrongs.first == first, "{}\n{}", wrong.kind, written.text),
            Ok(_) => assert!(!wrong.of_tidying(), "{}\n{}", wrong.kind, written.text),
        }
    }
    assert!(kinds.len() == writing::KINDS && kinds.values().all(|&count| count > 20), "{kinds:?}");
}

// Several wrong lists, each told.
#[test]
fn broken_in_many_places() {
    let mut random = Random(7);
    let mut more_than_twenty = 0;
    for _ in 0..600 {
        let mut signals = some_signals(&mut random, 33);
        let mut wrongs: Vec<_> = Vec::new();
        for i in 0..signals.len() {
            if random.below(4) > 0 {
                wrongs.extend(broken_list(&mut random, &mut signals, i));
            }
        }
        if wrongs.is_empty() {
            continue;
        }
        let written = write(&mut random, &signals);
        let told = text::read(&written.text).expect_err(&written.text);
        assert_eq!(told.first.len(), wrongs.len().min(20), "{told}\n{}", written.text);
        assert_eq!(told.more, wrongs.len() - told.first.len());
        more_than_twenty += usize::from(told.more > 0);
        wrongs.iter().zip(&told.first).for_each(|(wrong, told)| wrong.told(told, &written));
    }
    assert!(more_than_twenty > 10, "{more_than_twenty}");
}

// A text with bytes changed, left out, put in or said again, or bytes of any kind.
fn garbage(random: &mut Random) -> Vec<u8> {
    const PIECES: [&str; 22] = [
        "a",
        "b1",
        " ",
        ":",
        "=",
        ",",
        "\n",
        "\r\n",
        "\r",
        "up",
        "down",
        "from",
        "after",
        "at",
        "0",
        "5",
        "23",
        "1073741824",
        "#",
        "\u{feff}",
        "ü",
        "\0",
    ];
    if random.below(2) == 0 {
        let count = random.below(40);
        return (0..count).flat_map(|_| PIECES[random.below(22) as usize].bytes()).collect();
    }
    let signals = some_signals(random, 6);
    let mut bytes = if random.below(3) == 0 { sheet_of(&signals).bytes().to_vec() } else { write(random, &signals).text.into_bytes() };
    for _ in 0..=random.below(6) {
        let at = random.below(bytes.len() as u32 + 1) as usize;
        match random.below(5) {
            0 => bytes.truncate(at),
            1 => bytes.insert(at, random.below(256) as u8),
            2 if at < bytes.len() => bytes[at] = random.below(256) as u8,
            3 if at < bytes.len() => drop(bytes.remove(at)),
            _ => {
                let end = bytes.len().min(at + random.below(30) as usize);
                let piece = bytes[at..end].to_vec();
                let to = random.below(bytes.len() as u32 + 1) as usize;
                bytes.splice(to..to, piece);
            }
        }
    }
    bytes
}

// A place that is told is in the text, or just after a line of it.
fn in_text(text: &str, wrong: &text::Wrong) {
    let text = text.strip_prefix('\u{feff}').unwrap_or(text);
    let line = text.split('\n').nth(wrong.line - 1).unwrap_or_else(|| panic!("{wrong} {text:?}"));
    assert!(wrong.column >= 1 && wrong.column <= line.chars().count() + 1, "{wrong} {text:?}");
    assert!(!wrong.what.contains(|c: char| c.is_control()), "{wrong}");
}

#[test]
fn bytes_of_any_kind() {
    let mut random = Random(8);
    let mut made = [0; 4];
    for _ in 0..20_000 {
        let bytes = garbage(&mut random);
        let _ = raw::tidy(&bytes);
        assert_eq!(sheet_refusal(&bytes).is_none(), Sheet::new(&bytes).is_ok());
        let Ok(text) = text::utf8(&bytes) else {
            made[0] += 1;
            continue;
        };
        match text::read(text) {
            Ok(sheet) => {
                round_trip(&sheet);
                made[1] += 1;
            }
            Err(wrongs) => wrongs.first.iter().for_each(|wrong| in_text(text, wrong)),
        }
        match text::tidy(text) {
            Ok(tidied) => {
                assert_eq!(text::tidy(&tidied).as_ref(), Ok(&tidied));
                made[2] += 1;
            }
            Err(wrongs) => wrongs.first.iter().for_each(|wrong| in_text(text, wrong)),
        }
        if let Err(wrong) = text.parse::<List>() {
            made[3] += 1;
            in_text(text, &wrong);
        }
    }
    assert!(made.iter().all(|&count| count > 500), "{made:?}");
}

struct Tool {
    dir: PathBuf,
}

impl Tool {
    fn new(name: &str) -> Tool {
        Tool { dir: folder(name) }
    }

    fn file(&self, name: &str, bytes: impl AsRef<[u8]>) -> PathBuf {
        let path = self.dir.join(name);
        fs::write(&path, bytes).unwrap();
        path
    }

    // The status, what was printed and what was said.
    fn run(&self, command: &str, files: &[&Path]) -> (Option<i32>, String, String) {
        let args: Vec<&Path> = [&[Path::new(command)], files].concat();
        let got = sheet(&args);
        (got.status.code(), String::from_utf8(got.stdout).unwrap(), String::from_utf8(got.stderr).unwrap())
    }

    fn names(&self) -> Vec<String> {
        let mut names: Vec<_> = fs::read_dir(&self.dir).unwrap().map(|file| file.unwrap().file_name().into_string().unwrap()).collect();
        names.sort();
        names
    }
}

impl Drop for Tool {
    fn drop(&mut self) {
        let _ = fs::remove_dir_all(&self.dir);
    }
}

#[test]
fn the_tool() {
    let tool = Tool::new("tool");
    let from = tool.file("a.txt", "a : down, up from 5, down from 9\n");
    let to = tool.dir.join("a.sgl");
    assert_eq!(tool.run("make", &[&from, &to]), (Some(0), String::new(), String::new()));
    let bytes = fs::read(&to).unwrap();
    assert_eq!(Sheet::new(&bytes).unwrap().lookup("a").unwrap().words(), [0, 23, 36]);
    assert_eq!(tool.run("show", &[&to]), (Some(0), "a : down, up from 5, down from 9\n".to_string(), String::new()));
    assert_eq!(tool.run("check", &[&to]), (Some(0), format!("{}: a sheet of 1 signal, 3 words\n", to.display()), String::new()));

    // what is refused leaves the sheet as it was and nothing beside it
    let refused = |command: &str, files: &[&Path], words: &str| {
        let (status, out, said) = tool.run(command, files);
        assert_eq!((status, out.as_str()), (Some(1), ""));
        assert!(said.contains(words), "{said}");
        assert_eq!(fs::read(&to).unwrap(), bytes);
        assert!(!tool.names().iter().any(|name| name.ends_with(".part")));
    };
    let bad = tool.file("bad.txt", "a : down, up from 5\nb : sideways\n");
    refused("make", &[&bad, &to], "bad.txt: line 2, column 5: \"sideways\" is neither");
    refused("make", &[&tool.dir.join("none.txt"), &to], "none.txt: No such file");
    refused("make", &[&tool.dir, &to], "is a directory");
    refused("make", &[&from, &tool.dir], "is a directory");
    refused("make", &[&from, &tool.dir.join("none").join("a.sgl")], "No such file");
    let of = |bytes: &[u8]| tool.file("bad.txt", bytes);
    refused("make", &[&of(&[b'#'; (1 << 20) + 1]), &to], "over 1048576 bytes, too long");
    refused("make", &[&of(b"\xff\xfea\0"), &to], "bad.txt: line 1, column 1: the file is in UTF-16");
    refused("tidy", &[&of(b"\xff\xfea\0"), &to], "bad.txt: line 1, column 1: the file is in UTF-16");
    refused("make", &[&of(b"a : up\n\xff"), &to], "bad.txt: line 2, column 1: byte 7 of the file, 0xff, is no UTF-8");
    refused("make", &[&of(&bytes), &to], "bad.txt: is a sheet and no text; `sheet show` prints it as one");
    refused("tidy", &[&of(&bytes), &to], "bad.txt: is a sheet and no text; `sheet show` prints it as one");
    refused("make", &[&of(b"\x01\0\0\0\0\0"), &to], "bad.txt: line 1, column 2: \"\\0\" is a zero byte, and a text has none");
    // and what is refused as a sheet
    for command in ["show", "check"] {
        refused(command, &[&from], "a.txt: refused 14: a text and no sheet");
        refused(command, &[&from], "`sheet make TEXT SHEET` makes a sheet of a text");
        refused(command, &[&of(&[0xff, 0xfe])], "refused 14: no sheet: it begins with \"\\xff\\xfe\"");
        refused(
            command,
            &[&of(&bytes[..bytes.len() - 1])],
            "refused 15: signal 1 of 1, \"a\": the sheet is cut, it ends at byte 28 in word 3 of 3",
        );
        refused(command, &[&of(&[&bytes[..], b"\0\0"].concat())], "refused 15: 2 bytes too many after the last signal, from byte 29 on");
        refused(command, &[&of(&[&bytes[..5], b"\x21\0", &bytes[7..]].concat())], "refused 15: 33 signals, over 32, at byte 5");
        refused(command, &[&of(&[b"SGL\x02", &bytes[4..]].concat())], "refused 14: a sheet of version 2, not 1, at byte 3");
        refused(
            command,
            &[&of(&[&bytes[..7], b"A", &bytes[8..]].concat())],
            "refused 16: signal 1 of 1, \"A\": its name, at byte 7, is none",
        );
        let twice = [&bytes[..5], b"\x02\0", &bytes[7..], &bytes[7..]].concat();
        refused(command, &[&of(&twice)], "refused 16: signal 2 of 2, \"a\": its name, at byte 29, is that of signal 1");
        let idle = [&bytes[..25], b"\x1b", &bytes[26..]].concat();
        refused(command, &[&of(&idle)], "refused 17: signal 1 of 1, \"a\": word 3 of 3, at byte 25, is 27: it changes nothing");
        refused(command, &[&of(&vec![0; 33096])], "refused 14: no sheet");
        refused(command, &[&of(&vec![0; (1 << 20) + 1])], "over 1048576 bytes, too long");
        refused(command, &[&tool.dir.join("none.sgl")], "none.sgl: No such file");
    }
}

#[test]
fn round_trips_of_the_tool() {
    let tool = Tool::new("trips");
    let mut random = Random(9);
    for round in 0..60 {
        let signals = if round == 0 { largest(&mut random) } else { some_signals(&mut random, 33) };
        let sheet = sheet_of(&signals);
        let (from, first, second) = (tool.file("a.txt", write(&mut random, &signals).text), tool.dir.join("a.sgl"), tool.dir.join("b.sgl"));
        assert_eq!(tool.run("make", &[&from, &first]), (Some(0), String::new(), String::new()));
        let (status, shown, said) = tool.run("show", &[&first]);
        assert_eq!((status, said.as_str(), shown.as_str()), (Some(0), "", sheet.to_string().as_str()));
        assert_eq!(tool.run("make", &[&tool.file("b.txt", &shown), &second]).0, Some(0));
        assert_eq!((fs::read(&first).unwrap(), fs::read(&second).unwrap()), (sheet.bytes().to_vec(), sheet.bytes().to_vec()));
        let words: usize = signals.iter().map(|signal| signal.words.len()).sum();
        let plural = |count: usize| if count == 1 { "" } else { "s" };
        let counted = format!("a sheet of {} signal{}, {words} word{}", signals.len(), plural(signals.len()), plural(words));
        assert_eq!(tool.run("check", &[&first]).1, format!("{}: {counted}\n", first.display()));
    }
}

#[test]
fn bad_texts_of_the_tool() {
    let tool = Tool::new("bad");
    let mut random = Random(10);
    let before = tool.file("out", "before");
    for _ in 0..60 {
        let mut signals = some_signals(&mut random, 8);
        let Some(wrong) = broken(&mut random, &mut signals) else { continue };
        let written = write(&mut random, &signals);
        let from = tool.file("in", &written.text);
        let (status, out, said) = tool.run("make", &[&from, &before]);
        let (line, column) = wrong.place(&written);
        assert_eq!((status, out.as_str()), (Some(1), ""));
        assert!(said.starts_with(&format!("sheet: {}: line {line}, column {column}: ", from.display())), "{said}");
        assert_eq!(said, format!("sheet: {}: {}\n", from.display(), what(&written.text)));
        assert_eq!((fs::read(&before).unwrap(), tool.names()), (b"before".to_vec(), vec!["in".to_string(), "out".to_string()]));
    }
}

#[test]
fn bytes_of_any_kind_and_the_tool() {
    let tool = Tool::new("any");
    let mut random = Random(11);
    let mut done = 0;
    for _ in 0..80 {
        let from = tool.file("in", garbage(&mut random));
        for command in ["make", "tidy"] {
            let to = tool.file("out", "before");
            let (status, out, said) = tool.run(command, &[&from, &to]);
            assert_eq!((out.as_str(), status == Some(0), said.is_empty()), ("", status != Some(1), status == Some(0)), "{said}");
            assert!(status == Some(0) || fs::read(&to).unwrap() == b"before");
            done += usize::from(status == Some(0));
            fs::remove_file(&to).unwrap();
            assert_eq!((tool.run(command, &[&from, &to]).0, to.exists()), (status, status == Some(0)));
        }
        for command in ["show", "check"] {
            let (status, out, said) = tool.run(command, &[&from]);
            assert_eq!((status == Some(0), status == Some(1)), (said.is_empty(), out.is_empty() && !said.is_empty()), "{said}");
        }
    }
    assert!(done > 5 && done < 155, "{done}");
}
