// Tidying: the call; texts and raw lists; the tool. A word is idle that changes nothing.
mod random;
mod tool;

use random::{later, Random};
use rascrunel::{calls, raw, text, Fault, List, LIST_WORDS, M};
use std::fs;
use std::path::{Path, PathBuf};
use tool::{folder, sheet};

#[test]
fn outputs() {
    let mut out = [7; 5];
    assert_eq!(calls::tidy(&[0, 16, 23, 27, 36], &mut out), Ok(3));
    assert_eq!(out, [0, 23, 36, 7, 7]);
    // the last words dropped: nothing of them stands past the count
    let mut out = [7; 5];
    assert_eq!(calls::tidy(&[0, 23, 36, 40, 44], &mut out), Ok(3));
    assert_eq!(out, [0, 23, 36, 7, 7]);
    // exactly long enough, and a word short
    let mut out = [7; 5];
    assert_eq!(calls::tidy(&[0, 23, 36, 40], &mut out[..2]), Err(Fault::ShortOutput));
    assert_eq!(calls::tidy(&[0], &mut out[..0]), Err(Fault::ShortOutput));
    assert_eq!(out, [7; 5]);
    assert_eq!(calls::tidy(&[0, 23, 36, 40], &mut out[..3]), Ok(3));
    assert_eq!(out, [0, 23, 36, 7, 7]);
    // all are idle, none is, one word
    assert_eq!(calls::tidy(&[1, 7, 11, u32::MAX], &mut out[1..2]), Ok(1));
    assert_eq!(out, [0, 1, 36, 7, 7]);
    assert_eq!(calls::tidy(&[1, 4, 9, u32::MAX - 2], &mut out), Ok(4));
    assert_eq!(out, [1, 4, 9, u32::MAX - 2, 7]);
    assert_eq!(calls::tidy(&[0], &mut out), Ok(1));
    assert_eq!(out, [0, 4, 9, u32::MAX - 2, 7]);
}

#[test]
fn faults() {
    let full: Vec<u32> = (0..257).map(|i| 4 * i).collect();
    let refused = |list: &[u32], fault| {
        for room in [0, 1, LIST_WORDS] {
            let mut out = vec![7; room];
            assert_eq!(calls::tidy(list, &mut out), Err(fault), "{list:?} {room}");
            assert_eq!(out, vec![7; room], "{list:?}");
        }
    };
    refused(&[], Fault::ListLength);
    refused(&full, Fault::ListLength);
    refused(&[&[2], &full[1..]].concat(), Fault::ListLength);
    refused(&[2], Fault::FirstWord);
    refused(&[u32::MAX, 4, 4], Fault::FirstWord);
    refused(&[0, 3], Fault::DateOrder);
    refused(&[0, 23, 21], Fault::DateOrder);
    // a word that would be dropped has a date too
    refused(&[0, 40, 39], Fault::DateOrder);
    refused(&[0, 23, 23], Fault::DateOrder);
    refused(&[0, 23, 19, 36], Fault::DateOrder);
    let mut out = [7; 2];
    assert_eq!(calls::tidy(&full[..256], &mut out[..1]), Ok(1));
    assert_eq!(out, [0, 7]);
}

fn tidied(text: &str) -> String {
    let once = text::tidy(text).unwrap();
    assert_eq!(text::tidy(&once).unwrap(), once);
    once
}

#[test]
fn notations() {
    // dropped
    assert_eq!(tidied("a : down, up from 5, up from 7, down from 9"), "a : down, up from 5, down from 9");
    assert_eq!(tidied("a : up, up at 5"), "a : up");
    assert_eq!(tidied("a : down, up from 5, down from 8, down after 9"), "a : down, up from 5, down from 8");
    assert_eq!(tidied("a : up, up from 5, up at 6, up after 7, down at 8, up from 9"), "a : up, down at 8");
    assert_eq!(tidied("a = 0 16 23 27 36"), "a = 0 23 36");
    assert_eq!(tidied("a = 1 7 4294967295"), "a = 1");
    // kept: they change the instant only, or what comes after it
    assert_eq!(tidied("a : down, up at 5"), "a : down, up at 5");
    assert_eq!(tidied("a : up, down at 3"), "a : up, down at 3");
    assert_eq!(tidied("a : down, up after 5, down after 6"), "a : down, up after 5, down after 6");
    assert_eq!(tidied("a = 0 22"), "a = 0 22");
    assert_eq!(tidied("a = 1 13 18"), "a = 1 13 18");
    assert_eq!(tidied("a = 1 4294967294"), "a = 1 4294967294");
    // each line written anew, in its own notation
    assert_eq!(tidied("  a:down ,up  from 05\t\n\tb=0   023  "), "a : down, up from 5\nb = 0 23");
}

#[test]
fn all_else_stays() {
    let old =
        "# old lists = of 2019\n\n  # knife : sideways\n \t \nknife : down, down from 5\r\n#\r\n\r\nneedle = 1\n\n\nno line feed = 0 20";
    let new = "# old lists = of 2019\n\n  # knife : sideways\n \t \nknife : down\r\n#\r\n\r\nneedle = 1\n\n\nno line feed = 0";
    assert_eq!(tidied(old), new);
    for text in ["", "\n", "\r\n", "# a", "#\n", "\n\n#\n"] {
        assert_eq!(tidied(text), text);
    }
    // names are not judged, nor counted
    for name in ["a", "A", "über", "a b  c", "", "0", "a, up from 5", "a name of more than eight letters"] {
        assert_eq!(tidied(&format!("{name} : up, up from 5\n")), format!("{name} : up\n"));
        assert_eq!(tidied(&format!("{name} = 1 23\n{name}=1")), format!("{name} = 1\n{name} = 1"));
    }
    assert_eq!(tidied("a:b = 1 23"), "a:b = 1");
    assert_eq!(tidied(&"a : up, up from 5\n".repeat(5000)), "a : up\n".repeat(5000));
}

// What is wrong with single pieces is told as of `read`, in tests/text.rs; here what tidying judges.
#[test]
fn wrong_texts() {
    let what = |t: &str| text::tidy(t).unwrap_err().to_string();
    let order = "the date of \"down from 9\" is not above 9, that of \"down from 9\" before it";
    assert_eq!(what("a : down, down from 9, down from 9"), format!("line 1, column 24: refused 3: {order}"));
    assert_eq!(what("A : down, up from 0"), "line 1, column 11: refused 3: the date of \"up from 0\" is 0, and dates begin at 1");
    assert_eq!(what("a ="), "line 1, column 4: refused 1: the list is empty: it has at least one word");
    assert_eq!(what("a = 2 2"), "line 1, column 5: refused 2: the word \"2\": the first word is 0 or 1");
    assert_eq!(what("a :"), "line 1, column 4: a change is missing here");
    // over 256 words, also where fewer are left
    let changes: String = (1..=256).map(|date| format!(", down from {date}")).collect();
    let words: String = (1..=256).map(|date| format!(" {}", 4 * date)).collect();
    let told = "is number 257 of its list, which has at most 256";
    assert_eq!(what(&format!("a : down{changes}")), format!("line 1, column {}: refused 1: \"down from 256\" {told}", changes.len() - 4));
    assert_eq!(what(&format!("\na = 0{words}")), format!("line 2, column {}: refused 1: \"1024\" {told}", words.len() + 2));
    assert_eq!(tidied(&format!("a : down{}", changes.replace(", down from 256", ""))), "a : down");
    // what is quoted of a long line is not long
    let long = what(&format!("a : down, {}", "ü".repeat(1_000_000)));
    assert_eq!(long, format!("line 1, column 11: \"{}\".. is neither `up` nor `down`", "ü".repeat(60)));
    // good and bad lines mixed
    let first = "refused 2: the word \"2\": the first word is 0 or 1";
    assert_eq!(
        what("a : up\nb = 2\n# c = 2\n\nd : up, up from 5\ne\nf = 0 23 23\n"),
        format!(
            "line 2, column 5: {first}\n\
             line 6, column 1: \"e\" is neither `NAME : changes` nor `NAME = words`\n\
             line 7, column 10: refused 3: the word \"23\": its date, 5, is not above the last, 5"
        )
    );
    // twenty, and more
    let twenty = what(&"a : up\na = 2\n".repeat(20));
    assert_eq!(twenty.lines().count(), 20);
    assert!(twenty.ends_with(&format!("\nline 40, column 5: {first}")));
    assert_eq!(what(&"a : up\na = 2\n".repeat(21)), format!("{twenty}\nand 1 more"));
    assert_eq!(what(&"a : up\na = 2\n".repeat(3000)), format!("{twenty}\nand 2980 more"));
}

/// A list as raw lists have it, with a count of its own.
fn counted(count: usize, words: &[u32]) -> Vec<u8> {
    let words = words.iter().flat_map(|word| word.to_le_bytes());
    (count as u16).to_le_bytes().into_iter().chain(words).collect()
}

fn raw_of(lists: &[Vec<u32>]) -> Vec<u8> {
    lists.iter().flat_map(|words| counted(words.len(), words)).collect()
}

/// The lists of raw lists that are whole.
fn lists_of(mut bytes: &[u8]) -> Vec<Vec<u32>> {
    let mut lists = Vec::new();
    while let [low, high, rest @ ..] = bytes {
        let (words, after) = rest.split_at(4 * u16::from_le_bytes([*low, *high]) as usize);
        lists.push(words.chunks(4).map(|b| u32::from_le_bytes(b.try_into().unwrap())).collect());
        bytes = after;
    }
    lists
}

#[test]
fn raw_lists() {
    let old = raw_of(&[vec![0, 16, 23, 27, 36], vec![1], vec![1, 7, u32::MAX], vec![0, 22]]);
    let new = raw_of(&[vec![0, 23, 36], vec![1], vec![1], vec![0, 22]]);
    assert_eq!(raw::tidy(&old).unwrap(), new);
    assert_eq!(raw::tidy(&new).unwrap(), new);
    assert_eq!(raw::tidy(&[]).unwrap(), []);
    assert!(raw::is_raw(&old) && raw::is_raw(&new) && !raw::is_raw(b"") && !raw::is_raw(b"a = 0\n"));
}

#[test]
fn wrong_raw_lists() {
    let what = |bytes: &[u8]| raw::tidy(bytes).unwrap_err().to_string();
    let full: Vec<u32> = (0..257).map(|i| 4 * i).collect();
    let length = |count: usize| format!("refused 1: {count} words, and a list has 1 to 256");
    assert_eq!(what(&counted(0, &[])), format!("list 1 at byte 0: {}", length(0)));
    assert_eq!(what(&counted(257, &full)), format!("list 1 at byte 0: {}", length(257)));
    assert_eq!(what(&counted(65535, &vec![0; 65535])), format!("list 1 at byte 0: {}", length(65535)));
    assert_eq!(what(&counted(1, &[2])), "list 1 at byte 0: refused 2: word 1 of 1, at byte 2, is 2: the first word is 0 or 1");
    assert_eq!(
        what(&counted(2, &[0, 3])),
        "list 1 at byte 0: refused 3: word 2 of 2, at byte 6, is 3: its date is 0, and dates begin at 1"
    );
    assert_eq!(
        what(&counted(4, &[0, 23, 23, 36])),
        "list 1 at byte 0: refused 3: word 3 of 4, at byte 10, is 23: its date, 5, is not above the last, 5"
    );
    assert_eq!(what(&counted(4, &[0, 23, 36])), "list 1 at byte 0: the file ends inside its words");
    // good and bad lists mixed: one that is refused hides none after it
    let mixed = [counted(1, &[1]), counted(257, &full), counted(2, &[0, 23]), counted(0, &[]), counted(1, &[3]), vec![9]].concat();
    assert_eq!(
        what(&mixed),
        format!(
            "list 2 at byte 6: {}\n\
             list 4 at byte 1046: {}\n\
             list 5 at byte 1048: refused 2: word 1 of 1, at byte 1050, is 3: the first word is 0 or 1\n\
             list 6 at byte 1054: the file ends inside its count",
            length(257),
            length(0)
        )
    );
    // twenty, and more
    let twenty = what(&[0; 40]);
    assert_eq!(twenty.lines().count(), 20);
    assert!(twenty.ends_with(&format!("\nlist 20 at byte 38: {}", length(0))));
    assert_eq!(what(&[0; 41]), format!("{twenty}\nand 1 more"));
    assert_eq!(what(&[0; 6000]), format!("{twenty}\nand 2980 more"));
}

/// How many of a list's words are dated at or before k.
fn passed(words: &[u32], k: u32) -> usize {
    1 + words[1..].partition_point(|word| word / 4 <= k)
}

/// The value in the gap between k and k + 1.
fn in_gap(words: &[u32], k: u32) -> u32 {
    words[passed(words, k) - 1] % 2
}

/// The value at the instant k, from 1.
fn at_instant(words: &[u32], k: u32) -> u32 {
    let last = words[passed(words, k) - 1];
    if last / 4 == k {
        last / 2 % 2
    } else {
        last % 2
    }
}

/// Both have one value at every moment at a date of either and beside it, and so at every moment.
fn one_signal(a: &[u32], b: &[u32]) {
    for word in a.iter().chain(b) {
        for k in (word / 4).saturating_sub(1)..=word / 4 + 1 {
            assert_eq!(in_gap(a, k), in_gap(b, k), "after {k}: {a:?} {b:?}");
            assert!(k == 0 || at_instant(a, k) == at_instant(b, k), "at {k}: {a:?} {b:?}");
        }
    }
}

/// A list with words of any values, of which about a quarter are idle.
fn any_list(random: &mut Random, count: usize, step: u32) -> Vec<u32> {
    let list = random.list(count, step);
    list[..1].iter().copied().chain(list[1..].iter().map(|word| word / 4 * 4 + random.below(4))).collect()
}

/// The same signal with idle words put in at dates that the list leaves free, as far as there is room.
fn stuffed(random: &mut Random, words: &[u32]) -> Vec<u32> {
    let mut stuffed = Vec::new();
    let mut room = LIST_WORDS - words.len();
    for (i, word) in words.iter().enumerate() {
        stuffed.push(*word);
        let (mut date, end) = (word / 4, words.get(i + 1).map_or(M + 1, |next| next / 4));
        while room > 0 && random.below(3) > 0 {
            date += 1 + random.below(2);
            if date >= end {
                break;
            }
            stuffed.push(4 * date + 3 * (word % 2));
            room -= 1;
        }
    }
    stuffed
}

/// A line of changes for any words; one that is idle is written in any way.
fn changes(random: &mut Random, words: &[u32]) -> String {
    let level = |value: u32| ["down", "up"][value as usize];
    let mut line = level(words[0]).to_string();
    let mut before = words[0];
    for word in &words[1..] {
        let (at, after) = (word / 2 % 2, word % 2);
        let (value, how) = match (at == before, after == before) {
            (true, true) => (before, ["from", "after", "at"][random.below(3) as usize]),
            (false, false) => (after, "from"),
            (true, false) => (after, "after"),
            (false, true) => (at, "at"),
        };
        line += &format!(", {} {how} {}", level(value), word / 4);
        before = after;
    }
    line
}

fn number_list(words: &[u32]) -> String {
    words.iter().map(u32::to_string).collect::<Vec<_>>().join(" ")
}

/// Tidies lists as raw lists and as a text in both notations: the words of each, all three the same, accepted, and of the same signal.
fn tidy_all(random: &mut Random, lists: &[Vec<u32>]) -> Vec<Vec<u32>> {
    let tidied = lists_of(&raw::tidy(&raw_of(lists)).unwrap());
    assert_eq!(tidied.len(), lists.len());
    let mut text = String::from("# random lists\n");
    let mut wanted = text.clone();
    for (i, (list, words)) in lists.iter().zip(&tidied).enumerate() {
        assert_eq!(calls::list_fault(words), Ok(()), "{list:?}");
        one_signal(list, words);
        tidy_into(list, words);
        text += &format!("s{i} = {}\ns : {}\n", number_list(list), changes(random, list));
        let shown = List::new(words).unwrap();
        wanted += &format!("s{i} = {}\ns : {shown}\n", number_list(words));
    }
    assert_eq!(self::tidied(&text), wanted);
    assert_eq!(lists_of(&raw::tidy(&raw_of(&tidied)).unwrap()), tidied);
    tidied
}

/// The call itself: the words into a longer output, into one just long enough, and none into one that is a word short.
fn tidy_into(list: &[u32], words: &[u32]) {
    const SEVENS: [u32; LIST_WORDS + 1] = [7; LIST_WORDS + 1];
    for room in [words.len(), LIST_WORDS + 1] {
        let mut out = SEVENS;
        assert_eq!(calls::tidy(list, &mut out[..room]), Ok(words.len()), "{list:?} {room}");
        assert_eq!((&out[..words.len()], &out[words.len()..]), (words, &SEVENS[words.len()..]), "{list:?} {room}");
    }
    let mut out = SEVENS;
    assert_eq!(calls::tidy(list, &mut out[..words.len() - 1]), Err(Fault::ShortOutput), "{list:?}");
    assert_eq!(out, SEVENS);
}

/// How many words a random list has.
fn some_count(random: &mut Random) -> usize {
    let most = [4, 24, 24, 120, 256][random.below(5) as usize];
    1 + random.below(most) as usize
}

#[test]
fn random_lists() {
    let mut random = Random(3);
    let mut lists = Vec::new();
    for round in 0..4000 {
        let (count, step) = (some_count(&mut random), 1 + random.below(4));
        let list = any_list(&mut random, count, step);
        // every other one ends at M
        let last = list[list.len() - 1] / 4;
        lists.push(if round % 2 == 0 { list } else { later(&list, M - last) });
    }
    let tidied = tidy_all(&mut random, &lists);
    let shorter = lists.iter().zip(&tidied).filter(|(list, words)| words.len() < list.len()).count();
    assert!(shorter > 2000 && shorter < 4000);
}

#[test]
fn two_lists_of_one_signal() {
    let mut random = Random(4);
    let (mut normal, mut lists) = (Vec::new(), Vec::new());
    for round in 0..1500 {
        let (count, step) = (some_count(&mut random), 1 + random.below(4));
        let list = random.list(count, step);
        let last = list[list.len() - 1] / 4;
        let list = if round % 2 == 0 { list } else { later(&list, M - 40 - last) };
        for _ in 0..2 {
            lists.push(stuffed(&mut random, &list));
            normal.push(list.clone());
        }
    }
    assert_eq!(tidy_all(&mut random, &lists), normal);
    let unlike = lists.chunks(2).filter(|pair| pair[0] != pair[1]).count();
    assert!(unlike > 1000);
}

struct Tool {
    dir: PathBuf,
    to: PathBuf,
}

impl Tool {
    fn new(name: &str) -> Tool {
        let dir = folder(name);
        Tool { to: dir.join("out"), dir }
    }

    fn from(&self, bytes: impl AsRef<[u8]>) -> PathBuf {
        let from = self.dir.join("in");
        fs::write(&from, bytes).unwrap();
        from
    }

    fn tidies(&self, bytes: impl AsRef<[u8]>, wanted: impl AsRef<[u8]>) {
        let got = sheet(&[Path::new("tidy"), &self.from(bytes), &self.to]);
        assert_eq!((got.status.code(), got.stdout, got.stderr), (Some(0), vec![], vec![]));
        assert_eq!(fs::read(&self.to).unwrap(), wanted.as_ref());
        fs::remove_file(&self.to).unwrap();
    }

    /// Nothing is written, whether the output is there or not; what is said, without the name of the file.
    fn refuses(&self, from: &Path) -> String {
        let run = || sheet(&[Path::new("tidy"), from, &self.to]);
        let got = run();
        assert_eq!((got.status.code(), got.stdout), (Some(1), vec![]));
        assert!(!self.to.exists());
        fs::write(&self.to, "before").unwrap();
        assert_eq!(run().stderr, got.stderr);
        assert_eq!(fs::read(&self.to).unwrap(), b"before");
        fs::remove_file(&self.to).unwrap();
        let left: Vec<_> = fs::read_dir(&self.dir).unwrap().map(|file| file.unwrap().file_name()).collect();
        assert_eq!(left, ["in"]);
        String::from_utf8(got.stderr).unwrap().replace(&format!("sheet: {}: ", from.display()), "")
    }
}

impl Drop for Tool {
    fn drop(&mut self) {
        let _ = fs::remove_dir_all(&self.dir);
    }
}

#[test]
fn the_tool() {
    let tool = Tool::new("tidy");
    tool.tidies("\u{feff}a : down, up from 5,\r\n    up from 7\r\nb = 0\r\n", "\u{feff}a : down, up from 5\r\nb = 0\r\n");
    tool.tidies("# old\na : down, up from 5, up from 7\r\n\nB = 1 7", "# old\na : down, up from 5\r\n\nB = 1");
    tool.tidies(raw_of(&[vec![0, 20], vec![1, 20, 24]]), raw_of(&[vec![0], vec![1, 20]]));
    tool.tidies("", "");
    // 10,000 lists of 256 words
    let full: Vec<u32> = (0..256).map(|i| 4 * i + 3 * (i / 2 % 2)).collect();
    let half: Vec<u32> = (0..256).filter(|i| i % 2 == 0).map(|i| 4 * i + 3 * (i / 2 % 2)).collect();
    tool.tidies(raw_of(&vec![full; 10_000]), raw_of(&vec![half; 10_000]));

    let said = |bytes: &[u8]| tool.refuses(&tool.from(bytes));
    assert_eq!(
        said(b"a : up\nb = 2\nc = 0 23 23\n"),
        "line 2, column 5: refused 2: the word \"2\": the first word is 0 or 1\n\
         line 3, column 10: refused 3: the word \"23\": its date, 5, is not above the last, 5\n"
    );
    assert_eq!(
        said(&[0; 2]),
        "byte 0 is 0, so these are raw lists and no text\nlist 1 at byte 0: refused 1: 0 words, and a list has 1 to 256\n"
    );
    let many = said(&b"a = 2\n".repeat(23));
    assert_eq!(many.lines().count(), 21);
    assert!(
        many.starts_with("line 1, column 5: refused 2")
            && many.contains("\nline 20, column 5: refused 2")
            && many.ends_with("\nand 3 more\n")
    );
    assert_eq!(said(b"a = 0\n\xff = 0\n"), "line 2, column 1: byte 6 of the file, 0xff, is no UTF-8; save the text as UTF-8\n");
    assert_eq!(said(b"\xfe\xff\0a"), "line 1, column 1: the file is in UTF-16; save the text as UTF-8\n");
    assert_eq!(said(b"SGL\x01\0\0\0"), "is a sheet and no text; `sheet show` prints it as one\n");
    assert_eq!(said(b"SGL = 0 2\n"), "line 1, column 9: refused 3: the word \"2\": its date is 0, and dates begin at 1\n");
    // too long: the file has a hole, so it takes no place
    fs::File::create(tool.dir.join("in")).unwrap().set_len((256 << 20) + 1).unwrap();
    assert_eq!(tool.refuses(&tool.dir.join("in")), "over 268435456 bytes, too long\n");
}

#[test]
fn raw_lists_that_are_cut() {
    let tool = Tool::new("cut");
    let lists = [vec![0, 16, 23], vec![1], vec![0, 22, 38]];
    let (old, ends) = (raw_of(&lists), [0, 14, 20, 34]);
    for cut in 0..=old.len() {
        let bytes = &old[..cut];
        if let Some(whole) = ends.iter().position(|&end| end == cut) {
            tool.tidies(bytes, raw_of(&[vec![0, 23], vec![1], vec![0, 22, 38]][..whole]));
            continue;
        }
        let said = tool.refuses(&tool.from(bytes));
        let (list, byte) = ends.iter().enumerate().rfind(|(_, &end)| end < cut).unwrap();
        let part = if cut == byte + 1 { "count" } else { "words" };
        // a file of a byte that is not 0 is a text
        let raw =
            format!("byte 1 is 0, so these are raw lists and no text\nlist {} at byte {byte}: the file ends inside its {part}\n", list + 1);
        assert_eq!(said, if cut == 1 { "line 1, column 1: \"\\u{3}\" is neither `NAME : changes` nor `NAME = words`\n" } else { &raw });
    }
}
