// The binary `claims`: drawers good and bad, thousands of claims, JSON read back, what it says of one claim.
#[allow(dead_code)] // of these, each test takes what it needs
mod random;
#[allow(dead_code)]
mod tool;

use random::Random;
use rascrunel::{Checker, Sheet};
use std::collections::BTreeMap;
use std::ffi::{OsStr, OsString};
use std::fs;
use std::io::{Read, Write};
use std::os::unix::ffi::OsStringExt;
use std::os::unix::fs::OpenOptionsExt;
use std::path::{Path, PathBuf};
use std::process::{Child, Command, Output, Stdio};
use std::time::{Duration, Instant};
use tool::folder;

fn command(args: &[impl AsRef<OsStr>]) -> Command {
    let mut command = Command::new(env!("CARGO_BIN_EXE_claims"));
    command.args(args);
    command
}

/// What was printed, what was said on standard error, and the status.
fn told(output: Output) -> (String, String, i32) {
    let [out, said] = [output.stdout, output.stderr].map(|bytes| String::from_utf8(bytes).unwrap());
    (out, said, output.status.code().unwrap())
}

fn claims(args: &[impl AsRef<OsStr>]) -> (String, String, i32) {
    told(command(args).stdin(Stdio::null()).output().unwrap())
}

/// A folder with the sheet a.sgl of the signals a, up from 5 to before 9, and needle, and a drawer of these lines.
struct Drawer {
    folder: PathBuf,
    file: PathBuf,
}

impl Drawer {
    fn new(name: &str, lines: impl AsRef<[u8]>) -> Drawer {
        let folder = folder(name);
        fs::write(folder.join("a.sgl"), sheet().bytes()).unwrap();
        let drawer = Drawer { file: folder.join("drawer.txt"), folder };
        fs::write(&drawer.file, lines).unwrap();
        drawer
    }

    fn run(&self, options: &[&str]) -> (String, String, i32) {
        let args: Vec<&OsStr> = options.iter().map(OsStr::new).chain([self.file.as_os_str()]).collect();
        claims(&args)
    }
}

impl Drop for Drawer {
    fn drop(&mut self) {
        let _ = fs::remove_dir_all(&self.folder);
    }
}

fn sheet() -> Sheet {
    Sheet::begin().unwrap().append("a", &[0, 23, 36]).unwrap().append("needle", &[1]).unwrap()
}

/// All but the last line, and the last without its time.
fn parted(out: &str) -> (Vec<&str>, &str) {
    let mut lines: Vec<&str> = out.lines().collect();
    let last = lines.pop().unwrap();
    let (total, time) = last.rsplit_once("; ").unwrap();
    assert!(time.strip_suffix(" s").is_some_and(|seconds| seconds.parse::<f64>().is_ok()), "{last}");
    (lines, total)
}

#[test]
fn the_examples() {
    let file = Path::new(env!("CARGO_MANIFEST_DIR")).join("../../examples/claims.txt");
    let (out, said, status) = claims(&[&file]);
    let (lines, total) = parted(&out);
    let text = fs::read_to_string(&file).unwrap();
    let wanted = text.lines().enumerate().filter(|(_, line)| !line.starts_with('#'));
    let wanted: Vec<String> = wanted
        .map(|(i, line)| {
            let words: Vec<&str> = line.splitn(4, ' ').collect();
            format!("line {}: {}: {}", i + 1, words[..3].join(" "), words[3])
        })
        .collect();
    assert_eq!(lines, wanted);
    let n = lines.len();
    assert!(n >= 12 && total.starts_with(&format!("{n} claims: ")) && total.ends_with(&format!("; {n} as expected, 0 differ")), "{total}");
    assert_eq!((said.as_str(), status), ("", 0));
}

#[test]
fn lines_of_all_kinds() {
    let drawer = Drawer::new(
        "kinds",
        "\u{feff}# first\r\na.sgl TON(2,a) a holds\r\n\r\n  \t# blanks before\n\
         \ta.sgl   a\tTON(2,a)   fails  at 5\r\na.sgl a TON(2,a) fails at 5 until before\na.sgl a TON(2,a) fails at 50\n\
         a.sgl a knife\n./a.sgl a needle\na.sgl a+ a refused\na.sgl a knife refused 11\na.sgl ^a 0",
    );
    let (out, said, status) = drawer.run(&[]);
    let (lines, total) = parted(&out);
    let fails = "a.sgl a TON(2,a): fails at 5 until before 7";
    let operand = "a name, `0`, `1`, `!`, `^`, `~`, `(`, `SR`, `RS`, `TON`, `TOF` or `TP`";
    let wanted = [
        "line 2: a.sgl TON(2,a) a: holds".to_string(),
        format!("line 5: {fails}"),
        format!("line 6: {fails}"),
        format!("line 7: {fails}, expected fails at 50"),
        "line 8: a.sgl a knife: refused 13: G: the sheet has no signal named \"knife\", without expectation".to_string(),
        "line 9: ./a.sgl a needle: holds".to_string(),
        format!("line 10: a.sgl a+ a: refused 11: F: the formula is cut short at byte 2: expected {operand}"),
        "line 11: a.sgl a knife: refused 13: G: the sheet has no signal named \"knife\", expected refused 11".to_string(),
        "line 12: a.sgl ^a 0: fails at 5 until 5, without expectation".to_string(),
    ];
    assert_eq!(lines, wanted);
    assert_eq!(total, "9 claims: 2 hold, 4 fail, 3 refused; 4 as expected, 2 differ; 3 without expectation, 2 of them not holding");
    assert_eq!((said.as_str(), status), ("", 1));
    // quiet: what is not as it should be
    let (out, _, status) = drawer.run(&["--quiet"]);
    assert_eq!(parted(&out).0, [3, 4, 7, 8].map(|i| wanted[i].as_str()));
    assert_eq!(status, 1);
}

#[test]
fn statuses() {
    let status = |lines: &str| {
        let drawer = Drawer::new("statuses", lines);
        drawer.run(&[]).2
    };
    for good in ["", "# nothing\n", "a.sgl a a\n", "a.sgl a 0 fails\n", "a.sgl a b refused 13", "a.sgl 1 0 fails after 0 for good\n"] {
        assert_eq!(status(good), 0, "{good}");
    }
    for differs in
        ["a.sgl a 0\n", "a.sgl a b\n", "a.sgl a a fails\n", "a.sgl a 0 holds\n", "a.sgl a 0 fails after\n", "a.sgl a b refused 1\n"]
    {
        assert_eq!(status(differs), 1, "{differs}");
    }
    for trouble in ["a.sgl a\n", "a.sgl\n", "a.sgl a a yes\n", "b.sgl a a\n", "a.sgl a 0 holds\na.sgl a", ". a a\n"] {
        assert_eq!(status(trouble), 2, "{trouble}");
    }
}

/// Expectations: beginnings of verdicts in whole words, and nothing else, with the column of the first word that makes it none.
#[test]
fn expectations() {
    let good = ["holds", "fails", "fails at", "fails after", "fails at 5", "fails after 0", "fails at 5 until", "fails at 5 until 7"];
    let good = good.into_iter().chain(["fails at 5 until before", "fails at 5 until before 7", "fails at 5 for", "fails at 5 for good"]);
    for expected in good.chain(["refused", "refused 13", "fails at 1073741823 until 1073741823"]) {
        let drawer = Drawer::new("expectations", format!("a.sgl 1 0 {expected}\n"));
        let (out, said, status) = drawer.run(&[]);
        let met = "fails after 0 for good".starts_with(expected);
        assert_eq!((said.as_str(), status), ("", if met { 0 } else { 1 }), "{expected}");
        assert_eq!(out.contains(&format!("for good, expected {expected}\n")), !met, "{out}");
    }
    // the column is that of the word in the line
    let bad = [("hold", 11), ("holds good", 17), ("fail", 11), ("fails on", 17), ("fails at 05", 20), ("fails at k", 20), ("Holds", 11)];
    let bad = bad.into_iter().chain([("fails at 5 until before before", 35), ("fails at 5 until 7 8", 30), ("fails 5", 17), ("# why", 11)]);
    let bad = bad.chain([("refused 0", 19), ("refused 13 11", 22), ("fails at 4294967296", 20), ("fails at 5 good", 22), ("nädel", 11)]);
    for (expected, column) in bad {
        let drawer = Drawer::new("expectations", format!("# ü\nä.sgl 1 0 {expected}\na.sgl a a\n"));
        let (out, said, status) = drawer.run(&[]);
        let word: String = format!("ä.sgl 1 0 {expected}").chars().skip(column - 1).take_while(|&c| c != ' ').collect();
        let wanted = format!("drawer.txt: line 2, column {column}: \"{word}\" in what is expected: ");
        assert!(said.contains(&wanted) && status == 2, "{expected}: {said}");
        // the others are run
        assert_eq!(
            parted(&out),
            (
                vec!["line 3: a.sgl a a: holds"],
                "1 claim: 1 hold, 0 fail, 0 refused; 0 as expected, 0 differ; 1 without expectation, 0 of them not holding; 1 not run"
            )
        );
    }
}

#[test]
fn troubles() {
    let drawer = Drawer::new("troubles", "a.sgl a a\na.sgl  a \nnone.sgl a a\na.sgl\nnone.sgl a b\na.sgl a 0 fails\n");
    let (out, said, status) = drawer.run(&[]);
    assert_eq!(parted(&out).0, ["line 1: a.sgl a a: holds", "line 6: a.sgl a 0: fails at 5 until before 9"]);
    let file = drawer.file.display();
    let missing = format!("the sheet {} cannot be read: No such file or directory (os error 2)", drawer.folder.join("none.sgl").display());
    let rule = "a line is SHEET F G, and EXPECTED where one is";
    let wanted = format!(
        "claims: {file}: line 2, column 9: G is missing: {rule}\nclaims: {file}: line 3, column 1: {missing}\n\
         claims: {file}: line 4, column 6: F is missing: {rule}\nclaims: {file}: line 5, column 1: {missing}\n"
    );
    assert_eq!((said, status), (wanted, 2));
    // many: the first twenty, and how many more
    let drawer = Drawer::new("troubles", "a.sgl a\n".repeat(50) + "a.sgl a a\n");
    let (out, said, status) = drawer.run(&[]);
    assert_eq!(said.lines().count(), 21);
    assert!(said.ends_with("and 30 lines more that cannot be run\n") && status == 2);
    assert!(out.starts_with("line 51: a.sgl a a: holds\n1 claim: ") && out.contains("; 50 not run; "));
}

#[test]
fn wrong_use() {
    let none: [&str; 0] = [];
    for (args, what) in [
        (none.as_slice(), "no FILE is given"),
        (&["--jsno", "x"], "\"--jsno\" is no option"),
        (&["a", "b"], "more than one FILE"),
        (&["--why", "a", "b"], "--why takes F, G and SHEETFILE"),
    ] {
        let (out, said, status) = claims(args);
        assert_eq!((out.as_str(), status), ("", 2));
        assert!(said.starts_with(&format!("claims: {what}")) && said.contains("Exit status"), "{said}");
    }
    let (out, said, status) = claims(&["--help"]);
    assert!(out.contains("claims --why F G SHEETFILE") && said.is_empty() && status == 0);
    let words = out.split_whitespace().collect::<Vec<_>>().join(" ");
    assert!(
        words.contains("Bytes are counted from 0; lines, columns, signals, words and parts from 1.")
            && words.contains("`without expectation`")
    );
    let (out, said, status) = claims(&["/none/such"]);
    assert_eq!((out.as_str(), said.as_str(), status), ("", "claims: /none/such: No such file or directory (os error 2)\n", 2));
    let (_, said, status) = claims(&["/"]);
    assert_eq!((said.as_str(), status), ("claims: /: Is a directory (os error 21)\n", 2));
}

/// Other files given as a drawer: said in words, and nothing is run.
#[test]
fn files_that_are_no_drawers() {
    let sheet = Vec::from(sheet());
    let utf16 = |text: &str| text.encode_utf16().flat_map(u16::to_le_bytes).collect::<Vec<u8>>();
    let in_utf16 = "the file is in UTF-16; save the text as UTF-8";
    let is_sheet = "is a sheet and no drawer of claims; `sheet show` prints it as a text";
    let zero = "has a zero byte, and a drawer of claims has none: it is a text";
    for (bytes, what) in [
        (utf16("\u{feff}a.sgl a a\r\n"), in_utf16),
        (b"\xfe\xff\0a\0.".to_vec(), in_utf16),
        (sheet.clone(), is_sheet),
        (sheet[..6].to_vec(), is_sheet),
        (utf16("a.sgl a a\r\n"), zero),
        (b"a.sgl a a\n\0".to_vec(), zero),
        (b"\x7fELF\x02\x01\x01\0".to_vec(), zero),
    ] {
        let drawer = Drawer::new("other", &bytes);
        for options in [&[][..], &["--json"], &["--quiet"]] {
            assert_eq!(drawer.run(options), (String::new(), format!("claims: {}: {what}\n", drawer.file.display()), 2));
        }
        let mut child = command(&["-"]).stdin(Stdio::piped()).stdout(Stdio::piped()).stderr(Stdio::piped()).spawn().unwrap();
        child.stdin.take().unwrap().write_all(&bytes).unwrap();
        assert_eq!(told(child.wait_with_output().unwrap()), (String::new(), format!("claims: standard input: {what}\n"), 2));
    }
    // a folder may have the name of the mark, and a formula any other byte
    let drawer = Drawer::new("other", b"SGL/a.sgl a a\nSGL/a.sgl a \xff\xfe refused 11\n");
    fs::create_dir(drawer.folder.join("SGL")).unwrap();
    fs::write(drawer.folder.join("SGL/a.sgl"), sheet).unwrap();
    assert_eq!(drawer.run(&[]).2, 0);
}

#[test]
fn sheets_that_are_refused() {
    let drawer = Drawer::new("refused", "text a a refused 14\nbad a+ b\nbad a b refused 17\n");
    fs::write(drawer.folder.join("text"), "needle : down\n").unwrap();
    let mut bad = Vec::from(sheet());
    bad[25] = 21;
    fs::write(drawer.folder.join("bad"), bad).unwrap();
    let (out, said, status) = drawer.run(&[]);
    let why = "refused 17: signal 1 of 2, \"a\": word 3 of 3, at byte 25, is 21: its date, 5, is not above the last, 5";
    let text = "refused 14: a text and no sheet, it begins \"needle : down\"; `sheet make TEXT SHEET` makes a sheet of a text";
    assert_eq!(
        parted(&out).0,
        [format!("line 1: text a a: {text}"), format!("line 2: bad a+ b: {why}, without expectation"), format!("line 3: bad a b: {why}")]
    );
    assert_eq!((said.as_str(), status), ("", 1));
}

// So long is waited for what should take a moment.
const PATIENCE: Duration = Duration::from_secs(20);

// What is told at the end of a child, which is not waited for without end.
fn ended(mut child: Child, what: &str) -> (String, String, i32) {
    let began = Instant::now();
    while child.try_wait().unwrap().is_none() {
        if began.elapsed() > PATIENCE {
            child.kill().unwrap();
            panic!("{what}");
        }
        std::thread::sleep(Duration::from_millis(5));
    }
    told(child.wait_with_output().unwrap())
}

// A named pipe, opened for writing as soon as this child, or one of its own, reads it.
fn opened(pipe: &Path, child: &mut Child) -> fs::File {
    const O_NONBLOCK: i32 = 0o4000;
    let began = Instant::now();
    loop {
        match fs::File::options().write(true).custom_flags(O_NONBLOCK).open(pipe) {
            Ok(file) => return file,
            Err(_) if child.try_wait().unwrap().is_none() && began.elapsed() < PATIENCE => std::thread::sleep(Duration::from_millis(5)),
            Err(e) => {
                let _ = child.kill();
                panic!("the sheet is not read: {e}");
            }
        }
    }
}

/// A sheet is read once: a named pipe gives its bytes to one reader only.
#[test]
fn a_sheet_is_read_once() {
    let drawer = Drawer::new("once", "pipe a a\npipe a needle\n./pipe 1 0 fails\npipe a b refused\n");
    let pipe = drawer.folder.join("pipe");
    assert!(Command::new("mkfifo").arg(&pipe).status().unwrap().success());
    let mut child = command(&[&drawer.file]).stdout(Stdio::piped()).spawn().unwrap();
    opened(&pipe, &mut child).write_all(sheet().bytes()).unwrap();
    // where it is opened again, there is no writer
    let (out, _, status) = ended(child, "the sheet is read again");
    assert_eq!((parted(&out).0.len(), status), (4, 0));
}

#[test]
fn standard_input() {
    let drawer = Drawer::new("input", "");
    let mut child = command(&["-"]).current_dir(&drawer.folder).stdin(Stdio::piped()).stdout(Stdio::piped()).spawn().unwrap();
    child.stdin.take().unwrap().write_all(b"a.sgl a a holds\n").unwrap();
    let (out, _, status) = told(child.wait_with_output().unwrap());
    assert_eq!((parted(&out).0, status), (vec!["line 1: a.sgl a a: holds"], 0));
}

/// A JSON value, as far as the drawer has them.
#[derive(Clone, Debug, PartialEq)]
enum Json {
    Null,
    Bool(bool),
    Number(f64),
    String(String),
    Object(BTreeMap<String, Json>),
}

impl Json {
    fn read(text: &str) -> Json {
        let mut rest = text;
        let value = Json::value(&mut rest);
        assert_eq!(rest, "", "{text}");
        value
    }

    fn value(rest: &mut &str) -> Json {
        let words = [("null", Json::Null), ("true", Json::Bool(true)), ("false", Json::Bool(false))];
        if let Some((word, value)) = words.into_iter().find(|(word, _)| rest.starts_with(word)) {
            *rest = &rest[word.len()..];
            return value;
        }
        match rest.as_bytes()[0] {
            b'"' => Json::String(Json::string(rest)),
            b'{' => Json::object(rest),
            _ => {
                let end = rest.find(|c: char| !c.is_ascii_digit() && c != '.').unwrap_or(rest.len());
                let number = rest[..end].parse().unwrap_or_else(|_| panic!("{rest}"));
                *rest = &rest[end..];
                Json::Number(number)
            }
        }
    }

    fn string(rest: &mut &str) -> String {
        let mut text = String::new();
        let mut chars = rest.char_indices();
        assert_eq!(chars.next().map(|(_, c)| c), Some('"'), "{rest}");
        while let Some((at, c)) = chars.next() {
            match c {
                '"' => {
                    *rest = &rest[at + 1..];
                    return text;
                }
                '\\' => text.push(match chars.next().unwrap().1 {
                    'u' => {
                        let hex: String = (0..4).map(|_| chars.next().unwrap().1).collect();
                        char::from_u32(u32::from_str_radix(&hex, 16).unwrap()).unwrap()
                    }
                    c @ ('"' | '\\') => c,
                    c => panic!("escaped {c:?}"),
                }),
                c => {
                    assert!(!c.is_control(), "{c:?}");
                    text.push(c);
                }
            }
        }
        panic!("a string without end");
    }

    fn object(rest: &mut &str) -> Json {
        let mut members = BTreeMap::new();
        *rest = &rest[1..];
        while !rest.starts_with('}') {
            if !members.is_empty() {
                *rest = rest.strip_prefix(',').unwrap();
            }
            let key = Json::string(rest);
            *rest = rest.strip_prefix(':').unwrap();
            assert!(members.insert(key, Json::value(rest)).is_none(), "a key twice");
        }
        *rest = &rest[1..];
        Json::Object(members)
    }

    /// What stands at a path of keys.
    fn at(&self, path: &str) -> &Json {
        path.split('.').fold(self, |value, key| match value {
            Json::Object(members) => members.get(key).unwrap_or(&Json::Null),
            value => panic!("{value:?} has no {key}"),
        })
    }

    fn text(&self, path: &str) -> &str {
        match self.at(path) {
            Json::String(text) => text,
            value => panic!("{path}: {value:?}"),
        }
    }

    fn number(&self, path: &str) -> usize {
        match self.at(path) {
            Json::Number(number) => *number as usize,
            value => panic!("{path}: {value:?}"),
        }
    }
}

#[test]
fn json() {
    let lines: &[&[u8]] = &[
        b"a.sgl a TON(2,a) holds",
        b"a.sgl ^a 0",
        b"a.sgl 1 0",
        b"a.sgl \"a\\\x1b\x7f a refused 11",
        b"a.sgl n\xc3\xa4del a\xffb",
        b"no\xff\"ne.sgl a a",
        b"a.sgl a",
        b"bad a a refused",
        b"a.sgl a a.TOF(1073741823,a) refused 6",
        b"a.sgl a TON(99999999999,a)",
        b"a.sgl a a.knife holds",
    ];
    let drawer = Drawer::new("json", lines.join(&b'\n'));
    let mut bad = Vec::from(sheet());
    bad[25] = 21;
    fs::write(drawer.folder.join("bad"), bad).unwrap();
    let (out, _, status) = drawer.run(&["--json"]);
    let objects: Vec<Json> = out.lines().map(Json::read).collect();
    assert_eq!((objects.len(), status), (12, 2));
    for (i, object) in objects[..11].iter().enumerate() {
        assert_eq!(object.number("line"), i + 1);
        // what is given comes back
        let words: Vec<&[u8]> = lines[i].split(|&b| b == b' ').collect();
        for (key, word) in ["sheet", "f", "g"].into_iter().zip(words) {
            if matches!(object.at("trouble"), Json::String(_)) {
                continue;
            }
            assert_eq!(object.text(key), String::from_utf8_lossy(word));
            match object.at(&format!("{key}_hex")) {
                Json::String(hex) => {
                    let bytes: Vec<u8> = (0..hex.len() / 2).map(|k| u8::from_str_radix(&hex[2 * k..2 * k + 2], 16).unwrap()).collect();
                    assert_eq!(bytes, word);
                    assert!(std::str::from_utf8(word).is_err());
                }
                _ => assert!(std::str::from_utf8(word).is_ok()),
            }
        }
    }
    let [fails, flicker, good, quoted, bytes, missing, short, bad, part, long, name, total] = objects.as_slice() else { panic!() };
    assert_eq!(
        (fails.text("verdict"), fails.text("expected"), fails.at("met")),
        ("fails at 5 until before 7", "holds", &Json::Bool(false))
    );
    assert_eq!((fails.number("fails.at"), fails.number("fails.until_before")), (5, 7));
    assert_eq!((flicker.number("fails.at"), flicker.number("fails.until"), flicker.at("met")), (5, 5, &Json::Null));
    assert_eq!((good.number("fails.after"), good.at("fails.for_good"), good.at("expected")), (0, &Json::Bool(true), &Json::Null));
    assert_eq!((quoted.number("fault"), quoted.text("where.formula"), quoted.number("where.byte")), (11, "F", 0));
    assert_eq!((quoted.text("verdict"), quoted.at("met")), ("refused 11", &Json::Bool(true)));
    assert_eq!((bytes.number("fault"), bytes.text("where.formula"), bytes.number("where.byte")), (11, "F", 1));
    assert!(missing.text("trouble").contains("no\\xff\"ne.sgl cannot be read") && missing.number("column") == 1);
    assert!(short.text("trouble").starts_with("G is missing") && short.number("column") == 8);
    assert_eq!((bad.number("where.byte"), bad.number("where.signal"), bad.text("where.name"), bad.number("where.word")), (25, 1, "a", 3));
    assert_eq!((bad.at("where.sheet"), bad.number("where.value"), bad.at("met")), (&Json::Bool(true), 21, &Json::Bool(true)));
    assert_eq!((part.text("where.part"), part.number("where.number"), part.number("where.of")), ("TOF(1073741823,a)", 3, 4));
    assert_eq!((long.text("where.length"), long.number("where.byte"), long.text("where.formula")), ("99999999999", 4, "G"));
    assert_eq!((name.text("where.name"), name.text("why")), ("knife", "refused 13: G: the sheet has no signal named \"knife\""));
    let count = |key: &str| total.number(&format!("total.{key}"));
    assert_eq!([count("claims"), count("hold"), count("fail"), count("refused")], [9, 0, 3, 6]);
    assert_eq!(
        [count("as_expected"), count("differ"), count("without_expectation"), count("of_them_not_holding"), count("not_run")],
        [3, 2, 4, 4, 2]
    );
    assert!(matches!(total.at("total.seconds"), Json::Number(_)));
    // a path that is no text
    let path = drawer.folder.join(OsString::from_vec(b"dr\xffawer".to_vec()));
    fs::write(&path, "a.sgl a\n").unwrap();
    let said = claims(&[&path]).1;
    assert!(said.contains("dr\\xffawer: line 1, column 8: G is missing"), "{said}");
}

/// Thousands of claims on several sheets, each verdict and total compared with the calls; in the time of a few seconds at most.
#[test]
fn thousands() {
    let drawer = Drawer::new("thousands", "");
    let mut random = Random(31);
    let sheets: Vec<(String, Sheet)> = (0..7)
        .map(|i| {
            let mut sheet = Sheet::begin().unwrap();
            for signal in 0..1 + 3 * i {
                let count = 1 + random.below(60) as usize;
                sheet = sheet.append(&format!("s{signal}"), &random.list(count, 5)).unwrap();
            }
            let name = format!("sheet{i}.sgl");
            fs::write(drawer.folder.join(&name), sheet.bytes()).unwrap();
            (name, sheet)
        })
        .collect();
    let mut formula = || {
        let [a, b, d] = [4, 4, 9].map(|n| random.below(n));
        let shapes =
            [format!("s{a}"), format!("TON({d},s{a})"), format!("s{a}.!s{b}"), format!("SR(s{a},TOF({d},s{b}))+s{b}"), format!("^s{a}+")];
        shapes[random.below(20).min(4 + random.below(2)) as usize % 5].clone()
    };
    let mut checker = Checker::new();
    let (mut lines, mut wanted) = (String::new(), Vec::new());
    let mut kinds = BTreeMap::new();
    for i in 0..10_000 {
        let ((name, sheet), f, g) = (&sheets[i % 7], formula(), formula());
        let answer = checker.claim(sheet, &f, &g);
        let line = answer.as_ref().map_or_else(|refusal| format!("refused {}", refusal.fault.number()), |verdict| verdict.to_string());
        *kinds.entry(line.split(' ').next().unwrap().to_string()).or_insert(0) += 1;
        let words = answer.map_or_else(|refusal| refusal.to_string(), |verdict| verdict.to_string());
        // one of ten is expected wrongly
        let expected = if i % 10 == 9 { "fails at 1 until before 1" } else { &line };
        lines += &format!("{name} {f} {g} {expected}\n");
        let differs = if i % 10 == 9 { format!(", expected {expected}") } else { String::new() };
        wanted.push(format!("line {}: {name} {f} {g}: {words}{differs}", i + 1));
    }
    fs::write(&drawer.file, lines).unwrap();
    let began = Instant::now();
    let (out, said, status) = drawer.run(&[]);
    let took = began.elapsed();
    let (told, total) = parted(&out);
    assert!(told == wanted, "{:?}", told.iter().zip(&wanted).find(|(a, b)| a != b));
    let count = |kind: &str| kinds.get(kind).copied().unwrap_or(0);
    let [holds, fails, refused] = ["holds", "fails", "refused"].map(count);
    assert!(holds > 500 && fails > 500 && refused > 500, "{kinds:?}");
    assert_eq!(total, format!("10000 claims: {holds} hold, {fails} fail, {refused} refused; 9000 as expected, 1000 differ"));
    assert_eq!((said.as_str(), status), ("", 1));
    assert!(took < Duration::from_secs(10), "{took:?}");
}

/// An output that is closed, full, or given up by its reader: trouble, told once.
#[test]
fn output_that_cannot_be_written() {
    let drawer = Drawer::new("output", "a.sgl a a\n".repeat(20_000));
    let shell = |redirected: &str| {
        let script = format!("\"$0\" \"$1\" {redirected}");
        told(Command::new("sh").args(["-c", &script, env!("CARGO_BIN_EXE_claims")]).arg(&drawer.file).output().unwrap())
    };
    let (_, said, status) = shell(">/dev/full");
    assert_eq!((said.as_str(), status), ("claims: standard output: No space left on device (os error 28)\n", 2));
    let (_, said, status) = shell(">&-");
    assert_eq!((said.as_str(), status), ("claims: standard output: closed\n", 2));
    let mut child = command(&[&drawer.file]).stdout(Stdio::piped()).stderr(Stdio::piped()).spawn().unwrap();
    let mut first = [0; 10];
    child.stdout.take().unwrap().read_exact(&mut first).unwrap();
    let (_, said, status) = told(child.wait_with_output().unwrap());
    assert_eq!((said.as_str(), status), ("claims: standard output: Broken pipe (os error 32)\n", 2));
    // without standard error it ends with the same status
    assert_eq!(shell(">/dev/full 2>&-").2, 2);
}

fn why(f: &[u8], g: &[u8], sheet: &Path) -> (String, String, i32) {
    let [f, g] = [f, g].map(|bytes| OsString::from_vec(bytes.to_vec()));
    claims(&[OsStr::new("--why"), &f, &g, sheet.as_os_str()])
}

#[test]
fn why_a_claim_is_refused() {
    let drawer = Drawer::new("why", "");
    let sheet = drawer.folder.join("a.sgl");
    let said = |f: &[u8], g: &[u8]| {
        let (out, said, status) = why(f, g, &sheet);
        assert_eq!(said, "");
        assert_eq!(out.matches('\n').count(), 1);
        (out.trim_end().to_string(), status)
    };
    assert_eq!(said(b"a", b"a"), ("holds".to_string(), 0));
    assert_eq!(said(b"a", b"0"), ("fails at 5 until before 9".to_string(), 1));
    assert_eq!(said(b"a", b"needel"), ("refused 13: G: the sheet has no signal named \"needel\"".to_string(), 3));
    assert_eq!(said(b"a", &[b'a'; 70_000]), ("refused 10: G: the formula has 70000 bytes, over 1024".to_string(), 3));
    assert_eq!(said(b"", b"\xff"), ("refused 10: F: the formula is empty".to_string(), 3));
    let (words, status) = said(b"a\n\xff", b"a");
    assert!(words.starts_with("refused 11: F: byte 1, at \"\\n\\xff\", ") && status == 3, "{words}");
    // formulas and files that look like options
    assert!(said(b"--json", b"--help").0.starts_with("refused 11: F: byte 0, at \"--json\", "));
    fs::write(drawer.folder.join("text"), "needle : down\n").unwrap();
    let (out, _, status) = why(b"a", b"a", &drawer.folder.join("text"));
    assert!(out.starts_with("refused 14: a text and no sheet") && status == 3, "{out}");
    let (out, said, status) = why(b"a", b"a", &drawer.folder.join("none"));
    assert!(out.is_empty() && said.ends_with("none: No such file or directory (os error 2)\n") && status == 2, "{said}");
}

/// On a terminal a line tells how far it is, and is gone at the end; `script` lends a terminal, where there is one.
#[test]
fn progress_on_a_terminal() {
    let drawer = Drawer::new("progress", "a.sgl a a\n".to_string() + "pipe a a\n" + &"a.sgl a a\n".repeat(300));
    let (pipe, out) = (drawer.folder.join("pipe"), drawer.folder.join("out"));
    assert!(Command::new("mkfifo").arg(&pipe).status().unwrap().success());
    let mut script = Command::new("script");
    script.args(["-qec", "\"$CLAIMS\" \"$DRAWER\" >\"$OUT\"", "/dev/null"]);
    script.env("CLAIMS", env!("CARGO_BIN_EXE_claims")).env("DRAWER", &drawer.file).env("OUT", &out);
    let Ok(mut script) = script.stdin(Stdio::null()).stdout(Stdio::piped()).spawn() else {
        // not by `eprintln`, which a test that passes keeps to itself
        writeln!(std::io::stderr(), "progress_on_a_terminal: there is no `script` here, so it is not tried").unwrap();
        return;
    };
    // a sheet that comes late, so that there is something to tell
    let mut late = opened(&pipe, &mut script);
    std::thread::sleep(Duration::from_millis(400));
    late.write_all(sheet().bytes()).unwrap();
    drop(late);
    let (said, _, status) = ended(script, "it does not end");
    assert_eq!(status, 0);
    assert!(said.contains("\rclaims: 2 of 302, 0 not as they should be\x1b[K"), "{said:?}");
    assert!(said.ends_with("\r\x1b[K"), "{said:?}");
    assert_eq!(parted(&fs::read_to_string(&out).unwrap()).0.len(), 302);
}
