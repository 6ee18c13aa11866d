// claims FILE: runs a drawer of claims through the library; claims --why F G SHEETFILE: says why a claim is refused, and where.
mod json;
mod line;
mod report;
mod sheets;
// how printing tells that it could not be done is the same for both tools
#[path = "../sheet/stdout.rs"]
mod stdout;

use rascrunel::{quoting, raw, text, Checker};
use report::{Form, Report};
use sheets::Sheets;
use std::ffi::OsString;
use std::io::{self, Write};
use std::os::unix::ffi::OsStrExt;
use std::path::Path;
use std::process::ExitCode;

const HELP: &str = "\
claims [--json] [--quiet] FILE   runs the claims of the file FILE, - for standard input
claims --why F G SHEETFILE       judges one claim; where it is refused, says why and where

A line of FILE is SHEET F G, or SHEET F G EXPECTED, parted by blanks. SHEET is a sheet file, looked for from the folder of FILE (from the
current one where FILE is -). EXPECTED is a verdict, such as `holds`, `fails at 5 until before 7` or `refused 13`, or a beginning of one in
whole words, such as `fails`, `fails at 5` or `refused`. Empty lines and lines that begin with # say nothing.

For each claim a line is printed: the number of its line, the claim, the verdict, and what was expected where it differs, or `without
expectation` where there is none and it does not hold; then the total. Bytes are counted from 0; lines, columns, signals, words and parts
from 1. On a terminal a line on standard error tells how far it is.
  --json    one JSON object a line: one for each claim, and the total last
  --quiet   only the claims that differ from what was expected, those without expectation that do not hold, and the total

Exit status: 0 every claim is as expected, and those without expectation hold; 1 some are not; 2 wrong use or trouble, said on standard
error: FILE or a sheet cannot be read, a line is malformed (the others are run), the output cannot be written. With --why: 0 holds, 1 fails,
3 refused, 2 wrong use or trouble.
";

// What could not be done, in words; or the exit status.
type Done = Result<u8, String>;

fn wrong_use(what: &str) -> Done {
    Err(format!("{what}\n{HELP}"))
}

// What other file it is that is given as a drawer.
fn no_drawer(bytes: &[u8]) -> Option<&'static str> {
    if text::is_utf16(bytes) {
        Some(text::IN_UTF16)
    } else if text::is_sheet(bytes) {
        Some("is a sheet and no drawer of claims; `sheet show` prints it as a text")
    } else if raw::is_raw(bytes) {
        Some("has a zero byte, and a drawer of claims has none: it is a text")
    } else {
        None
    }
}

fn run(file: &Path, form: Form) -> Done {
    let (read, name) = if file == Path::new("-") {
        (sheets::read_from(io::stdin().lock()), "standard input".to_string())
    } else {
        (sheets::read(file), quoting::path(file).to_string())
    };
    let drawer = read.and_then(|bytes| match no_drawer(&bytes) {
        None => Ok(bytes),
        Some(what) => Err(what.to_string()),
    });
    let bytes = drawer.map_err(|what| format!("{name}: {what}"))?;
    let folder = if file == Path::new("-") { None } else { file.parent() };
    let mut sheets = Sheets::of(folder);
    let mut checker = Checker::new();
    let mut report = Report::new(form, file, line::count(&bytes));
    for read in line::lines(&bytes) {
        match read {
            Err(wrong) => report.trouble(&wrong)?,
            Ok(claim) => match sheets.get(claim.sheet) {
                Err(what) => report.trouble(&claim.trouble(what))?,
                Ok(Err(refusal)) => report.claim(&claim, &Err(refusal.clone().into()))?,
                Ok(Ok(sheet)) => report.claim(&claim, &checker.claim_bytes(sheet, claim.f, claim.g))?,
            },
        }
    }
    report.end()
}

fn why(f: &OsString, g: &OsString, sheet: &Path) -> Done {
    let bytes = sheets::read(sheet).map_err(|what| format!("{}: {what}", quoting::path(sheet)))?;
    let (said, status) = match Checker::new().claim_bytes(&bytes, f.as_bytes(), g.as_bytes()) {
        Ok(verdict) => (verdict.to_string(), if verdict.holds() { 0 } else { 1 }),
        Err(refusal) => (refusal.to_string(), 3),
    };
    stdout::print(&format!("{said}\n")).map(|()| status)
}

fn asked(args: &[OsString]) -> Done {
    let mut form = Form::default();
    let mut files = Vec::new();
    let mut options = true;
    for (i, arg) in args.iter().enumerate() {
        match arg.to_str() {
            Some("--") if options => options = false,
            Some("--json") if options => form.json = true,
            Some("--quiet" | "-q") if options => form.quiet = true,
            Some("--help" | "-h") if options => return stdout::print(HELP).map(|()| 0),
            // what follows are formulas and a file, whatever they begin with
            Some("--why") if i == 0 => {
                return match &args[1..] {
                    [f, g, sheet] => why(f, g, Path::new(sheet)),
                    _ => wrong_use("--why takes F, G and SHEETFILE"),
                };
            }
            Some(option) if options && option.starts_with('-') && option != "-" => return wrong_use(&format!("{option:?} is no option")),
            _ => files.push(Path::new(arg)),
        }
    }
    match files.as_slice() {
        [file] => run(file, form),
        [] => wrong_use("no FILE is given"),
        _ => wrong_use("more than one FILE is given"),
    }
}

fn main() -> ExitCode {
    let args: Vec<OsString> = std::env::args_os().skip(1).collect();
    let status = asked(&args).unwrap_or_else(|what| {
        let _ = writeln!(io::stderr(), "claims: {}", what.trim_end());
        2
    });
    ExitCode::from(status)
}
