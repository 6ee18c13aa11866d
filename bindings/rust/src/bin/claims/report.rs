//! What is told of the claims: a line each, the total, how far it is.
use crate::json::Object;
use crate::line::{meets, Claim, Trouble};
use crate::stdout;
use rascrunel::quoting::{self, Bare};
use rascrunel::whereabouts::SheetRefusal;
use rascrunel::{End, FormulaPlace, Place, Refusal, Verdict, Which};
use std::fmt::Write as _;
use std::io::{self, IsTerminal, Write};
use std::path::{Path, PathBuf};
use std::time::{Duration, Instant};

/// In which form it is told.
#[derive(Clone, Copy, Default)]
pub struct Form {
    pub json: bool,
    pub quiet: bool,
}

type Answer = Result<Verdict, Refusal>;

#[derive(Default)]
struct Tally {
    claims: usize,
    hold: usize,
    fail: usize,
    refused: usize,
    as_expected: usize,
    differ: usize,
    // without expectation, and those of them that do not hold
    open: usize,
    open_wrong: usize,
    troubles: usize,
}

pub struct Report {
    form: Form,
    file: PathBuf,
    // how many lines say something
    lines: usize,
    tally: Tally,
    // what is still to be written
    text: String,
    began: Instant,
    told: Instant,
    progress: bool,
}

// As many troubles are told one by one.
const TROUBLES: usize = 20;

// So much is held back, and for so long.
const HELD_BYTES: usize = 1 << 16;
const HELD_TIME: Duration = Duration::from_millis(200);

impl Report {
    pub fn new(form: Form, file: &Path, lines: usize) -> Report {
        let now = Instant::now();
        let progress = io::stderr().is_terminal();
        let (file, tally, text) = (file.to_path_buf(), Tally::default(), String::new());
        Report { form, file, lines, tally, text, began: now, told: now, progress }
    }

    /// A claim that was run.
    pub fn claim(&mut self, claim: &Claim<'_>, answer: &Answer) -> Result<(), String> {
        let line = match answer {
            Ok(verdict) => verdict.to_string(),
            Err(refusal) => format!("refused {}", refusal.fault.number()),
        };
        let met = claim.expected.as_deref().map(|expected| meets(&line, expected));
        let holds = matches!(answer, Ok(verdict) if verdict.holds());
        let tally = &mut self.tally;
        tally.claims += 1;
        *match answer {
            Ok(_) if holds => &mut tally.hold,
            Ok(_) => &mut tally.fail,
            Err(_) => &mut tally.refused,
        } += 1;
        match met {
            Some(true) => tally.as_expected += 1,
            Some(false) => tally.differ += 1,
            None => {
                tally.open += 1;
                tally.open_wrong += usize::from(!holds);
            }
        }
        if !(self.form.quiet && met.unwrap_or(holds)) {
            if self.form.json {
                let object = claim_object(claim, &line, answer).plain("met", met.map_or("null".to_string(), |met| met.to_string()));
                let _ = writeln!(self.text, "{object}");
            } else {
                let Claim { line: number, sheet, f, g, .. } = claim;
                let words = answer.as_ref().map_or_else(|refusal| refusal.to_string(), |_| line);
                let _ = write!(self.text, "line {number}: {} {} {}: {words}", Bare(sheet), Bare(f), Bare(g));
                let _ = match &claim.expected {
                    _ if met.unwrap_or(holds) => Ok(()),
                    Some(expected) => write!(self.text, ", expected {expected}"),
                    None => write!(self.text, ", without expectation"),
                };
                self.text.push('\n');
            }
        }
        self.tell()
    }

    /// A line that cannot be run.
    pub fn trouble(&mut self, trouble: &Trouble) -> Result<(), String> {
        let Trouble { line, column, what } = trouble;
        self.tally.troubles += 1;
        if self.form.json {
            let object = Object::new().plain("line", line).plain("column", column).string("trouble", what);
            let _ = writeln!(self.text, "{object}");
        }
        if self.tally.troubles <= TROUBLES {
            self.write()?;
            let _ = writeln!(io::stderr(), "claims: {}: line {line}, column {column}: {what}", quoting::path(&self.file));
        }
        self.tell()
    }

    /// The total, and the exit status.
    pub fn end(mut self) -> Result<u8, String> {
        let Tally { claims, hold, fail, refused, as_expected, differ, open, open_wrong, troubles } = self.tally;
        let seconds = self.began.elapsed().as_secs_f64();
        if self.form.json {
            let total = Object::new().plain("claims", claims).plain("hold", hold).plain("fail", fail).plain("refused", refused);
            let total = total.plain("as_expected", as_expected).plain("differ", differ).plain("without_expectation", open);
            let total = total.plain("of_them_not_holding", open_wrong).plain("not_run", troubles);
            let total = total.plain("seconds", format_args!("{seconds:.3}"));
            let _ = writeln!(self.text, "{}", Object::new().plain("total", total));
        } else {
            let of = if claims == 1 { "claim" } else { "claims" };
            let _ =
                write!(self.text, "{claims} {of}: {hold} hold, {fail} fail, {refused} refused; {as_expected} as expected, {differ} differ");
            if open > 0 {
                let _ = write!(self.text, "; {open} without expectation, {open_wrong} of them not holding");
            }
            if troubles > 0 {
                let _ = write!(self.text, "; {troubles} not run");
            }
            let _ = writeln!(self.text, "; {seconds:.3} s");
        }
        self.write()?;
        if troubles > TROUBLES {
            let _ =
                writeln!(io::stderr(), "claims: {}: and {} lines more that cannot be run", quoting::path(&self.file), troubles - TROUBLES);
        }
        Ok(match (troubles, differ + open_wrong) {
            (0, 0) => 0,
            (0, _) => 1,
            _ => 2,
        })
    }

    // Writes what was held back long enough, and how far it is.
    fn tell(&mut self) -> Result<(), String> {
        let late = self.told.elapsed() >= HELD_TIME;
        if late || self.text.len() >= HELD_BYTES {
            self.write()?;
        }
        if late {
            self.told = Instant::now();
            if self.progress {
                let Tally { claims, differ, open_wrong, troubles, .. } = self.tally;
                let (done, wrong) = (claims + troubles, differ + open_wrong + troubles);
                let _ = write!(io::stderr(), "\rclaims: {done} of {}, {wrong} not as they should be\x1b[K", self.lines);
            }
        }
        Ok(())
    }

    // The line of the progress goes before anything else is written.
    fn write(&mut self) -> Result<(), String> {
        if self.progress {
            let _ = write!(io::stderr(), "\r\x1b[K");
        }
        let text = std::mem::take(&mut self.text);
        if text.is_empty() {
            return Ok(());
        }
        stdout::print(&text)
    }
}

fn claim_object(claim: &Claim<'_>, line: &str, answer: &Answer) -> Object {
    let object = Object::new().plain("line", claim.line).bytes("sheet", claim.sheet).bytes("f", claim.f).bytes("g", claim.g);
    let object = object.string("verdict", line);
    let object = match answer {
        Ok(verdict) => match fails(*verdict) {
            Some(moments) => object.plain("fails", moments),
            None => object,
        },
        Err(refusal) => object.plain("fault", refusal.fault.number()).string("why", &refusal.to_string()).plain("where", place(refusal)),
    };
    match &claim.expected {
        Some(expected) => object.string("expected", expected),
        None => object.plain("expected", "null"),
    }
}

fn fails(verdict: Verdict) -> Option<Object> {
    let (key, first, end) = match verdict {
        Verdict::Holds => return None,
        Verdict::FailsAt(k, end) => ("at", k, end),
        Verdict::FailsAfter(k, end) => ("after", k, end),
    };
    let object = Object::new().plain(key, first);
    Some(match end {
        End::At(k) => object.plain("until", k),
        End::Before(k) => object.plain("until_before", k),
        End::Never => object.plain("for_good", true),
    })
}

fn place(refusal: &Refusal) -> Object {
    let object = Object::new();
    match &refusal.place {
        Place::Sheet(refusal) => sheet_place(refusal),
        Place::Formula(which, place) => {
            let object = match which {
                Which::F => object.string("formula", "F"),
                Which::G => object.string("formula", "G"),
                _ => object,
            };
            match place {
                FormulaPlace::Length(bytes) => object.plain("bytes", bytes),
                FormulaPlace::Byte { byte, .. } => object.plain("byte", byte),
                FormulaPlace::Ticks { byte, digits, .. } => object.plain("byte", byte).string("length", digits),
                FormulaPlace::Name { byte, name, .. } => object.plain("byte", byte).string("name", name),
                FormulaPlace::Part { text, number, of, .. } => object.string("part", text).plain("number", number).plain("of", of),
                _ => object,
            }
        }
        _ => object,
    }
}

fn sheet_place(refusal: &SheetRefusal) -> Object {
    let mut object = Object::new().plain("sheet", true).plain("byte", refusal.byte);
    if let Some(signal) = &refusal.signal {
        object = object.plain("signal", signal.number).bytes("name", &signal.name);
    }
    if let Some(word) = &refusal.word {
        object = object.plain("word", word.number).plain("value", word.value);
    }
    object
}
