//! The proved library beside plain Rust of the same evaluation. README.md says how to run it and how to read the table.
mod batches;
mod equal;
mod ffi;
mod generate;
mod plain;
mod random;
mod times;

use batches::Batch;
use equal::{Charted, ListCall, Tally, Tidied, LIST_CALLS};
use generate::{Set, MOST_WORDS};
use std::process::ExitCode;
use times::Times;

const SEED: u64 = 1;

/// The faults that a claim can meet.
const FAULTS: [usize; 12] = [5, 6, 8, 10, 11, 12, 13, 14, 15, 16, 17, 18];

/// The faults that an up-time can meet.
const UPTIME_FAULTS: [usize; 7] = [7, 13, 14, 15, 16, 17, 19];

/// The faults that a tidying can meet.
const TIDY_FAULTS: [usize; 4] = [1, 2, 3, 7];

/// The faults that a column can meet.
const COLUMN_FAULTS: [usize; 7] = [1, 2, 3, 4, 7, 9, 20];

const USAGE: &str = "compare [--equal | --singles | --calls ROW | ROW]";

/// A wrong tidying: it puts each word down before it looks whether to keep it, so that one dropped at the end stands past the count.
fn tidy_leaving_one(list: &[u32], out: &mut [u32]) -> u32 {
    let written = plain::tidy(list, out);
    match (list, out.get_mut(written as usize)) {
        ([.., before, last], Some(place)) if plain::is_idle(&[*before, *last]) => *place = *last,
        _ => {}
    }
    written
}

/// A wrong tidying: it does not judge the dates of the words that it drops.
fn tidy_undated(list: &[u32], out: &mut [u32]) -> u32 {
    if list.len() > MOST_WORDS {
        return plain::tidy(list, out);
    }
    let kept = list.windows(2).filter(|pair| !plain::is_idle(pair)).map(|pair| pair[1]);
    plain::tidy(&list.iter().take(1).copied().chain(kept).collect::<Vec<_>>(), out)
}

/// The word of a list at the date of a moment.
fn word_at(list: &[u32], moment: u32) -> Option<u32> {
    list[1..].iter().copied().find(|word| word / 4 == moment / 2)
}

/// A wrong column: at an instant it tells the value after it.
fn values_after(list: &[u32], moments: &[u32], out: &mut [u32]) -> u64 {
    let column = plain::values(list, moments, out);
    if column >> 48 == 0 {
        for (value, &moment) in out.iter_mut().zip(moments) {
            *value = word_at(list, moment).map_or(*value, |word| word % 2);
        }
    }
    column
}

/// A wrong column: it does not count a word dated at the last moment.
fn values_before(list: &[u32], moments: &[u32], out: &mut [u32]) -> u64 {
    let column = plain::values(list, moments, out);
    match moments.last() {
        Some(&last) if column >> 48 == 0 && word_at(list, last).is_some() => column - (1 << 16),
        _ => column,
    }
}

/// A wrong column: it judges dates before order.
fn values_dated_first(list: &[u32], moments: &[u32], out: &mut [u32]) -> u64 {
    match plain::values(list, moments, out) {
        column if column >> 48 == 20 && moments.iter().any(|&moment| moment == 0 || moment >> 31 != 0) => 9 << 48,
        column => column,
    }
}

/// Wrong engines in the place of plain: the check must tell each of them from ours.
fn wrong_ones_are_told() -> Result<(), String> {
    let told =
        |name: &str, found: bool| if found { Ok(()) } else { Err(format!("the check does not tell {name} from ours")) };
    let turned = equal::claims(Set::Small, SEED, 300, |sheet, f, g, work| plain::claim_span(sheet, g, f, work));
    told("the claim of G to F", turned.is_err())?;
    let endless = equal::claims(Set::Small, SEED, 300, |sheet, f, g, work| {
        let span = plain::claim_span(sheet, f, g, work);
        if equal::fault(span) == 0 {
            span & 0xffff_ffff
        } else {
            span
        }
    });
    told("a claim that fails for good whenever it fails", endless.is_err())?;
    let gap_for_instant = ListCall {
        name: "implies_span",
        ours: |x, _| ffi::implies_span(&x.a, &x.b),
        plain: |x, _| match plain::implies_span(&x.a, &x.b) {
            span if equal::fault(span) == 0 && span >> 32 != 0 => span | 1 << 32,
            span => span,
        },
    };
    told("a run that ends in the gap after its last instant", equal::lists(SEED, 300, &[gap_for_instant]).is_err())?;
    let rs_for_sr = ListCall {
        name: "sr",
        ours: |x, out| ffi::sr(&x.a, &x.b, out).into(),
        plain: |x, out| plain::rs(&x.a, &x.b, out).into(),
    };
    told("RS in the place of SR", equal::lists(SEED, 300, &[rs_for_sr]).is_err())?;
    let word_more = ListCall {
        name: "not",
        ours: |x, out| ffi::not(&x.a, out).into(),
        plain: |x, out| {
            let written = plain::not(&x.a, out);
            if let Some(word) = out.get_mut(written as usize % 65536) {
                *word = 0;
            }
            written.into()
        },
    };
    told("a word more in the output", equal::lists(SEED, 300, &[word_more]).is_err())?;
    let tick_less = equal::uptimes(Set::Small, SEED, 300, |sheet, name, h, out| {
        plain::uptime(sheet, name, h.saturating_sub(1), out)
    });
    told("a horizon of a tick less", tick_less.is_err())?;
    told("a dropped word past the count", equal::tidyings(SEED, 300, tidy_leaving_one).is_err())?;
    told("dates of dropped words that are not judged", equal::tidyings(SEED, 300, tidy_undated).is_err())?;
    told("the value after an instant", equal::columns(SEED, 300, values_after).is_err())?;
    told("a word at the last moment that is not counted", equal::columns(SEED, 300, values_before).is_err())?;
    told("9 before 20", equal::columns(SEED, 300, values_dated_first).is_err())
}

/// The faults with how often each was met; none may be missing.
fn faults_met(faults: &[usize], met: &[usize], what: &str) -> Result<String, String> {
    match faults.iter().find(|&&fault| met[fault] == 0) {
        Some(fault) => Err(format!("no {what} was refused with {fault}")),
        None => Ok(faults.iter().map(|&fault| format!("{fault}: {}", met[fault])).collect::<Vec<_>>().join(", ")),
    }
}

/// Both are equal on so many up-times of each set (of the largest a twentieth).
fn check_uptimes(count: usize) -> Result<(), String> {
    let (mut met, mut all) = ([0; 20], 0);
    for set in Set::ALL {
        let calls = if set == Set::Largest { count / 20 } else { count };
        all += calls;
        for (sum, refused) in met.iter_mut().zip(equal::uptimes(set, SEED, calls, plain::uptime)?) {
            *sum += refused;
        }
    }
    println!("uptimes  {all} calls: {} answered, {} refused", met[0], all - met[0]);
    println!("refused with {}", faults_met(&UPTIME_FAULTS, &met, "up-time")?);
    Ok(())
}

/// Both are equal on so many tidyings.
fn check_tidyings(count: usize) -> Result<(), String> {
    let Tidied { met, dropped } = equal::tidyings(SEED, count, plain::tidy)?;
    println!(
        "tidyings {count} calls: {} answered, {dropped} of them with a word dropped, {} refused",
        met[0],
        count - met[0]
    );
    println!("refused with {}", faults_met(&TIDY_FAULTS, &met, "tidying")?);
    if dropped == 0 {
        return Err("no tidying dropped a word".to_string());
    }
    Ok(())
}

/// Both are equal on so many columns.
fn check_columns(count: usize) -> Result<(), String> {
    let Charted { met, moments } = equal::columns(SEED, count, plain::values)?;
    println!("columns  {count} calls: {} answered, of {moments} moments, {} refused", met[0], count - met[0]);
    println!("refused with {}", faults_met(&COLUMN_FAULTS, &met, "column")?);
    Ok(())
}

/// Both are equal on so many claims of each set (of the largest a twentieth) and so many lists.
fn check(count: usize) -> Result<(), String> {
    wrong_ones_are_told()?;
    let (mut met, mut ended) = ([0; 19], [0; 3]);
    for set in Set::ALL {
        let claims = if set == Set::Largest { count / 20 } else { count };
        let tally = equal::claims(set, SEED, claims, plain::claim_span)?;
        let Tally { holds, fails, refused } = &tally;
        let (all, [instant, gap, never]) = (fails.iter().sum::<usize>(), fails);
        println!(
            "{:<8} {claims} claims: {holds} hold, {all} fail ({instant} until an instant, {gap} until a gap, {never} for good), {} refused",
            set.name(),
            tally.all_refused()
        );
        for (sum, refused) in met.iter_mut().zip(refused) {
            *sum += refused;
        }
        for (sum, fails) in ended.iter_mut().zip(fails) {
            *sum += fails;
        }
    }
    if ended.contains(&0) {
        return Err("no claim failed until an instant, until a gap, or for good".to_string());
    }
    println!("refused with {}", faults_met(&FAULTS, &met, "claim")?);
    let (answered, refused) = equal::lists(SEED, count, &LIST_CALLS)?;
    println!("lists    {} calls: {answered} answered, {refused} refused", answered + refused);
    check_uptimes(count)?;
    check_tidyings(count)?;
    check_columns(count)?;
    println!("equal    every verdict, fault, count, total, number of words passed and output");
    Ok(())
}

fn table(only: Option<String>) -> Result<(), String> {
    let repetitions = if only.is_some() { 301 } else { 61 };
    let mut times = Times { only, repetitions, rows: 0 };
    for set in Set::ALL {
        times.set(set, SEED);
    }
    for words in [3, 16, 250] {
        times.operations(words, SEED);
        times.column(words, SEED);
    }
    times.tidies(SEED);
    match times {
        Times { rows: 0, only: Some(name), .. } => Err(format!("no row {name}: {USAGE}")),
        _ => Ok(()),
    }
}

/// Makes each call of a batch once, ours and plain, and prints how many words its lists have: for those who count instructions.
fn calls(row: &str) -> Result<(), String> {
    let batch = Batch::all(SEED).find(|batch| batch.name == row).ok_or(format!("no batch {row}: {USAGE}"))?;
    assert_eq!(batch.tidy(ffi::tidy), batch.tidy(plain::tidy));
    println!("{}", batch.words);
    Ok(())
}

fn run(arguments: &[String]) -> Result<(), String> {
    match arguments {
        [] => {
            check(20_000)?;
            println!();
            table(None)
        }
        [flag] if flag == "--equal" => check(2_000),
        [flag] if flag == "--singles" => {
            times::singles(SEED);
            Ok(())
        }
        [flag, row] if flag == "--calls" => calls(row),
        [row] if !row.starts_with('-') => table(Some(row.clone())),
        _ => Err(USAGE.to_string()),
    }
}

fn main() -> ExitCode {
    let arguments: Vec<String> = std::env::args().skip(1).collect();
    match run(&arguments) {
        Ok(()) => ExitCode::SUCCESS,
        Err(what) => {
            eprintln!("compare: {what}");
            ExitCode::FAILURE
        }
    }
}
