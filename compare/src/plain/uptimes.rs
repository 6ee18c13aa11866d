//! The up stretches of a signal on a sheet.
use super::lists::{M, WORDS};
use super::sheets::{name_field, word_of, Sheet};

/// How many words are written, and the total. Faults of the sheet, 16, 13, 19, 7.
pub fn uptime(sheet: &[u8], name: &[u8], h: u32, out: &mut [u32]) -> Result<(usize, u32), u32> {
    let sheet = Sheet::judge(sheet)?;
    let place = sheet.find(&name_field(name)?)?;
    if h > M {
        return Err(19);
    }
    let mut slot = [0; WORDS];
    let (mut count, mut total) = (0, 0);
    // since when it is up, if it is
    let mut since = None;
    let (words, _) = sheet.words(place).as_chunks::<4>();
    let mut end = |first: u32, end: u32| {
        slot[count] = first;
        slot[count + 1] = end - first;
        count += 2;
        total += end - first;
    };
    for word in words.iter().map(word_of) {
        let date = word / 4;
        if date >= h {
            break;
        }
        match since {
            None if word & 1 != 0 => since = Some(date),
            Some(first) if word & 1 == 0 => {
                end(first, date);
                since = None;
            }
            _ => {}
        }
    }
    if let Some(first) = since {
        end(first, h);
    }
    super::deliver(&slot, count, out)?;
    Ok((count, total))
}
