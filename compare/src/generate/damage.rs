//! Damage to a claim, after which it is mostly refused: each fault that a claim can meet, and near misses.
use super::{Claim, MOST_WORK};
use crate::random::Random;

/// Where the signals of a sheet stand, as far as they are whole.
pub fn places(sheet: &[u8]) -> Vec<usize> {
    let (mut places, mut at) = (Vec::new(), 7);
    while at + 10 <= sheet.len() {
        places.push(at);
        at += 10 + 4 * u16::from_le_bytes([sheet[at + 8], sheet[at + 9]]) as usize;
    }
    places
}

pub fn damage_sheet(random: &mut Random, sheet: &mut Vec<u8>) {
    let places = places(sheet);
    if sheet.is_empty() {
        return;
    }
    let anywhere = random.below(sheet.len());
    match random.below(12) {
        0 => sheet[anywhere] ^= 1 << random.below(8),
        1 => sheet[anywhere.min(random.below(7))] ^= 1 << random.below(8),
        2 => sheet.truncate(anywhere.min(random.below(9))),
        3 => sheet.truncate(anywhere),
        4 => sheet.truncate(sheet.len() - 1),
        5 => sheet.extend_from_slice(&[0; 9][..random.between(1, 9)]),
        6 if sheet.len() > 5 => {
            sheet[5] = random.pick(&[sheet[5].wrapping_sub(1), sheet[5].wrapping_add(1), 32, 33, 255])
        }
        _ if places.is_empty() => sheet.push(0),
        7 => sheet[random.pick(&places) + random.below(8)] = random.pick(b"A_0a\0\xff{`/:"),
        8 => {
            let name = random.pick(&places);
            sheet.copy_within(name..name + 8, random.pick(&places));
        }
        9 => {
            let count = random.pick(&places) + 8;
            let any = random.next() as u16;
            let words = random.pick(&[0, 1, 256, 257, any]);
            sheet[count..count + 2].copy_from_slice(&words.to_le_bytes());
        }
        _ => {
            // a word is put in another's place
            let signal = random.pick(&places) + 10;
            let words = (sheet.len() - signal) / 4;
            if words > 0 {
                let from = signal + 4 * random.below(words.min(256));
                let to = signal + 4 * random.below(words.min(256));
                sheet.copy_within(from..from + 4, to);
            }
        }
    }
}

/// Lengths at M and past it, and texts that are no lengths.
const LENGTHS: [&str; 8] =
    ["1073741823", "1073741824", "4294967297", "99999999999999999999", "1000000000", "00", "05", ""];

fn damage_formula(random: &mut Random, text: &mut Vec<u8>) {
    const LETTERS: &[u8] = b"abz019!^~().+,SRTONFP \0\xff\n";
    if text.is_empty() {
        return;
    }
    let at = random.below(text.len());
    let own = String::from_utf8_lossy(text).into_owned();
    match random.below(17) {
        0 => text.clear(),
        1 => *text = random.pick(&["!", "0.", "(1", "a+"]).repeat(random.between(500, 1100)).into_bytes(),
        2 => *text = ["(".repeat(random.between(10, 520)), "0".to_string()].concat().into_bytes(),
        3 | 4 => text[at] = random.pick(LETTERS),
        5 => text.insert(at, random.pick(LETTERS)),
        6 => {
            text.remove(at);
        }
        7 => text.extend_from_slice(random.pick(&[".nosuch", "+nosuch9", ".abcdefghi", ".A", "+00", "."]).as_bytes()),
        8 | 9 => {
            let block = random.pick(&["TON", "TOF", "TP"]);
            let length = random.pick(&LENGTHS);
            *text = format!("{block}({length},{own})").into_bytes();
        }
        10 => text.extend_from_slice("+0".repeat(random.between(8, 20)).as_bytes()),
        11 => text.extend_from_slice("+0".repeat(random.between(8, 480)).as_bytes()),
        12 => *text = ["!".repeat(random.between(8, 18)), format!("({own})")].concat().into_bytes(),
        13 => {
            let n = random.between(8, 500);
            *text = ["(".repeat(n), own, ")".repeat(n)].concat().into_bytes();
        }
        14 => *text = format!("{}({own},{own})", random.pick(&["SR", "RS", "SS", "TO", "TP"])).into_bytes(),
        // at the longest formula
        15 => *text = ["!".repeat(random.between(1022, 1026).saturating_sub(own.len())), own].concat().into_bytes(),
        _ => text.truncate(at),
    }
}

pub fn damage(random: &mut Random, claim: &mut Claim) {
    match random.below(9) {
        0..=3 => damage_sheet(random, &mut claim.sheet),
        4..=5 => damage_formula(random, &mut claim.f),
        6..=7 => damage_formula(random, &mut claim.g),
        _ => claim.work = random.pick(&[0, 1, 8191, 8191, 8193, MOST_WORK]),
    }
    // two faults at once show their order
    if random.one_in(4) {
        damage(random, claim);
    }
}
