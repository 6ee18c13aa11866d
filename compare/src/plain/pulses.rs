//! TP on an accepted list: a rise that comes before no pulse's end starts one.
use super::answers::Answer;
use super::lists::WORDS;

pub fn pulses(length: u32, f: &[u32], slot: &mut [u32; WORDS]) -> Result<usize, u32> {
    let mut answer = Answer::begin(slot, false);
    let mut before = f[0] == 1;
    // where the last pulse ends, 0 while there was none
    let mut end = 0;
    for word in &f[1..] {
        let date = word / 4;
        let rises = !before && word & 2 != 0;
        before = word & 1 != 0;
        if rises && end <= date && length > 0 {
            // a pulse that begins where the last ends joins it
            if end < date {
                answer.put(end, false, false);
            }
            answer.put(date, true, true);
            end = date + length;
        }
    }
    answer.put(end, false, false);
    answer.finish()
}
