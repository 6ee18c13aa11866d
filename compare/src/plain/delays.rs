//! TON and TOF on accepted lists: one timer that follows the runs of one level of its input.
use super::answers::Answer;
use super::lists::WORDS;

/// Whether a run has lasted, or when it will have: at an instant, or after it.
struct Timer {
    length: u32,
    lasted: bool,
    waiting: bool,
    due: u32,
    due_at: bool,
}

impl Timer {
    /// In gap 0. A run from there on waits for the length, or does not.
    fn first(length: u32, waits: bool, running: bool) -> Timer {
        let lasted = running && !(waits && length > 0);
        Timer { length, lasted, waiting: running && !lasted, due: length, due_at: true }
    }

    /// At the instant of a date, or in the gap after it: whether the run has lasted.
    fn follow(&mut self, date: u32, instant: bool, running: bool) -> bool {
        if !running {
            self.lasted = false;
            self.waiting = false;
        } else if !self.lasted {
            if !self.waiting {
                self.waiting = true;
                self.due = date + self.length;
                self.due_at = instant;
            }
            if self.due == date && (self.due_at || !instant) {
                self.lasted = true;
                self.waiting = false;
            }
        }
        self.lasted
    }
}

/// A run of the level shows that level once it has lasted: TON of up, TOF of down, where a run from gap 0 on does not wait.
pub fn delay(level: bool, length: u32, f: &[u32], slot: &mut [u32; WORDS]) -> Result<usize, u32> {
    let mut timer = Timer::first(length, level, (f[0] == 1) == level);
    let mut answer = Answer::begin(slot, timer.lasted == level);
    for word in &f[1..] {
        let date = word / 4;
        if timer.waiting && timer.due < date {
            answer.put(timer.due, timer.due_at == level, level);
            timer.lasted = true;
            timer.waiting = false;
        }
        let at = timer.follow(date, true, (word & 2 != 0) == level);
        let after = timer.follow(date, false, (word & 1 != 0) == level);
        answer.put(date, at == level, after == level);
    }
    if timer.waiting {
        answer.put(timer.due, timer.due_at == level, level);
    }
    answer.finish()
}
