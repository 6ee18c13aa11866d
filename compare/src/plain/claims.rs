//! Formulas on a sheet, worked out on a stack of lists in the caller's work area.
use super::formulas::{Formula, Part, MOST_PARTS};
use super::lists::WORDS;
use super::operations::{self, Verdict};
use super::sheets::{word_of, Sheet};

pub const WORK_WORDS: usize = 8192;

/// A list on the stack: its slot and how many words it has.
#[derive(Clone, Copy)]
struct Entry {
    slot: usize,
    count: usize,
}

/// The entries above the height have the free slots.
struct Stack<'a> {
    slots: &'a mut [[u32; WORDS]],
    entries: [Entry; MOST_PARTS],
    height: usize,
}

/// The words of a signal on the sheet, put into a slot.
fn load(bytes: &[u8], slot: &mut [u32; WORDS]) -> usize {
    let (words, _) = bytes.as_chunks::<4>();
    for (place, word) in slot.iter_mut().zip(words) {
        *place = word_of(word);
    }
    words.len()
}

impl<'a> Stack<'a> {
    /// Fault 18.
    fn new(work: &'a mut [u32]) -> Result<Stack<'a>, u32> {
        if work.len() < WORK_WORDS {
            return Err(18);
        }
        let (slots, _) = work.as_chunks_mut();
        let mut entries = [Entry { slot: 0, count: 0 }; MOST_PARTS];
        for (slot, entry) in entries.iter_mut().enumerate() {
            entry.slot = slot;
        }
        Ok(Stack { slots, entries, height: 0 })
    }

    fn list(&self, place: usize) -> &[u32] {
        let Entry { slot, count } = self.entries[place];
        &self.slots[slot][..count]
    }

    /// The list in the free slot, of so many words, in the place of the topmost lists, which it was made of.
    fn replace(&mut self, taken: usize, count: usize) {
        let place = self.height - taken;
        self.entries.swap(place, self.height);
        self.entries[place].count = count;
        self.height = place + 1;
    }

    fn step(&mut self, sheet: &Sheet, part: Part) -> Result<(), u32> {
        let free = self.entries[self.height].slot;
        match part {
            Part::Constant(up) => {
                self.slots[free][0] = up as u32;
                self.replace(0, 1);
            }
            Part::Name(_, place) => {
                let count = load(sheet.words(place), &mut self.slots[free]);
                self.replace(0, count);
            }
            Part::One(operation) => {
                let a = self.entries[self.height - 1];
                let [list, slot] = self.slots.get_disjoint_mut([a.slot, free]).unwrap();
                let count = operations::one(operation, &list[..a.count], slot)?;
                self.replace(1, count);
            }
            Part::Two(operation) => {
                let a = self.entries[self.height - 2];
                let b = self.entries[self.height - 1];
                let [first, second, slot] = self.slots.get_disjoint_mut([a.slot, b.slot, free]).unwrap();
                let count = operations::two(operation, &first[..a.count], &second[..b.count], slot)?;
                self.replace(2, count);
            }
        }
        Ok(())
    }

    /// The parts of a formula: 5 or 6 at the first that meets one; else its list is on top.
    fn work_out(&mut self, sheet: &Sheet, formula: &Formula) -> Result<(), u32> {
        for part in formula.parts() {
            self.step(sheet, *part)?;
        }
        Ok(())
    }
}

/// The formula call: sheet faults; 10, 11, 8, 12, 13; 18; 5 or 6; 7.
pub fn evaluate(sheet: &[u8], text: &[u8], work: &mut [u32], out: &mut [u32]) -> Result<usize, u32> {
    let sheet = Sheet::judge(sheet)?;
    let mut formula = Formula::new();
    formula.read_for(&sheet, text)?;
    let mut stack = Stack::new(work)?;
    stack.work_out(&sheet, &formula)?;
    let list = stack.list(0);
    out.get_mut(..list.len()).ok_or(7u32)?.copy_from_slice(list);
    Ok(list.len())
}

/// The claim: sheet faults; F's 10, 11, 8, 12, 13; G's; 18; F's 5 or 6; G's. G is worked out above F's list.
pub fn claim(sheet: &[u8], f_text: &[u8], g_text: &[u8], work: &mut [u32]) -> Result<Verdict, u32> {
    let sheet = Sheet::judge(sheet)?;
    let (mut f, mut g) = (Formula::new(), Formula::new());
    f.read_for(&sheet, f_text)?;
    g.read_for(&sheet, g_text)?;
    let mut stack = Stack::new(work)?;
    stack.work_out(&sheet, &f)?;
    stack.work_out(&sheet, &g)?;
    Ok(operations::implication(stack.list(0), stack.list(1)))
}
