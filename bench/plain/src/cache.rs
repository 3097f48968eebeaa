//! One core's cache. It holds copies of lines; which line stands where is known by a mark for each line of memory.

use crate::instruction::Code;

/// Where a core stands with a line.
#[derive(Clone, Copy, Default)]
pub struct Mark(u16);

impl Mark {
    const MODIFIED: u16 = 0x8000;
    const DUE: u16 = 0x4000; // in the write-back queue
    const PLACE: u16 = 0x0fff; // the entry's place, counted from 1; 0 where the line isn't held

    #[inline(always)]
    pub fn is_held(self) -> bool {
        self.0 != 0
    }

    #[inline(always)]
    pub fn is_modified(self) -> bool {
        self.0 & Mark::MODIFIED != 0
    }

    pub fn is_due(self) -> bool {
        self.0 & Mark::DUE != 0
    }

    /// The entry's place; past all entries where the line isn't held.
    #[inline(always)]
    fn place(self) -> usize {
        usize::from(self.0 & Mark::PLACE).wrapping_sub(1)
    }

    fn shared(place: usize) -> Mark {
        Mark(place as u16 + 1)
    }
}

/// A place of the cache, for one line of W words.
#[derive(Clone)]
pub struct Entry<const W: usize> {
    line: u32,
    /// When it was used last. A run has fewer accesses than the type has values.
    used: u32,
    words: [u32; W],
}

const FREE: u32 = u32::MAX;

pub struct Cache<const W: usize> {
    marks: Box<[Mark]>,
    entries: Box<[Entry<W>]>,
    clock: u32,
    ways: usize,
    set_mask: u32,
}

impl<const W: usize> Cache<W> {
    pub fn new(lines: usize, sets: u32, ways: u32) -> Cache<W> {
        let entry = Entry { line: FREE, used: 0, words: [0; W] };
        Cache {
            marks: vec![Mark::default(); lines].into(),
            entries: vec![entry; (sets * ways) as usize].into(),
            clock: 1,
            ways: ways as usize,
            set_mask: sets - 1,
        }
    }

    /// Whether memory has an address.
    pub fn has(&self, address: u32) -> bool {
        (address as usize) < 4 * W * self.marks.len()
    }

    pub fn mark(&self, line: u32) -> Mark {
        self.marks[line as usize]
    }

    /// The words of a line that is held.
    pub fn words(&self, line: u32) -> &[u32; W] {
        &self.entries[self.mark(line).place()].words
    }

    /// The entries of a line's set.
    fn set(&self, line: u32) -> std::ops::Range<usize> {
        let first = (line & self.set_mask) as usize * self.ways;
        first..first + self.ways
    }

    /// The least recently used line of the line's set, where that is full.
    pub fn victim(&self, line: u32) -> Option<u32> {
        let mut oldest: Option<&Entry<W>> = None;
        for entry in &self.entries[self.set(line)] {
            if entry.line == FREE {
                return None;
            }
            if oldest.is_none_or(|oldest| entry.used < oldest.used) {
                oldest = Some(entry);
            }
        }
        oldest.map(|entry| entry.line)
    }

    /// Takes the line out. It is held.
    pub fn drop_line(&mut self, line: u32) {
        let mark = std::mem::take(&mut self.marks[line as usize]);
        self.entries[mark.place()].line = FREE;
    }

    /// The line stays, Shared.
    pub fn keep_shared(&mut self, line: u32) {
        let mark = &mut self.marks[line as usize];
        *mark = Mark::shared(mark.place());
    }

    /// The line has to be written back.
    pub fn mark_due(&mut self, line: u32) {
        self.marks[line as usize].0 |= Mark::DUE;
    }

    /// The line stands at the front with this mode. Where it isn't held its words are these, and its set has room.
    #[inline(always)]
    pub fn put(&mut self, line: u32, is_modified: bool, words: &[u32; W]) -> &mut [u32; W] {
        let mut place = self.marks[line as usize].place();
        if place >= self.entries.len() {
            place = self.set(line).start;
            while self.entries[place].line != FREE {
                place += 1;
            }
            self.entries[place].line = line;
            self.entries[place].words = *words;
        }
        let mut mark = Mark::shared(place);
        if is_modified {
            mark.0 |= Mark::MODIFIED;
        }
        self.marks[line as usize] = mark;
        let entry = &mut self.entries[place];
        entry.used = self.clock;
        self.clock += 1;
        &mut entry.words
    }

    /// The lines that are held and whether each is Modified, the most recently used first.
    pub fn held(&self) -> Vec<(u32, bool)> {
        let mut entries: Vec<&Entry<W>> = self.entries.iter().filter(|entry| entry.line != FREE).collect();
        entries.sort_unstable_by_key(|entry| std::cmp::Reverse(entry.used));
        entries.iter().map(|entry| (entry.line, self.mark(entry.line).is_modified())).collect()
    }

    /// The cache for the hits of one phase.
    #[inline(always)]
    pub fn hits(&mut self) -> Hits<'_, W> {
        Hits { marks: &self.marks, entries: &mut self.entries, clock: self.clock }
    }

    #[inline(always)]
    pub fn set_clock(&mut self, clock: u32) {
        self.clock = clock;
    }
}

/// What a phase needs of a cache, by itself so that it stands in machine registers while instructions are taken.
pub struct Hits<'a, const W: usize> {
    marks: &'a [Mark],
    entries: &'a mut [Entry<W>],
    pub clock: u32,
}

impl<const W: usize> Hits<'_, W> {
    /// The word that an access reaches, where the cache permits it. Its line becomes the most recently used one.
    #[inline(always)]
    pub fn reach(&mut self, code: Code, address: u32) -> Option<&mut u32> {
        if address % code.width() != 0 {
            return None;
        }
        let mark = *self.marks.get(address as usize / (4 * W))?;
        if code.is_write() && !mark.is_modified() {
            return None;
        }
        let entry = self.entries.get_mut(mark.place())?;
        entry.used = self.clock;
        self.clock += 1;
        Some(&mut entry.words[address as usize / 4 % W])
    }
}
