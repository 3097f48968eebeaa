//! The machine: the cores, shared memory with each line's queue and owner, and the bus.

use crate::core::{Core, Touch, Turn, Want};
use crate::job::Job;

/// What of a run is kept beside its end.
#[derive(Clone, Copy, Default)]
pub struct Keep {
    pub trace: bool,
    pub touches: bool,
}

#[derive(Clone, Copy)]
pub enum Name {
    GetS,
    GetM,
    Upg,
}

/// What the owner of a slot does, with the line. `Back` also says whether the line stays Shared.
#[derive(Clone, Copy)]
pub enum Action {
    Idle,
    Post(Name, u32),
    Fill(u32),
    PostFill(Name, u32),
    Back(u32, bool),
}

/// A request that was served.
pub struct Row {
    pub line: u32,
    pub issue: u32,
    pub post: u32,
    pub fill: u32,
    pub core: u8,
    pub is_write: bool,
}

impl Row {
    pub fn wait(&self) -> u32 {
        self.fill - self.issue + 1
    }
}

const NOBODY: u8 = u8::MAX;

/// A line on the bus: its queue of requests, and who has it.
#[derive(Clone)]
struct Line {
    first: u8,
    last: u8,
    /// How many writes are queued.
    writes: u8,
    owner: u8,
    /// The cores that hold it Shared, a bit each.
    sharers: u16,
}

pub struct Machine<const W: usize> {
    pub cores: Vec<Core<W>>,
    lines: Box<[Line]>,
    memory: Box<[[u32; W]]>,
    /// The core that is queued behind each core, at the same line.
    behind: [u8; 16],
    /// The cores that run and don't wait, a bit each.
    running: u16,
    /// The cores that wait or have lines to write back: the others' slots are idle.
    busy: u16,
    slot: u32,
    quantum: u32,
    pub rows: Vec<Row>,
    pub trace: Vec<Action>,
    pub touches: Vec<Touch>,
}

impl<const W: usize> Machine<W> {
    /// The job has W words a line.
    pub fn new(job: &Job, keep: Keep) -> Machine<W> {
        let line = Line { first: NOBODY, last: NOBODY, writes: 0, owner: NOBODY, sharers: 0 };
        let slots = job.slots as usize;
        Machine {
            cores: (0..job.cores as usize).map(|core| Core::new(job, core)).collect(),
            lines: vec![line; job.lines()].into(),
            memory: vec![[0; W]; job.lines()].into(),
            behind: [NOBODY; 16],
            running: u16::MAX >> (16 - job.cores),
            busy: 0,
            slot: 0,
            quantum: job.quantum,
            rows: Vec::with_capacity(slots),
            trace: Vec::with_capacity(if keep.trace { slots } else { 0 }),
            touches: Vec::with_capacity(if keep.touches { 1 << 16 } else { 0 }),
        }
    }

    /// Goes on to a slot, and keeps what was asked for.
    pub fn run(&mut self, to: u32, keep: Keep) {
        match (keep.trace, keep.touches) {
            (false, false) => self.run_keeping::<false, false>(to),
            (true, false) => self.run_keeping::<true, false>(to),
            (false, true) => self.run_keeping::<false, true>(to),
            (true, true) => self.run_keeping::<true, true>(to),
        }
    }

    fn run_keeping<const TRACE: bool, const TOUCHES: bool>(&mut self, to: u32) {
        let mut owner = self.slot as usize % self.cores.len();
        while self.slot < to {
            if self.running == 0 && self.busy == 0 {
                // Nothing happens any more.
                if TRACE {
                    self.trace.resize(to as usize, Action::Idle);
                }
                self.slot = to;
                return;
            }
            let mut running = self.running;
            while running != 0 {
                let core = running.trailing_zeros() as usize;
                running &= running - 1;
                self.phase::<TOUCHES>(core);
            }
            let is_busy = self.busy >> owner & 1 != 0;
            let action = if is_busy { self.act::<TOUCHES>(owner) } else { Action::Idle };
            if TRACE {
                self.trace.push(action);
            }
            self.slot += 1;
            owner += 1;
            if owner == self.cores.len() {
                owner = 0;
            }
        }
    }

    #[inline(always)]
    fn phase<const TOUCHES: bool>(&mut self, number: usize) {
        let core = &mut self.cores[number];
        let dropped = core.phase::<TOUCHES>(self.slot, self.quantum, &mut self.touches);
        if !core.is_running() {
            self.running &= !(1 << number);
        }
        if core.want.is_some() {
            self.busy |= 1 << number;
        }
        if let Some(line) = dropped {
            self.lines[line as usize].sharers &= !(1 << number);
        }
    }

    /// The action of a core in its own slot.
    #[inline(always)]
    fn act<const TOUCHES: bool>(&mut self, number: usize) -> Action {
        let core = &self.cores[number];
        let can_write_back = !core.back.is_empty();
        let request = core.want.filter(|want| self.can_request(number, want));
        let action = match request {
            Some(want) if !can_write_back || core.turn == Turn::Request => self.request::<TOUCHES>(number, want),
            _ if can_write_back => self.write_back(number),
            _ => Action::Idle,
        };
        let core = &self.cores[number];
        if core.want.is_none() && core.back.is_empty() {
            self.busy &= !(1 << number);
        }
        action
    }

    fn can_request(&self, number: usize, want: &Want) -> bool {
        if want.post.is_none() {
            return want.victim.is_none();
        }
        let line = &self.lines[want.line as usize];
        usize::from(line.first) == number && line.owner == NOBODY
    }

    /// Posts a request, serves it, or both.
    #[inline(always)]
    fn request<const TOUCHES: bool>(&mut self, number: usize, want: Want) -> Action {
        self.cores[number].turn = Turn::WriteBack;
        if let Some(post) = want.post {
            self.fill::<TOUCHES>(number, want, post);
            return Action::Fill(want.line);
        }
        let name = match (want.is_write, self.cores[number].cache.mark(want.line).is_held()) {
            (false, _) => Name::GetS,
            (true, false) => Name::GetM,
            (true, true) => Name::Upg,
        };
        self.post(number, want);
        if self.lines[want.line as usize].owner == NOBODY && usize::from(self.lines[want.line as usize].first) == number {
            self.fill::<TOUCHES>(number, want, self.slot);
            return Action::PostFill(name, want.line);
        }
        self.cores[number].want = Some(Want { post: Some(self.slot), ..want });
        Action::Post(name, want.line)
    }

    /// The request goes last into its line's queue. A write takes the line from those that share it, and an owner has to write back.
    #[inline(always)]
    fn post(&mut self, number: usize, want: Want) {
        let line = &mut self.lines[want.line as usize];
        match line.first {
            NOBODY => line.first = number as u8,
            _ => self.behind[usize::from(line.last) % 16] = number as u8,
        }
        line.last = number as u8;
        self.behind[number] = NOBODY;
        if want.is_write {
            line.writes += 1;
            let mut others = line.sharers & !(1 << number);
            line.sharers &= 1 << number;
            while others != 0 {
                self.cores[others.trailing_zeros() as usize].cache.drop_line(want.line);
                others &= others - 1;
            }
        }
        if line.owner != NOBODY {
            self.cores[usize::from(line.owner)].demand(want.line);
            self.busy |= 1 << line.owner;
        }
    }

    /// The request that is first in its line's queue leaves it, and its access is done.
    #[inline(always)]
    fn fill<const TOUCHES: bool>(&mut self, number: usize, want: Want, post: u32) {
        let Want { access, is_write, issue, .. } = want;
        let line = &mut self.lines[want.line as usize];
        let words = &self.memory[want.line as usize];
        let core = &mut self.cores[number];
        let place = access.address as usize / 4 % W;
        line.first = self.behind[number];
        line.writes -= u8::from(is_write);
        let (mut old, mut new) = (words[place], words[place]);
        if is_write {
            let word = &mut core.cache.put(want.line, true, words)[place];
            old = *word;
            new = access.code.changed(access.address, old, access.operand);
            *word = new;
            line.owner = number as u8;
            line.sharers &= !(1 << number);
            if line.first != NOBODY {
                core.demand(want.line);
            }
        } else if line.writes == 0 {
            core.cache.put(want.line, false, words);
            line.sharers |= 1 << number;
        }
        if TOUCHES {
            self.touches.push(Touch::new(self.slot, number as u8, access.code, access.address, old, new));
        }
        core.finish(access, old);
        self.running |= 1 << number;
        let row = Row { line: want.line, issue, post, fill: self.slot, core: number as u8, is_write };
        core.waits.add(row.wait());
        self.rows.push(row);
    }

    /// The first line of the core's write-back queue goes back. It stays Shared where readers alone wait for it.
    #[inline(always)]
    fn write_back(&mut self, number: usize) -> Action {
        let core = &mut self.cores[number];
        let address = core.back.pop();
        let line = &mut self.lines[address as usize];
        self.memory[address as usize] = *core.cache.words(address);
        line.owner = NOBODY;
        let want = core.want.as_mut().filter(|want| want.victim == Some(address));
        let stays = line.first != NOBODY && line.writes == 0 && want.is_none();
        if let Some(want) = want {
            want.victim = None;
        }
        if stays {
            core.cache.keep_shared(address);
            line.sharers |= 1 << number;
        } else {
            core.cache.drop_line(address);
        }
        core.turn = Turn::Request;
        Action::Back(address, stays)
    }

    /// Memory as the cores see it: of each line its owner's copy, else the shared one.
    pub fn flat_memory(&self) -> Vec<[u32; W]> {
        let owned = |line: usize| self.cores.get(usize::from(self.lines[line].owner));
        let words = |line: usize| owned(line).map_or(self.memory[line], |core| *core.cache.words(line as u32));
        (0..self.lines.len()).map(words).collect()
    }
}
