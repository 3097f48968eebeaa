//! The listing of a run, and its summary.

use crate::core::{Core, Halt};
use crate::job::Job;
use crate::machine::{Action, Keep, Machine, Name};

/// A text that grows piece by piece.
struct Text(Vec<u8>);

const DIGITS: &[u8; 16] = b"0123456789abcdef";
const MOST_DIGITS: usize = 20;

/// The two decimal digits of each number below 100.
const PAIRS: [[u8; 2]; 100] = {
    let mut pairs = [[0; 2]; 100];
    let mut number = 0;
    while number < 100 {
        pairs[number] = [DIGITS[number / 10], DIGITS[number % 10]];
        number += 1;
    }
    pairs
};

impl Text {
    #[inline(always)]
    fn put(&mut self, text: &str) -> &mut Text {
        self.0.extend_from_slice(text.as_bytes());
        self
    }

    /// A number in decimal. Twenty bytes are put at once and cut, since that is faster than to put as many as there are.
    #[inline(always)]
    fn number(&mut self, number: impl Into<u64>) -> &mut Text {
        let mut rest: u64 = number.into();
        if rest < 10 {
            self.0.push(DIGITS[rest as usize]);
            return self;
        }
        let mut digits = [0; 2 * MOST_DIGITS];
        let mut first = MOST_DIGITS;
        while rest >= 10 {
            first -= 2;
            [digits[first], digits[first + 1]] = PAIRS[(rest % 100) as usize];
            rest /= 100;
        }
        if rest > 0 {
            first -= 1;
            digits[first] = DIGITS[rest as usize];
        }
        let end = self.0.len() + MOST_DIGITS - first;
        self.0.extend_from_slice(digits[first..].first_chunk::<MOST_DIGITS>().unwrap_or(&[0; MOST_DIGITS]));
        self.0.truncate(end);
        self
    }

    /// A number as `0x` and eight hexadecimal digits.
    #[inline(always)]
    fn hex(&mut self, number: u32) -> &mut Text {
        let mut digits = *b"0x00000000";
        for (place, digit) in digits[2..].iter_mut().rev().enumerate() {
            *digit = DIGITS[(number >> (4 * place)) as usize % 16];
        }
        self.0.extend_from_slice(&digits);
        self
    }

    /// Sixteen bytes, the lowest of each word first, as two hexadecimal digits each.
    fn words(&mut self, words: &[u32; 4]) -> &mut Text {
        let mut digits = [0; 32];
        let bytes = words.iter().flat_map(|word| word.to_le_bytes());
        for (pair, byte) in digits.chunks_exact_mut(2).zip(bytes) {
            pair.copy_from_slice(&[DIGITS[usize::from(byte) / 16], DIGITS[usize::from(byte) % 16]]);
        }
        self.0.extend_from_slice(&digits);
        self
    }
}

/// The whole listing of a machine that has run to its last slot.
pub fn listing<const W: usize>(job: &Job, machine: &Machine<W>, keep: Keep) -> Vec<u8> {
    let mut text = Text(Vec::with_capacity(room(machine)));
    text.put("pmsi listing 1\n");
    shape(&mut text, job);
    for core in &machine.cores {
        end_of_core(&mut text, core);
    }
    memory(&mut text, machine);
    for row in &machine.rows {
        text.put("row");
        request(&mut text, row.core, row.line, row.is_write, row.issue);
        text.number(row.post).put(" fill ").number(row.fill).put(" wait ").number(row.wait()).put("\n");
    }
    for core in &machine.cores {
        open_request(&mut text, core, job.slots);
    }
    waits(&mut text, job, machine);
    if keep.trace {
        for (slot, action) in machine.trace.iter().enumerate() {
            text.put("slot ").number(slot as u32).put(" core ").number(slot as u32 % job.cores);
            action_of(&mut text, *action);
        }
    }
    for touch in &machine.touches {
        text.put("touch ").number(touch.slot).put(" core ").number(touch.core);
        text.put(if touch.is_write { " write " } else { " read " }).number(touch.width);
        text.put(" ").hex(touch.address).put(" ").hex(touch.old).put(" ").hex(touch.new).put("\n");
    }
    text.put("end\n");
    text.0
}

/// The summary: the shape, the waits and the bound.
pub fn summary<const W: usize>(job: &Job, machine: &Machine<W>) -> Vec<u8> {
    let mut text = Text(Vec::new());
    shape(&mut text, job);
    waits(&mut text, job, machine);
    text.0
}

/// About how many bytes the listing has.
fn room<const W: usize>(machine: &Machine<W>) -> usize {
    4096 + 72 * machine.rows.len() + 40 * machine.trace.len() + 72 * machine.touches.len()
}

fn shape(text: &mut Text, job: &Job) {
    text.put("cores ").number(job.cores).put(" quantum ").number(job.quantum).put(" line ").number(job.line_words);
    text.put(" sets ").number(job.sets).put(" ways ").number(job.ways).put(" memory ").number(job.memory);
    text.put(" slots ").number(job.slots).put("\n");
}

fn end_of_core<const W: usize>(text: &mut Text, core: &Core<W>) {
    text.put("core ").number(core.number).put(" pc ").hex(core.pc).put(" retired ").number(core.retired).put(" ");
    match core.halt {
        None => text.put("running"),
        Some(Halt::Exit(value)) => text.put("exit ").number(value),
        Some(Halt::Break) => text.put("break"),
        Some(Halt::Illegal(word)) => text.put("illegal ").hex(word),
        Some(Halt::Fetch(pc)) => text.put("fetch ").hex(pc),
        Some(Halt::Jump(target)) => text.put("jump ").hex(target),
        Some(Halt::Misaligned(address)) => text.put("misaligned ").hex(address),
        Some(Halt::Range(address)) => text.put("range ").hex(address),
    };
    text.put("\nregs");
    for (number, &value) in core.registers.iter().enumerate().take(32).filter(|(_, &value)| value != 0) {
        text.put(" x").number(number as u32).put("=").hex(value);
    }
    text.put("\nheld");
    for (line, is_modified) in core.cache.held() {
        text.put(" ").number(line).put(if is_modified { ":M" } else { ":S" });
    }
    text.put("\n");
}

/// The sixteen bytes at a time that aren't all 0.
fn memory<const W: usize>(text: &mut Text, machine: &Machine<W>) {
    let memory = machine.flat_memory();
    let (pieces, _) = memory.as_flattened().as_chunks::<4>();
    for (place, words) in pieces.iter().enumerate() {
        if *words != [0; 4] {
            text.put("mem ").hex(16 * place as u32).put(" ").words(words).put("\n");
        }
    }
}

#[inline(always)]
fn request(text: &mut Text, core: u8, line: u32, is_write: bool, issue: u32) {
    text.put(" core ").number(core).put(" line ").number(line);
    text.put(if is_write { " write issue " } else { " read issue " }).number(issue).put(" post ");
}

fn open_request<const W: usize>(text: &mut Text, core: &Core<W>, slots: u32) {
    let Some(want) = core.want else { return };
    text.put("open");
    request(text, core.number, want.line, want.is_write, want.issue);
    match want.post {
        Some(post) => text.number(post),
        None => text.put("-"),
    };
    text.put(" age ").number(slots - want.issue).put("\n");
}

fn waits<const W: usize>(text: &mut Text, job: &Job, machine: &Machine<W>) {
    for core in &machine.cores {
        text.put("waits ").number(core.number).put(" count ").number(core.waits.count);
        text.put(" greatest ").number(core.waits.greatest).put(" sum ").number(core.waits.sum).put("\n");
    }
    text.put("bound ").number(job.bound()).put("\n");
}

fn action_of(text: &mut Text, action: Action) {
    let name = |name| match name {
        Name::GetS => "GetS ",
        Name::GetM => "GetM ",
        Name::Upg => "Upg ",
    };
    match action {
        Action::Idle => text.put(" idle\n"),
        Action::Post(posted, line) => text.put(" post ").put(name(posted)).number(line).put("\n"),
        Action::Fill(line) => text.put(" fill ").number(line).put("\n"),
        Action::PostFill(posted, line) => text.put(" postfill ").put(name(posted)).number(line).put("\n"),
        Action::Back(line, true) => text.put(" back ").number(line).put(" keep\n"),
        Action::Back(line, false) => text.put(" back ").number(line).put(" drop\n"),
    };
}
