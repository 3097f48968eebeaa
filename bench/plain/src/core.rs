//! One core: its registers, its cache, what it waits for, and its phase.

use crate::cache::{Cache, Hits};
use crate::instruction::{decode, Code, Instruction};
use crate::job::Job;

#[derive(Clone, Copy)]
pub enum Halt {
    Exit(u32),
    Break,
    Illegal(u32),
    Fetch(u32),
    Jump(u32),
    Misaligned(u32),
    Range(u32),
}

/// A load, a store or an AMO.
#[derive(Clone, Copy)]
pub struct Access {
    pub code: Code,
    pub rd: u8,
    pub address: u32,
    pub operand: u32,
}

/// The access that a core waits for.
#[derive(Clone, Copy)]
pub struct Want {
    pub access: Access,
    pub line: u32,
    pub is_write: bool,
    pub issue: u32,
    pub post: Option<u32>,
    pub victim: Option<u32>,
}

/// An access that was done, with what it found and what it left.
pub struct Touch {
    pub slot: u32,
    pub address: u32,
    pub old: u32,
    pub new: u32,
    pub core: u8,
    pub width: u8,
    pub is_write: bool,
}

impl Touch {
    /// That of an access which found one word and left another.
    pub fn new(slot: u32, core: u8, code: Code, address: u32, old: u32, new: u32) -> Touch {
        let width = code.width();
        let reached = |word: u32| match width {
            1 => word >> (8 * (address & 3)) & 0xff,
            2 => word >> (8 * (address & 2)) & 0xffff,
            _ => word,
        };
        let (old, new) = (reached(old), reached(new));
        Touch { slot, address, old, new, core, width: width as u8, is_write: code.is_write() }
    }
}

/// The lines that a core has to write back, at most one for each core.
#[derive(Default)]
pub struct BackQueue {
    lines: [u32; 16],
    first: usize,
    count: usize,
}

impl BackQueue {
    pub fn is_empty(&self) -> bool {
        self.count == 0
    }

    fn push(&mut self, line: u32) {
        self.lines[(self.first + self.count) % 16] = line;
        self.count += 1;
    }

    pub fn pop(&mut self) -> u32 {
        let line = self.lines[self.first % 16];
        self.first = (self.first + 1) % 16;
        self.count -= 1;
        line
    }
}

/// What a core does first where it could do both.
#[derive(Clone, Copy, PartialEq)]
pub enum Turn {
    Request,
    WriteBack,
}

/// How long the requests of a core waited that were served.
#[derive(Default)]
pub struct Waits {
    pub count: u64,
    pub greatest: u32,
    pub sum: u64,
}

impl Waits {
    pub fn add(&mut self, wait: u32) {
        self.count += 1;
        self.greatest = self.greatest.max(wait);
        self.sum += u64::from(wait);
    }
}

/// Twice as many as there are, so that any six bits name one; `NOWHERE` is among the upper half.
pub type Registers = [u32; 64];

pub struct Core<const W: usize> {
    pub number: u8,
    pub registers: Registers,
    pub pc: u32,
    pub halt: Option<Halt>,
    pub retired: u64,
    text: Box<[Instruction]>,
    pub cache: Cache<W>,
    pub want: Option<Want>,
    pub back: BackQueue,
    pub turn: Turn,
    pub waits: Waits,
}

/// Why a core takes no more instructions in a slot.
enum Stop {
    Halt(Halt),
    Miss(Access),
}

/// A Shared line that made room for another: no core has to be told but the bus.
pub type Dropped = Option<u32>;

impl<const W: usize> Core<W> {
    pub fn new(job: &Job, number: usize) -> Core<W> {
        let mut registers = [0; 64];
        registers[10] = number as u32;
        registers[11] = job.cores;
        Core {
            number: number as u8,
            registers,
            pc: 0,
            halt: None,
            retired: 0,
            text: job.texts[number].iter().map(|&word| decode(word)).collect(),
            cache: Cache::new(job.lines(), job.sets, job.ways),
            want: None,
            back: BackQueue::default(),
            turn: Turn::Request,
            waits: Waits::default(),
        }
    }

    pub fn is_running(&self) -> bool {
        self.halt.is_none() && self.want.is_none()
    }

    /// The line goes last into the write-back queue, unless it is there.
    pub fn demand(&mut self, line: u32) {
        if !self.cache.mark(line).is_due() {
            self.cache.mark_due(line);
            self.back.push(line);
        }
    }

    /// The phase of a slot. With `KEEP` the accesses are kept. It isn't inlined, so that its loop has the machine registers to itself.
    #[inline(never)]
    pub fn phase<const KEEP: bool>(&mut self, slot: u32, quantum: u32, touches: &mut Vec<Touch>) -> Dropped {
        let text: &[Instruction] = &self.text;
        let mut hits = self.cache.hits();
        let mut pc = self.pc;
        let mut left = quantum;
        while left != 0 {
            let keep = |code: Code, address, old, new| {
                if KEEP {
                    touches.push(Touch::new(slot, self.number, code, address, old, new));
                }
            };
            let Some(&instruction) = text.get(pc as usize / 4) else { break };
            let Some(next) = take(instruction, pc, &mut self.registers, &mut hits, keep) else { break };
            pc = next;
            left -= 1;
        }
        let clock = hits.clock;
        self.cache.set_clock(clock);
        self.pc = pc;
        self.retired += u64::from(quantum - left);
        if left == 0 {
            return None;
        }
        match self.stop() {
            Stop::Halt(halt) => {
                self.halt = Some(halt);
                None
            }
            Stop::Miss(access) => self.miss(slot, access),
        }
    }

    /// Why the instruction at the pc isn't taken.
    fn stop(&self) -> Stop {
        use Code::*;
        let Some(&Instruction { code, rd, rs1, rs2, immediate }) = self.text.get(self.pc as usize / 4) else {
            return Stop::Halt(Halt::Fetch(self.pc));
        };
        let register = |number: u8| self.registers[usize::from(number) % 64];
        let access = Access { code, rd, address: register(rs1).wrapping_add(immediate), operand: register(rs2) };
        Stop::Halt(match code {
            Ecall => Halt::Exit(self.registers[10]),
            Ebreak => Halt::Break,
            Illegal => Halt::Illegal(immediate),
            Jalr => Halt::Jump(access.address & !1),
            Jal | Beq | Bne | Blt | Bge | Bltu | Bgeu => Halt::Jump(self.pc.wrapping_add(immediate)),
            _ if access.address % code.width() != 0 => Halt::Misaligned(access.address),
            _ if !self.cache.has(access.address) => Halt::Range(access.address),
            _ => return Stop::Miss(access),
        })
    }

    /// The core waits from now on. Room is made in its cache where none is.
    fn miss(&mut self, slot: u32, access: Access) -> Dropped {
        let line = access.address / (4 * W as u32);
        let is_held = self.cache.mark(line).is_held();
        let mut victim = if is_held { None } else { self.cache.victim(line) };
        let mut dropped = None;
        if let Some(line) = victim {
            if self.cache.mark(line).is_modified() {
                self.demand(line);
            } else {
                self.cache.drop_line(line);
                dropped = victim.take();
            }
        }
        self.want = Some(Want { access, line, is_write: access.code.is_write(), issue: slot, post: None, victim });
        dropped
    }

    /// The access that was waited for is done: its register is set, and the pc moves on.
    pub fn finish(&mut self, access: Access, word: u32) {
        self.registers[access.rd as usize % 64] = access.code.value(access.address, word);
        self.pc = self.pc.wrapping_add(4);
        self.retired += 1;
        self.want = None;
    }
}

/// Takes an instruction, and gives the pc after it. `None`: the core halts or waits on it, and nothing is changed.
#[inline(always)]
fn take<const W: usize>(
    instruction: Instruction,
    pc: u32,
    registers: &mut Registers,
    hits: &mut Hits<W>,
    mut keep: impl FnMut(Code, u32, u32, u32),
) -> Option<u32> {
    use Code::*;
    let Instruction { code, rd, rs1, rs2, immediate } = instruction;
    let (a, b) = (registers[rs1 as usize % 64], registers[rs2 as usize % 64]);
    let (signed_a, signed_b, signed_immediate) = (a as i32, b as i32, immediate as i32);
    let address = a.wrapping_add(immediate);
    let next = pc.wrapping_add(4);
    let branch = |is_taken: bool| if is_taken { aligned(pc.wrapping_add(immediate)) } else { Some(next) };
    let mut set = |value: u32| registers[rd as usize % 64] = value;
    macro_rules! load {
        ($code:expr) => {{
            let word = *hits.reach($code, address)?;
            keep($code, address, word, word);
            set($code.value(address, word));
        }};
    }
    macro_rules! store {
        ($code:expr) => {{
            let word = hits.reach($code, address)?;
            let old = *word;
            *word = $code.changed(address, old, b);
            keep($code, address, old, *word);
            old
        }};
    }
    match code {
        Lui => set(immediate),
        Auipc => set(pc.wrapping_add(immediate)),
        Jal => {
            let target = aligned(pc.wrapping_add(immediate))?;
            set(next);
            return Some(target);
        }
        Jalr => {
            let target = aligned(address & !1)?;
            set(next);
            return Some(target);
        }
        Beq => return branch(a == b),
        Bne => return branch(a != b),
        Blt => return branch(signed_a < signed_b),
        Bge => return branch(signed_a >= signed_b),
        Bltu => return branch(a < b),
        Bgeu => return branch(a >= b),
        Lb => load!(Lb),
        Lh => load!(Lh),
        Lw => load!(Lw),
        Lbu => load!(Lbu),
        Lhu => load!(Lhu),
        Sb => _ = store!(Sb),
        Sh => _ = store!(Sh),
        Sw => _ = store!(Sw),
        Addi => set(a.wrapping_add(immediate)),
        Slli => set(a << (immediate % 32)),
        Slti => set((signed_a < signed_immediate).into()),
        Sltiu => set((a < immediate).into()),
        Xori => set(a ^ immediate),
        Srli => set(a >> (immediate % 32)),
        Srai => set((signed_a >> (immediate % 32)) as u32),
        Ori => set(a | immediate),
        Andi => set(a & immediate),
        Add => set(a.wrapping_add(b)),
        Sub => set(a.wrapping_sub(b)),
        Sll => set(a << (b % 32)),
        Slt => set((signed_a < signed_b).into()),
        Sltu => set((a < b).into()),
        Xor => set(a ^ b),
        Srl => set(a >> (b % 32)),
        Sra => set((signed_a >> (b % 32)) as u32),
        Or => set(a | b),
        And => set(a & b),
        Fence => (),
        Ecall | Ebreak | Illegal => return None,
        Amoadd => set(store!(Amoadd)),
        Amoswap => set(store!(Amoswap)),
        Amoxor => set(store!(Amoxor)),
        Amoor => set(store!(Amoor)),
        Amoand => set(store!(Amoand)),
        Amomin => set(store!(Amomin)),
        Amomax => set(store!(Amomax)),
        Amominu => set(store!(Amominu)),
        Amomaxu => set(store!(Amomaxu)),
    }
    Some(next)
}

/// The target of a jump, if it is one.
#[inline(always)]
fn aligned(target: u32) -> Option<u32> {
    (target % 4 == 0).then_some(target)
}
