//! Instructions: RV32I and the word AMO instructions, decoded once for each word of a text.

use Code::*;

#[derive(Clone, Copy, PartialEq, Eq)]
#[rustfmt::skip]
pub enum Code {
    Lui, Auipc, Jal, Jalr,
    Beq, Bne, Blt, Bge, Bltu, Bgeu,
    Lb, Lh, Lw, Lbu, Lhu,
    Sb, Sh, Sw,
    Addi, Slli, Slti, Sltiu, Xori, Srli, Srai, Ori, Andi,
    Add, Sub, Sll, Slt, Sltu, Xor, Srl, Sra, Or, And,
    Fence, Ecall, Ebreak,
    Amoadd, Amoswap, Amoxor, Amoor, Amoand, Amomin, Amomax, Amominu, Amomaxu,
    Illegal,
}

/// What stands for x0 where a register is written: a place that is never read.
const NOWHERE: u8 = 32;

/// A decoded word. The immediate of `Illegal` is the word, that of an AMO 0.
#[derive(Clone, Copy)]
pub struct Instruction {
    pub code: Code,
    pub rd: u8,
    pub rs1: u8,
    pub rs2: u8,
    pub immediate: u32,
}

/// Bits `low` and above of a word, as many as `count`.
fn bits(word: u32, low: u32, count: u32) -> u32 {
    word >> low & ((1 << count) - 1)
}

/// The word's sign bit as 0 or as ones from bit `low` on.
fn sign_from(word: u32, low: u32) -> u32 {
    ((word as i32 >> 31) as u32) << low
}

fn i_immediate(word: u32) -> u32 {
    (word as i32 >> 20) as u32
}

fn s_immediate(word: u32) -> u32 {
    sign_from(word, 11) | bits(word, 25, 6) << 5 | bits(word, 7, 5)
}

fn b_immediate(word: u32) -> u32 {
    sign_from(word, 12) | bits(word, 7, 1) << 11 | bits(word, 25, 6) << 5 | bits(word, 8, 4) << 1
}

fn j_immediate(word: u32) -> u32 {
    sign_from(word, 20) | bits(word, 12, 8) << 12 | bits(word, 20, 1) << 11 | bits(word, 21, 10) << 1
}

const PLAIN: u32 = 0b000_0000;
const OTHER: u32 = 0b010_0000; // funct7 of sub, sra and srai

pub fn decode(word: u32) -> Instruction {
    let (funct3, funct7) = (bits(word, 12, 3), bits(word, 25, 7));
    let (rd, rs1, rs2) = (bits(word, 7, 5) as u8, bits(word, 15, 5) as u8, bits(word, 20, 5) as u8);
    let (code, immediate) = match bits(word, 0, 7) {
        0b011_0111 => (Lui, word & 0xffff_f000),
        0b001_0111 => (Auipc, word & 0xffff_f000),
        0b110_1111 => (Jal, j_immediate(word)),
        0b110_0111 if funct3 == 0 => (Jalr, i_immediate(word)),
        0b110_0011 => (branch(funct3), b_immediate(word)),
        0b000_0011 => (load(funct3), i_immediate(word)),
        0b010_0011 => (store(funct3), s_immediate(word)),
        0b001_0011 => match with_immediate(funct3, funct7) {
            shift @ (Slli | Srli | Srai) => (shift, u32::from(rs2)),
            code => (code, i_immediate(word)),
        },
        0b011_0011 => (with_registers(funct3, funct7), 0),
        0b000_1111 if funct3 == 0 => (Fence, 0),
        0b010_1111 if funct3 == 0b010 => (amo(bits(word, 27, 5)), 0),
        _ if word == 0x0000_0073 => (Ecall, 0),
        _ if word == 0x0010_0073 => (Ebreak, 0),
        _ => (Illegal, word),
    };
    let immediate = if code == Illegal { word } else { immediate };
    let is_store = matches!(code, Sb | Sh | Sw); // its field rd is a part of the immediate
    let rd = if rd == 0 || is_store { NOWHERE } else { rd };
    Instruction { code, rd, rs1, rs2, immediate }
}

fn branch(funct3: u32) -> Code {
    [Beq, Bne, Illegal, Illegal, Blt, Bge, Bltu, Bgeu][funct3 as usize]
}

fn load(funct3: u32) -> Code {
    [Lb, Lh, Lw, Illegal, Lbu, Lhu, Illegal, Illegal][funct3 as usize]
}

fn store(funct3: u32) -> Code {
    [Sb, Sh, Sw, Illegal, Illegal, Illegal, Illegal, Illegal][funct3 as usize]
}

fn with_immediate(funct3: u32, funct7: u32) -> Code {
    match (funct3, funct7) {
        (0b000, _) => Addi,
        (0b001, PLAIN) => Slli,
        (0b010, _) => Slti,
        (0b011, _) => Sltiu,
        (0b100, _) => Xori,
        (0b101, PLAIN) => Srli,
        (0b101, OTHER) => Srai,
        (0b110, _) => Ori,
        (0b111, _) => Andi,
        _ => Illegal,
    }
}

fn with_registers(funct3: u32, funct7: u32) -> Code {
    match (funct3, funct7) {
        (0b000, PLAIN) => Add,
        (0b000, OTHER) => Sub,
        (0b001, PLAIN) => Sll,
        (0b010, PLAIN) => Slt,
        (0b011, PLAIN) => Sltu,
        (0b100, PLAIN) => Xor,
        (0b101, PLAIN) => Srl,
        (0b101, OTHER) => Sra,
        (0b110, PLAIN) => Or,
        (0b111, PLAIN) => And,
        _ => Illegal,
    }
}

fn amo(funct5: u32) -> Code {
    match funct5 {
        0b00000 => Amoadd,
        0b00001 => Amoswap,
        0b00100 => Amoxor,
        0b01000 => Amoor,
        0b01100 => Amoand,
        0b10000 => Amomin,
        0b10100 => Amomax,
        0b11000 => Amominu,
        0b11100 => Amomaxu,
        _ => Illegal,
    }
}

impl Code {
    /// Of a load, a store or an AMO: how many bytes it reaches.
    #[inline(always)]
    pub fn width(self) -> u32 {
        match self {
            Lb | Lbu | Sb => 1,
            Lh | Lhu | Sh => 2,
            _ => 4,
        }
    }

    /// Whether a load, a store or an AMO needs its line Modified.
    #[inline(always)]
    pub fn is_write(self) -> bool {
        !matches!(self, Lb | Lh | Lw | Lbu | Lhu)
    }

    /// What an access gives to its register: of a load the bytes that it reaches, of an AMO the old word.
    #[inline(always)]
    pub fn value(self, address: u32, word: u32) -> u32 {
        let byte = word >> (8 * (address & 3));
        let half = word >> (8 * (address & 2));
        match self {
            Lb => byte as i8 as u32,
            Lbu => u32::from(byte as u8),
            Lh => half as i16 as u32,
            Lhu => u32::from(half as u16),
            _ => word,
        }
    }

    /// The word that an access leaves.
    #[inline(always)]
    pub fn changed(self, address: u32, old: u32, operand: u32) -> u32 {
        let put = |mask: u32, shift: u32| old & !(mask << shift) | (operand & mask) << shift;
        match self {
            Sb => put(0xff, 8 * (address & 3)),
            Sh => put(0xffff, 8 * (address & 2)),
            Sw | Amoswap => operand,
            Amoadd => old.wrapping_add(operand),
            Amoxor => old ^ operand,
            Amoor => old | operand,
            Amoand => old & operand,
            Amomin => (old as i32).min(operand as i32) as u32,
            Amomax => (old as i32).max(operand as i32) as u32,
            Amominu => old.min(operand),
            Amomaxu => old.max(operand),
            _ => old,
        }
    }
}
