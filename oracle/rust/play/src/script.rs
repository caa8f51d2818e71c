//! A script: records of eight bytes, each a call; and the answers, a line of text each. README.md has the table.
use std::fmt;

/// An operation's letter, and three numbers that it may take: bytes 1, 2..3 and 4..7, little-endian.
#[derive(Clone, Copy, PartialEq, Eq, Debug)]
pub struct Record {
    pub op: u8,
    pub x: u8,
    pub y: u16,
    pub z: u32,
}

pub fn record(op: u8, x: u8, y: u16, z: u32) -> Record {
    Record { op, x, y, z }
}

/// The beam's colour in the original's own start.
pub const WHITE: u8 = 7;

pub fn start(machine: u8, ay: u8, colour: u8) -> Record {
    record(b'S', ay, colour as u16, machine as u32)
}

/// A start from a snapshot, which the stored script does not have: what the file holds.
pub struct Import {
    pub machine: u8,
    pub ay: u8,
    pub paging: u8,
    /// Byte 26 of the header, whose low three bits are the border's colour.
    pub border: u8,
    pub seed: u32,
}

const IMPORT: u8 = b'i';

impl Import {
    pub fn record(&self) -> Record {
        let y = self.border as u16 | (self.ay as u16) << 8 | (self.machine as u16) << 9;
        record(IMPORT, self.paging, y, self.seed)
    }

    pub fn of(r: Record) -> Option<Import> {
        let (border, ay, machine) = (r.y as u8, (r.y >> 8 & 1) as u8, (r.y >> 9 & 1) as u8);
        (r.op == IMPORT).then_some(Import { machine, ay, paging: r.x, border, seed: r.z })
    }

    pub fn page(&self, page: u8) -> Vec<u8> {
        filling(self.seed.wrapping_add(page as u32), 16_384)
    }

    pub fn registers(&self) -> [u8; REGISTERS] {
        registers(self.seed)
    }

    pub fn file(&self) -> Vec<u8> {
        snapshot(self.machine, self.registers(), self.border, self.paging, |page| self.page(page))
    }
}

/// What a snapshot has for the Z80, from a seed: 27 header bytes, PC and the TR-DOS byte.
pub fn registers(seed: u32) -> [u8; REGISTERS] {
    filling(!seed, REGISTERS).try_into().expect("as many")
}

/// The size that is due for a machine and its 7FFD byte: bank 5 or 2 stands twice if it is the paged one.
pub fn snapshot_bytes(machine: u8, paging: u8) -> usize {
    match (machine, paging & 7) {
        (0, _) => 49_179,
        (_, 2 | 5) => 147_487,
        _ => 131_103,
    }
}

/// A snapshot by request Q-4's words: the header with the border in byte 26; then RAM from 4000h, or banks 5, 2 and the
/// paged one, PC, the 7FFD byte, the TR-DOS byte and the remaining banks in rising order.
pub fn snapshot(
    machine: u8,
    registers: [u8; REGISTERS],
    border: u8,
    paging: u8,
    page: impl Fn(u8) -> Vec<u8>,
) -> Vec<u8> {
    let mut file = registers[..26].to_vec();
    file.push(border);
    if machine == 0 {
        (0..3).for_each(|bank| file.extend(page(bank)));
    } else {
        let first = [5, 2, paging & 7];
        first.iter().for_each(|&bank| file.extend(page(bank)));
        file.extend([registers[27], registers[28], paging, registers[29]]);
        (0..8).filter(|bank| !first.contains(bank)).for_each(|bank| file.extend(page(bank)));
    }
    assert_eq!(file.len(), snapshot_bytes(machine, paging));
    file
}

impl Record {
    pub fn encode(self) -> [u8; 8] {
        let ([y0, y1], [z0, z1, z2, z3]) = (self.y.to_le_bytes(), self.z.to_le_bytes());
        [self.op, self.x, y0, y1, z0, z1, z2, z3]
    }

    pub fn decode(b: &[u8]) -> Record {
        record(b[0], b[1], u16::from_le_bytes([b[2], b[3]]), u32::from_le_bytes([b[4], b[5], b[6], b[7]]))
    }
}

impl fmt::Display for Record {
    fn fmt(&self, f: &mut fmt::Formatter<'_>) -> fmt::Result {
        write!(f, "{} x={} y={:#06x} z={}", self.op as char, self.x, self.y, self.z)
    }
}

#[derive(Clone, Copy, PartialEq, Eq, Debug)]
pub enum Answer {
    Done,
    Refused(u8),
    Number(u32),
    /// A timed call: the value read or what the write did, frame closed, interrupt, clocks, blocks.
    Timed([u32; 5]),
    /// The frame clock and the reported border.
    Clock(u32, u8),
    /// A digest each of A, B, border and RAM.
    Digests([u32; 4]),
}

impl fmt::Display for Answer {
    fn fmt(&self, f: &mut fmt::Formatter<'_>) -> fmt::Result {
        match self {
            Answer::Done => write!(f, "-"),
            Answer::Refused(n) => write!(f, "refused {n}"),
            Answer::Number(n) => write!(f, "{n}"),
            Answer::Timed([value, closed, int, clocks, blocks]) => {
                write!(f, "{value} {closed} {int} {clocks} {blocks}")
            }
            Answer::Clock(clock, border) => write!(f, "{clock} {border}"),
            Answer::Digests([a, b, border, ram]) => write!(f, "{a} {b} {border} {ram}"),
        }
    }
}

/// FNV-1a of 32 bits.
pub fn digest(bytes: impl Iterator<Item = u8>) -> u32 {
    bytes.fold(2_166_136_261, |h, b| (h ^ b as u32).wrapping_mul(16_777_619))
}

/// The bytes of a page or a ROM by a seed: each is the top byte of the next number of a congruential generator.
pub fn filling(seed: u32, length: usize) -> Vec<u8> {
    let mut state = seed;
    let mut next = || {
        state = state.wrapping_mul(1_664_525).wrapping_add(1_013_904_223);
        (state >> 24) as u8
    };
    (0..length).map(|_| next()).collect()
}

/// The device record after a start: no key down, tape bit 1, no device but what the start says of the AY.
pub fn devices(ay: u8) -> [u8; 35] {
    let mut d = [0; 35];
    d[..24].fill(0xFF);
    d[24] = 1;
    d[27] = ay;
    d
}

pub const RAM_BYTES: [usize; 2] = [49_152, 131_072];
pub const ROM_BYTES: [usize; 2] = [16_384, 32_768];
pub const SCREEN_FILE: usize = 6_912;
pub const REGISTERS: usize = 30;
pub const FRAME: [usize; 2] = [69_888, 70_908];
