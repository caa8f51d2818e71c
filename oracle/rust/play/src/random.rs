//! Random calls and states. Everything here follows from a seed.
use crate::script::*;
use crate::State;

pub struct Rng(pub u64);

impl Rng {
    pub fn next(&mut self) -> u64 {
        self.0 = self.0.wrapping_add(0x9E37_79B9_7F4A_7C15);
        let mut z = self.0;
        z = (z ^ (z >> 30)).wrapping_mul(0xBF58_476D_1CE4_E5B9);
        z = (z ^ (z >> 27)).wrapping_mul(0x94D0_49BB_1331_11EB);
        z ^ (z >> 31)
    }
    pub fn below(&mut self, n: usize) -> usize {
        (self.next() >> 11) as usize % n
    }
    pub fn chance(&mut self, of: usize) -> bool {
        self.below(of) == 0
    }
    pub fn byte(&mut self) -> u8 {
        self.next() as u8
    }
    pub fn pick<T: Copy>(&mut self, from: &[T]) -> T {
        from[self.below(from.len())]
    }
}

/// Document 01's numbers, which say where calls are worth making: line; contention, block and border origin.
pub const LINE: [usize; 2] = [224, 228];
pub const CONTENTION: [usize; 2] = [14_335, 14_361];
pub const BLOCK: [usize; 2] = [14_338, 14_364];
pub const BORDER: [usize; 2] = [8_945, 8_875];

/// Clocks at which something begins or ends, rising: interrupt, border, picture, line ends, last lines, frame.
pub fn edges(machine: u8) -> [usize; 12] {
    let m = machine as usize;
    let (line, contention, border) = (LINE[m], CONTENTION[m], BORDER[m]);
    [
        32,
        border,
        border + 160,
        contention,
        contention + 128,
        contention + line,
        contention + 100 * line + 128,
        contention + 191 * line,
        contention + 191 * line + 128,
        border + 239 * line + 160,
        border + 240 * line,
        FRAME[m],
    ]
}

fn wanted_clock(r: &mut Rng, machine: u8) -> usize {
    let m = machine as usize;
    let on_a_line = CONTENTION[m] + r.below(192) * LINE[m] + r.pick(&[0, 124, 128, LINE[m]]);
    let on_the_border = BORDER[m] + r.below(240) * LINE[m] + r.pick(&[0, 160, LINE[m]]);
    let edge = r.pick(&edges(machine));
    (r.pick(&[edge, edge, on_a_line, on_the_border]) + FRAME[m] + r.below(33) - 16) % FRAME[m]
}

/// Ports that somebody uses, ports whose decoded lines are random, and any ports.
pub fn port(r: &mut Rng) -> u16 {
    match r.below(4) {
        0 => r.pick(&[
            0xFEFE, 0x7FFE, 0x7FFD, 0x7FFC, 0xFFFD, 0xFFFC, 0xBFFD, 0xBFFC, 0xFADF, 0xFBDF, 0xFFDF, 0x001F, 0x40FF,
            0x40FE, 0xFFFF, 0xC0FF,
        ]),
        1 => [0x0001, 0x0002, 0x0020, 0x0040, 0x0080, 0x0100, 0x0400, 0x4000, 0x8000]
            .iter()
            .filter(|_| r.chance(2))
            .sum(),
        _ => r.next() as u16,
    }
}

fn address(r: &mut Rng) -> u16 {
    match r.below(3) {
        0 => 0x4000 + r.below(0x1C00) as u16,
        1 => 0xC000 + r.below(0x1C00) as u16,
        _ => r.next() as u16,
    }
}

fn clocks(r: &mut Rng, machine: u8, clock: usize, lengths: u8) -> u32 {
    let frame = FRAME[machine as usize];
    let n = match lengths {
        0 => r.below(24),
        1 => match r.below(6) {
            0 => 0,
            1 => r.below(8),
            2 => r.below(256),
            3 => r.below(4096),
            4 => r.below(65_536),
            _ => 65_535 - r.below(4),
        },
        _ => (wanted_clock(r, machine) + frame - clock) % frame,
    };
    n.min(65_535) as u32
}

fn device(r: &mut Rng) -> Record {
    let i = r.below(35);
    let v = match i {
        24 | 29 | 31 => r.below(2) as u8,
        25 => r.chance(12) as u8,
        27 => return device(r),
        _ => {
            if r.chance(3) {
                0xFF
            } else {
                r.byte()
            }
        }
    };
    record(b'D', i as u8, 0, v as u32)
}

/// A call that a machine at `clock` may be given. `lengths` says how long waits are: 0 below 24, 1 any, 2 up to an edge.
pub fn call(r: &mut Rng, machine: u8, clock: usize, lengths: u8, locks: bool) -> Record {
    let pages = RAM_BYTES[machine as usize] / 16_384;
    let paging = |r: &mut Rng| if locks && r.chance(16) { r.byte() } else { r.byte() & 0xDF };
    match r.below(100) {
        0..=9 => record(b'N', 0, 0, clocks(r, machine, clock, lengths)),
        10..=24 => record(b'M', 0, address(r), clocks(r, machine, clock, lengths)),
        25..=33 => record(b'O', 0, address(r), clocks(r, machine, clock, lengths)),
        34..=51 => record(b'I', 0, port(r), 0),
        52..=71 => {
            let y = port(r);
            let x = if y & 0x8003 == 1 { paging(r) } else { r.byte() };
            record(b'W', x, y, 0)
        }
        72..=79 => device(r),
        80..=88 => record(b'P', r.byte(), address(r), 0),
        89..=91 => record(b'G', 0, address(r), 0),
        92..=94 => record(b'7', paging(r), 0, 0),
        95 => record(r.pick(b"8TFV"), 0, 0, 0),
        96 => record(b'B', r.below(5) as u8, 0, 0),
        97 => record(b'Q', r.below(9) as u8, 0, 0),
        98 => {
            if r.chance(4) {
                record(b'L', r.below(pages) as u8, 0, r.next() as u32)
            } else {
                record(b'C', 0, 0, 0)
            }
        }
        _ => {
            if r.chance(4) {
                record(b'Z', 0, 0, 0)
            } else {
                record(b'T', 0, 0, 0)
            }
        }
    }
}

/// The first clock at which the block position is `painted`, of 1..=6144.
fn painted_clock(m: usize, painted: usize) -> usize {
    let last = painted - 1;
    BLOCK[m] + last / 32 * LINE[m] + last % 32 * 4
}

fn block_position(m: usize, clock: usize) -> usize {
    if clock < BLOCK[m] {
        return 0;
    }
    let (line, column) = ((clock - BLOCK[m]) / LINE[m], (clock - BLOCK[m]) % LINE[m] / 4 + 1);
    let position = if column > 32 { 32 * (line + 1) } else { 32 * line + column };
    position.min(6144)
}

/// The border position in pairs, and whether it is frame end.
fn border_position(m: usize, clock: usize) -> (usize, bool) {
    if clock < BORDER[m] {
        return (0, false);
    }
    let (line, pixel) = ((clock - BORDER[m]) / LINE[m], (clock - BORDER[m]) % LINE[m] + 1);
    let (line, pixel) = if pixel > 160 { (line + 1, 0) } else { (line, pixel) };
    if line >= 240 {
        (38_400, true)
    } else {
        (160 * line + pixel, false)
    }
}

/// A sound state, most often one that no history from a start reaches.
pub fn state(r: &mut Rng, machine: u8) -> State {
    let m = machine as usize;
    let clock = if r.chance(2) { r.below(FRAME[m]) } else { wanted_clock(r, machine) };
    let most = block_position(m, clock);
    let some = r.below(most + 1);
    let painted = r.pick(&[0, most, most - most.min(1), some]);
    let (pairs, end) = border_position(m, clock);
    let blocked = end && r.chance(2);
    let some = r.below(pairs + 1);
    let pairs = if blocked { 0 } else { r.pick(&[0, pairs, some]) };
    let beam_at = match pairs {
        _ if blocked => FRAME[m] - 1,
        0 => 0,
        p => BORDER[m] + (p - 1) / 160 * LINE[m] + (p - 1) % 160,
    };
    assert!(border_position(m, beam_at) == if blocked { (38_400, true) } else { (pairs, false) });
    State {
        clock,
        painted,
        painted_at: (painted > 0).then(|| painted_clock(m, painted)),
        reported: r.byte() & 7,
        beam: r.byte() & 7,
        blocked,
        pairs,
        beam_at,
    }
}
