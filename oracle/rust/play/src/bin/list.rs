//! list: makes the stored script, on standard output. It plays each record as it goes, so as to know the frame clock.
use play::random::{self, edges, Rng};
use play::script::*;
use play::Side;
use std::io::Write;

struct List {
    side: Box<dyn Side>,
    machine: u8,
    bytes: Vec<u8>,
}

impl List {
    /// As the original starts by itself: the stored script has no other colour.
    fn start(&mut self, machine: u8, ay: u8) {
        let r = start(machine, ay, WHITE);
        self.side = play::start(r);
        self.machine = machine;
        self.bytes.extend(r.encode());
    }

    fn add(&mut self, op: u8, x: u8, y: u16, z: u32) {
        self.call(record(op, x, y, z))
    }

    fn call(&mut self, r: Record) {
        self.side.play(r);
        self.bytes.extend(r.encode());
    }

    /// Plain waits up to a clock, of this frame or the next.
    fn go(&mut self, clock: usize) {
        let frame = FRAME[self.machine as usize];
        while self.side.clock() != clock % frame {
            let n = (clock + frame - self.side.clock()) % frame;
            self.add(b'N', 0, 0, n.min(65_535) as u32);
        }
    }

    fn pages(&mut self, seed: u32) {
        for page in 0..RAM_BYTES[self.machine as usize] / 16_384 {
            self.add(b'L', page as u8, 0, seed + page as u32);
        }
    }

    fn stills(&mut self) {
        for flash in 0..2 {
            self.add(b'K', 0, 0, flash);
        }
    }

    fn look(&mut self) {
        for op in *b"8TFVCH" {
            self.add(op, 0, 0, 0);
        }
    }
}

/// Every call with no time, at the edges of its range.
fn plain_calls(l: &mut List) {
    for machine in 0..2 {
        l.start(machine, 0);
        l.look();
        l.add(b'R', 0, 0, 77);
        l.pages(100);
        for paging in [0x00, 0x07, 0x0B, 0x15, 0x1E, 0x27, 0x00] {
            l.add(b'7', paging, 0, 0);
            for block in 0..6 {
                l.add(b'B', block, 0, 0);
            }
            for addr in [0x0000, 0x3FFF, 0x4000, 0x7FFF, 0x8000, 0xBFFF, 0xC000, 0xFFFF] {
                l.add(b'P', 0xA5, addr, 0);
                l.add(b'G', 0, addr, 0);
            }
            l.stills();
            l.look();
        }
        for page in [0, 1, 2, 3, 5, 7, 8, 9, 255] {
            l.add(b'Q', page, 0, 0);
            l.add(b'L', page, 0, 200 + page as u32);
        }
        l.stills();
        l.add(b'H', 0, 0, 0);
    }
    // stills of page 7 where the write that showed it has locked the byte
    l.start(1, 0);
    l.pages(400);
    for paging in [0x08, 0x28, 0x00] {
        l.add(b'7', paging, 0, 0);
        l.stills();
    }
    for line in (0..192).step_by(13).chain([1, 7, 8, 63, 64, 127, 128, 191, 192, 193, 255, 256, 65_535]) {
        l.add(b'a', 0, 0, line);
    }
    for op in *b"bcde" {
        for offset in [
            0, 1, 31, 32, 0xFF, 0x100, 0x7FF, 0x800, 0x1234, 0x17FF, 0x1800, 0x1801, 0x181F, 0x1820, 0x19AB, 0x1AFF,
            0x1B00, 0x3FFF, 0xFFFF,
        ] {
            l.add(op, 0, 0, offset);
        }
    }
    for bits in [0, 1, 2, 3, 4, 5, 6, 7, 8, 9, 128, 255] {
        l.add(b'f', 0, 0, bits);
    }
}

/// A call of each kind begun at each clock from 9 before to 11 after each edge.
fn at_edges(l: &mut List) {
    let kinds = [
        record(b'N', 0, 0, 1),
        record(b'N', 0, 0, 4),
        record(b'M', 0, 0x4000, 4),
        record(b'O', 0, 0xC000, 3),
        record(b'M', 0, 0x8000, 0),
        record(b'I', 0, 0x40FF, 0),
        record(b'I', 0, 0xFFFE, 0),
        record(b'I', 0, 0x00FF, 0),
        record(b'W', 0, 0x40FE, 0),
        record(b'W', 0, 0x00FE, 0),
        record(b'W', 0, 0x7FFD, 0),
    ];
    for machine in 0..2 {
        l.start(machine, 1);
        l.pages(300);
        for (k, kind) in kinds.into_iter().enumerate() {
            for late in 0..21 {
                for (e, edge) in edges(machine).into_iter().enumerate() {
                    l.go(edge + late - 9);
                    // writes change what they write: border 1..=6, or the page at C000h and the one shown
                    let x = if kind.y == 0x7FFD {
                        [0x01, 0x08, 0x03, 0x0A][(late + e) % 4]
                    } else {
                        ((late + 5 * e) % 6) as u8 + 1
                    };
                    l.call(record(kind.op, x, kind.y, kind.z));
                }
                if late % 7 == 0 {
                    l.add(b'H', 0, 0, 0);
                }
            }
            l.add(b'7', k as u8, 0, 0);
            l.look();
        }
    }
}

/// Every combination of seven decoded lines, read with and without devices, and written.
fn port_classes(l: &mut List) {
    let lines = [0x0001, 0x0002, 0x0020, 0x0100, 0x0400, 0x4000, 0x8000];
    for (machine, ay) in [(0, 0), (0, 1), (1, 0), (1, 1)] {
        l.start(machine, ay);
        l.pages(400);
        l.go(20_000);
        for (i, v) in [(28, 0x91), (30, 0x1E), (32, 0xB1), (33, 0xB2), (34, 0xB3), (26, 0xE7)] {
            l.add(b'D', i, 0, v);
        }
        for mask in 0..128u32 {
            let port: u16 = (0..7).filter(|i| mask >> i & 1 == 1).map(|i| lines[i]).sum();
            for (joystick, mouse) in [(0, 0), (1, 1)] {
                l.add(b'D', 29, 0, joystick);
                l.add(b'D', 31, 0, mouse);
                l.add(b'I', 0, port, 0);
            }
            l.add(b'W', (mask % 8) as u8, port, 0);
        }
        // joystick lines; the extender claims
        for port in [0x001F, 0x003F, 0x005F, 0x009F, 0x00FF, 0xC01D] {
            l.add(b'I', 0, port, 0);
        }
        l.add(b'D', 25, 0, 1);
        for port in [0xFEFE, 0xFFFD, 0xBFFD, 0x7FFD, 0x001F, 0xFFFF] {
            l.add(b'I', 0, port, 0);
            l.add(b'W', 0x02, port, 0);
        }
        l.look();
    }
}

/// Key rows one by one, in each of the three sets, and the tape bit.
fn keys(l: &mut List) {
    l.start(0, 0);
    for row in 0..24u8 {
        l.add(b'D', row, 0, 0xFF - (1 << (row % 5)));
    }
    for tape in [0, 1] {
        l.add(b'D', 24, 0, tape);
        for row in 0..8 {
            l.add(b'I', 0, 0xFFFE & !(0x0100 << row), 0);
        }
        for port in [0xFFFE, 0x00FE, 0x7EFE, 0x55FE, 0x0000] {
            l.add(b'I', 0, port, 0);
        }
        l.add(b'D', 3, 0, 0x00);
    }
}

/// The phases of flash and the two pictures: 34 frames, a page load in the middle of each eighth.
fn frames(l: &mut List) {
    for machine in 0..2 {
        l.start(machine, 0);
        l.pages(500);
        for frame in 0..34 {
            l.go(40_000);
            if frame % 8 == 3 {
                let page = if machine == 0 { 0 } else { 5 };
                l.add(b'L', page, 0, 600 + frame);
                l.add(b'7', if frame % 16 == 3 { 0x08 } else { 0x00 }, 0, 0);
            }
            l.go(FRAME[machine as usize]);
            l.add(b'V', 0, 0, 0);
            l.add(b'H', 0, 0, 0);
        }
        l.look();
    }
}

/// Random histories over both machines, with and without the AY, with waits of each length.
fn histories(l: &mut List, calls: usize) {
    for seed in 0..12u64 {
        let mut r = Rng(seed * 0x1357_9BDF + 1);
        l.start((seed % 2) as u8, (seed / 2 % 2) as u8);
        l.add(b'R', 0, 0, r.next() as u32);
        l.pages(700 + seed as u32);
        for i in 1..=calls {
            let call = random::call(&mut r, l.machine, l.side.clock(), (seed / 4) as u8, seed % 4 == 3);
            l.call(call);
            if i % 128 == 0 {
                l.add(b'H', 0, 0, 0);
            }
        }
        l.look();
    }
}

fn main() {
    play::keep_quiet();
    let mut l = List { side: play::start(start(0, 0, WHITE)), machine: 0, bytes: Vec::new() };
    plain_calls(&mut l);
    at_edges(&mut l);
    port_classes(&mut l);
    keys(&mut l);
    frames(&mut l);
    histories(&mut l, 640);
    std::io::stdout().write_all(&l.bytes).expect("output");
}
