//! Our side of a script: the library under test, by its C surface alone.
/// Every call of the C surface, made from include/ulb.h by build.rs.
pub mod c {
    include!(concat!(env!("OUT_DIR"), "/surface.rs"));
}
use play::script::*;
use play::State;

const PLAIN_START: u8 = b'0';

/// A start that scripts do not have: ours is `ulb_start`, which takes no colour, and the original's takes black.
pub fn plain_start(machine: u8, ay: u8) -> Record {
    Record { op: PLAIN_START, ..start(machine, ay, 0) }
}

pub struct Ours {
    pub machine: u8,
    pub state: [u8; 23],
    pub devices: [u8; 35],
    pub rom: Vec<u8>,
    pub ram: Vec<u8>,
    pub a: Vec<u8>,
    pub b: Vec<u8>,
    pub border: Vec<u8>,
}

/// What a code of a port write or of the 7FFD write looks like from outside, where the original answers no code: with no
/// AY its two classes do nothing, and neither does a locked write; a page write of the byte that stands shows nothing.
fn seen(code: u32, ay: u8, before: u8, after: u8) -> u32 {
    match code {
        2 | 3 if ay == 0 => 0,
        5 if before == after => 0,
        6 => 0,
        code => code,
    }
}

fn number(refusal: u8, answer: [u8; 5]) -> Answer {
    assert_eq!(refusal, answer[0], "the returned refusal is the answer's");
    match refusal {
        0 => Answer::Number(u32::from_le_bytes([answer[1], answer[2], answer[3], answer[4]])),
        n => Answer::Refused(n),
    }
}

fn done(refusal: u8) -> Answer {
    if refusal == 0 {
        Answer::Done
    } else {
        Answer::Refused(refusal)
    }
}

fn told(call: impl FnOnce(&mut [u8; 5]) -> u8) -> Answer {
    let mut answer = [0xEE; 5];
    number(call(&mut answer), answer)
}

impl Ours {
    /// Buffers before a start, which has to write over all of them but ROM and devices.
    fn blank(machine: u8, ay: u8) -> Self {
        let m = machine as usize;
        let picture = vec![0x55; 49_152];
        Ours {
            machine,
            state: [0xAA; 23],
            devices: devices(ay),
            rom: vec![0; ROM_BYTES[m]],
            ram: vec![0x55; RAM_BYTES[m]],
            a: picture.clone(),
            b: picture,
            border: vec![0x55; 76_800],
        }
    }

    /// A fresh machine from a snapshot.
    pub fn imported(import: &Import) -> Self {
        let mut ours = Ours::blank(import.machine, import.ay);
        ours.import(import);
        ours
    }

    /// An import into the buffers as they stand, of a machine that may have run; ROM and devices are as after a start.
    pub fn import(&mut self, import: &Import) {
        (self.rom, self.devices) = (vec![0; self.rom.len()], devices(import.ay));
        let mut handed = [0x55; REGISTERS];
        let Ours { state, ram, a, b, border, .. } = self;
        let refusal = c::load_sna(state, ram, &import.file(), &mut handed, a, b, border, import.machine as u32);
        assert_eq!(0, refusal);
        let mut registers = import.registers();
        registers[26] = import.border;
        if import.machine == 0 {
            registers[27..].fill(0);
        }
        assert_eq!(registers, handed, "the registers are the file's");
    }

    /// A fresh machine by the record of its start.
    pub fn new(r: Record) -> Self {
        let mut ours = Ours::blank(r.z as u8, r.x);
        let Ours { state, ram, a, b, border, .. } = &mut ours;
        let refusal = match r.op {
            PLAIN_START => c::start(state, ram, a, b, border, r.z),
            _ => c::start_colour(state, ram, a, b, border, r.z, r.y as u32),
        };
        assert_eq!(0, refusal);
        ours
    }

    fn timed(&mut self, call: impl FnOnce(&mut Self, &mut [u8; 10]) -> u8) -> Answer {
        let mut t = [0xEE; 10];
        let refusal = call(self, &mut t);
        assert_eq!(refusal, t[0], "the returned refusal is the answer's");
        if refusal != 0 {
            return Answer::Refused(refusal);
        }
        let clocks = u32::from_le_bytes([t[4], t[5], t[6], t[7]]);
        Answer::Timed([t[1] as u32, t[2] as u32, t[3] as u32, clocks, u16::from_le_bytes([t[8], t[9]]) as u32])
    }

    fn write_io(&mut self, r: Record) -> Answer {
        let before = self.state[17];
        match self
            .timed(|o, t| c::write_io(&mut o.state, &o.devices, &o.ram, &mut o.a, &mut o.b, &mut o.border, r.y, r.x, t))
        {
            Answer::Timed([code, closed, int, clocks, blocks]) => {
                Answer::Timed([seen(code, self.devices[27], before, self.state[17]), closed, int, clocks, blocks])
            }
            refused => refused,
        }
    }

    fn write_7ffd(&mut self, value: u8) -> Answer {
        let before = self.state[17];
        match told(|t| c::write_7ffd(&mut self.state, value, t)) {
            Answer::Number(code) => Answer::Number(seen(code, 1, before, self.state[17])),
            refused => refused,
        }
    }

    pub fn play(&mut self, r: Record) -> Answer {
        match r.op {
            b'N' => {
                self.timed(|o, t| c::wait_internal(&mut o.state, &o.ram, &mut o.a, &mut o.b, &mut o.border, r.z, t))
            }
            b'M' => {
                self.timed(|o, t| c::wait_mreq(&mut o.state, &o.ram, &mut o.a, &mut o.b, &mut o.border, r.y, r.z, t))
            }
            b'O' => {
                self.timed(|o, t| c::wait_no_mreq(&mut o.state, &o.ram, &mut o.a, &mut o.b, &mut o.border, r.y, r.z, t))
            }
            b'I' => self
                .timed(|o, t| c::read_io(&mut o.state, &o.devices, &o.ram, &mut o.a, &mut o.b, &mut o.border, r.y, t)),
            b'W' => self.write_io(r),
            b'D' => {
                self.devices[r.x as usize] = r.z as u8;
                Answer::Done
            }
            b'G' => told(|t| c::read_internal(&self.state, &self.rom, &self.ram, r.y, t)),
            b'P' => done(c::write_internal(&self.state, &mut self.ram, r.y, r.x)),
            b'7' => self.write_7ffd(r.x),
            b'8' => told(|t| c::read_7ffd(&self.state, t)),
            b'T' => told(|t| c::int_active(&self.state, t)),
            b'F' => told(|t| c::frames_count(&self.state, t)),
            b'Z' => done(c::reset_frame_counter(&mut self.state)),
            b'L' => done(c::load_page(&self.state, &mut self.ram, &filling(r.z, 16_384), r.x as u32)),
            b'l' => done(c::load_scr(&self.state, &mut self.ram, &filling(r.z, SCREEN_FILE), r.x as u32)),
            b's' => {
                let mut file = vec![0x55; SCREEN_FILE];
                assert_eq!(0, c::save_scr(&self.state, &self.ram, &mut file));
                Answer::Number(digest(file.into_iter()))
            }
            b'x' => {
                let mut file = vec![0x55; snapshot_bytes(self.machine, self.state[17])];
                assert_eq!(0, c::save_sna(&self.state, &self.ram, &mut file, &registers(r.z)));
                Answer::Number(digest(file.into_iter()))
            }
            b'R' => {
                self.rom = filling(r.z, self.rom.len());
                Answer::Done
            }
            b'Q' => told(|t| c::ram_page(&self.state, &self.ram, r.x as u32, t)),
            b'B' => told(|t| c::block(&self.state, &self.rom, &self.ram, r.x as u32, t)),
            b'V' => told(|t| c::shown_picture(&self.state, &self.a, &self.b, t)),
            b'K' => {
                let mut picture = vec![0x55; 49_152];
                assert_eq!(0, c::still_picture(&self.state, &self.ram, &mut picture, r.z));
                Answer::Number(digest(picture.into_iter()))
            }
            b'C' => Answer::Clock(self.clock(), self.state[18]),
            b'H' => {
                Answer::Digests([&self.a, &self.b, &self.border, &self.ram].map(|bytes| digest(bytes.iter().copied())))
            }
            b'a' => told(|t| c::bitmap_line_addr(r.z, t)),
            b'b' => told(|t| c::bitmap_line_rel(r.z, t)),
            b'c' => told(|t| c::bitmap_col_rel(r.z, t)),
            b'd' => told(|t| c::attr_row_rel(r.z, t)),
            b'e' => told(|t| c::attr_col_rel(r.z, t)),
            b'f' => told(|t| c::color_from_bits(r.z, t)),
            op => panic!("no operation {op}"),
        }
    }

    pub fn clock(&self) -> u32 {
        u32::from_le_bytes([self.state[6], self.state[7], self.state[8], self.state[9]])
    }

    pub fn set_clock(&mut self, clock: usize) {
        self.state[6..10].copy_from_slice(&(clock as u32).to_le_bytes());
    }

    /// The record of a state in the frame after this one, with the pictures that the original has there.
    pub fn put(&mut self, s: &State, pictures: [Vec<u8>; 3]) {
        let passed = u32::from_le_bytes([self.state[10], self.state[11], self.state[12], self.state[13]]) + 1;
        self.set_clock(s.clock);
        self.state[10..14].copy_from_slice(&passed.to_le_bytes());
        self.state[14] = (self.state[14] + 1) % 32;
        self.state[15..17].copy_from_slice(&(s.painted as u16).to_le_bytes());
        self.state[18] = s.reported;
        self.state[19] = s.beam;
        self.state[20] = s.blocked as u8;
        self.state[21..23].copy_from_slice(&(s.pairs as u16).to_le_bytes());
        [self.a, self.b, self.border] = pictures;
    }
}
