//! One Spectrum's ULA bus with the buffers that it is lent: a safe layer over the proved archive `libulb.a`.
//!
//! ```no_run
//! use ulb_machine::{Kind, Machine};
//! let mut m = Machine::boxed();
//! m.start(Kind::Spectrum48, &[0; 16384]).unwrap();
//! let answer = m.write_io(0x00FE, 2).unwrap();
//! if answer.closed {
//!     let _frame = (m.shown_picture().unwrap(), m.border());
//! }
//! ```
//!
//! The layer is not proved and adds no rule: every slice goes out with its own length and no two overlap, which is all that
//! the bus asks of its caller (docs/DUTIES.md), so no function here is unsafe to call. No dependency, and `no_std`: the heap
//! is used by [`Machine::boxed`] and [`Machine::from_sna`] alone.
#![no_std]

extern crate alloc;

mod raw;

use alloc::boxed::Box;

pub const PICTURE_BYTES: usize = 49152;
pub const BORDER_BYTES: usize = 76800;
pub const PAGE_BYTES: usize = 16384;
/// An SCR file: 6,144 bitmap bytes in page order, then 768 attribute bytes.
pub const SCREEN_FILE_BYTES: usize = 6912;
/// A snapshot's 27 header bytes, PC and the TR-DOS byte: [`Registers`].
pub const REGISTER_BYTES: usize = 30;
pub const SNA_BYTES_48K: usize = 49179;
pub const SNA_BYTES_128K: usize = 131103;
/// A 128K's snapshot where bank 5 or 2 is the paged one, and so stands twice.
pub const SNA_BYTES_128K_TWICE: usize = 147487;

#[derive(Clone, Copy, Debug, PartialEq, Eq)]
pub enum Kind {
    Spectrum48 = 0,
    Spectrum128 = 1,
}

impl Kind {
    pub const fn rom_bytes(self) -> usize {
        match self {
            Kind::Spectrum48 => 16384,
            Kind::Spectrum128 => 32768,
        }
    }
    pub const fn ram_bytes(self) -> usize {
        match self {
            Kind::Spectrum48 => 49152,
            Kind::Spectrum128 => 131072,
        }
    }
    /// Clocks of one frame.
    pub const fn frame(self) -> u32 {
        match self {
            Kind::Spectrum48 => 69888,
            Kind::Spectrum128 => 70908,
        }
    }
    /// Bytes of a snapshot with this 7FFD byte, whose low three bits are the paged bank; on 48K whatever it is.
    pub const fn sna_bytes(self, paging: u8) -> usize {
        match (self, paging & 7) {
            (Kind::Spectrum48, _) => SNA_BYTES_48K,
            (Kind::Spectrum128, 2 | 5) => SNA_BYTES_128K_TWICE,
            (Kind::Spectrum128, _) => SNA_BYTES_128K,
        }
    }
}

/// Why a call did nothing. The numbers are those of `ulb.h`.
#[derive(Clone, Copy, Debug, PartialEq, Eq)]
pub enum Refusal {
    BadMachine = 1,
    BadLength = 2,
    Unsound = 3,
    BadFlag = 4,
    LongWait = 5,
    FramesFull = 6,
    BadPage = 7,
    BadNumber = 8,
    /// The RAM page is there, but is none that can be shown.
    NoVideoPage = 9,
    /// A snapshot has another size than its kind and its 7FFD byte ask for.
    WrongSize = 10,
    /// Bank 5 or 2 stands twice in a snapshot, and the copies differ.
    UnequalCopies = 11,
}

fn accepted(refusal: u8) -> Result<(), Refusal> {
    Err(match refusal {
        0 => return Ok(()),
        1 => Refusal::BadMachine,
        2 => Refusal::BadLength,
        3 => Refusal::Unsound,
        4 => Refusal::BadFlag,
        5 => Refusal::LongWait,
        6 => Refusal::FramesFull,
        7 => Refusal::BadPage,
        8 => Refusal::BadNumber,
        9 => Refusal::NoVideoPage,
        10 => Refusal::WrongSize,
        _ => Refusal::UnequalCopies,
    })
}

/// What a timed call answers.
#[derive(Clone, Copy, Debug, PartialEq, Eq)]
pub struct Timed {
    /// A port read's value, a port write's code; 0 for a wait.
    pub value: u8,
    /// This call closed a frame: show it before the next call.
    pub closed: bool,
    /// The interrupt is on after this call.
    pub interrupt: bool,
    pub clocks: u32,
    /// Blocks of eight pixels that this call painted.
    pub blocks: u16,
}

/// What the ports see. Bytes of an absent device are ignored.
#[derive(Clone, Copy, Debug, PartialEq, Eq)]
pub struct Devices {
    /// Three sets of eight rows, bit 0 = a key down; the sets are ANDed.
    pub rows: [[u8; 8]; 3],
    pub tape: bool,
    /// Present if it claims the port of the next call.
    pub extender: Option<u8>,
    pub ay: Option<u8>,
    pub joystick: Option<u8>,
    pub mouse: Option<Mouse>,
}

#[derive(Clone, Copy, Debug, PartialEq, Eq)]
pub struct Mouse {
    pub buttons: u8,
    pub x: u8,
    pub y: u8,
}

impl Devices {
    /// No key down, tape bit 1, no device.
    pub const fn none() -> Devices {
        Devices { rows: [[0xFF; 8]; 3], tape: true, extender: None, ay: None, joystick: None, mouse: None }
    }

    fn bytes(&self) -> [u8; 35] {
        let mut out = [0; 35];
        for (i, row) in self.rows.iter().flatten().enumerate() {
            out[i] = *row;
        }
        out[24] = self.tape as u8;
        for (at, device) in [(25, self.extender), (27, self.ay), (29, self.joystick)] {
            if let Some(byte) = device {
                out[at] = 1;
                out[at + 1] = byte;
            }
        }
        if let Some(mouse) = self.mouse {
            out[31..].copy_from_slice(&[1, mouse.buttons, mouse.x, mouse.y]);
        }
        out
    }
}

/// What a snapshot (SNA) has for the Z80: its header's registers, PC and the TR-DOS byte. A name that ends in 2 is the second
/// set's: `af2` is AF'. [`Registers::from_bytes`] and [`Registers::to_bytes`] lose no bit.
#[derive(Clone, Copy, Debug, Default, PartialEq, Eq)]
pub struct Registers {
    pub af: u16,
    pub bc: u16,
    pub de: u16,
    pub hl: u16,
    pub af2: u16,
    pub bc2: u16,
    pub de2: u16,
    pub hl2: u16,
    pub ix: u16,
    pub iy: u16,
    pub sp: u16,
    pub i: u8,
    pub r: u8,
    /// Header byte 19 with all its bits; see [`Registers::iff2`].
    pub iff: u8,
    /// The interrupt mode: 0 to 2, in a good file.
    pub im: u8,
    /// Header byte 26 with all its bits. An export ignores it: the reported border goes there.
    pub border: u8,
    /// On 48K 0, and ignored by an export: there PC is on the stack, its low byte at SP, and a RETN takes it from there.
    pub pc: u16,
    /// On 48K 0, and ignored by an export.
    pub tr_dos: u8,
}

impl Registers {
    pub fn iff2(&self) -> bool {
        self.iff & 4 != 0
    }

    /// The 27 header bytes in the file's order, then PC and the TR-DOS byte.
    pub fn from_bytes(bytes: &[u8; REGISTER_BYTES]) -> Registers {
        let word = |at: usize| word16(&bytes[at..]);
        Registers {
            i: bytes[0],
            hl2: word(1),
            de2: word(3),
            bc2: word(5),
            af2: word(7),
            hl: word(9),
            de: word(11),
            bc: word(13),
            iy: word(15),
            ix: word(17),
            iff: bytes[19],
            r: bytes[20],
            af: word(21),
            sp: word(23),
            im: bytes[25],
            border: bytes[26],
            pc: word(27),
            tr_dos: bytes[29],
        }
    }

    pub fn to_bytes(&self) -> [u8; REGISTER_BYTES] {
        let words = [
            (1, self.hl2),
            (3, self.de2),
            (5, self.bc2),
            (7, self.af2),
            (9, self.hl),
            (11, self.de),
            (13, self.bc),
            (15, self.iy),
            (17, self.ix),
            (21, self.af),
            (23, self.sp),
            (27, self.pc),
        ];
        let single =
            [(0, self.i), (19, self.iff), (20, self.r), (25, self.im), (26, self.border), (29, self.tr_dos)];
        let mut out = [0; REGISTER_BYTES];
        for (at, word) in words {
            out[at..at + 2].copy_from_slice(&word.to_le_bytes());
        }
        for (at, byte) in single {
            out[at] = byte;
        }
        out
    }
}

/// The code of a port write or 7FFD write that changed the paging.
const PAGED: u32 = 5;
const STATE_BYTES: usize = 23;
/// Where a record has its kind, and its 7FFD byte.
const KIND_AT: usize = 5;
const PAGING_AT: usize = 17;
const ROM_PAGES: usize = 2;
const RAM_PAGES: usize = 8;

/// The pages of ROM and then those of RAM, one behind the other: a block is a page of it, whichever of the two it lies in.
struct Memory([[u8; PAGE_BYTES]; ROM_PAGES + RAM_PAGES]);

impl Memory {
    fn rom(&self) -> *const u8 {
        self.0[..ROM_PAGES].as_ptr().cast()
    }
    fn ram(&self) -> *const u8 {
        self.0[ROM_PAGES..].as_ptr().cast()
    }
    fn ram_mut(&mut self) -> *mut u8 {
        self.0[ROM_PAGES..].as_mut_ptr().cast()
    }
}

/// A machine and its memory: 340 KB, so keep it in a static or on the heap. Before a start, which [`Machine::start_sna`] is
/// too, every call is refused with [`Refusal::Unsound`].
pub struct Machine {
    pub devices: Devices,
    kind: Kind,
    state: [u8; STATE_BYTES],
    /// The page of each block; see [`Machine::byte`].
    map: [u8; 4],
    memory: Memory,
    a: [u8; PICTURE_BYTES],
    b: [u8; PICTURE_BYTES],
    border: [u8; BORDER_BYTES],
}

fn word16(p: &[u8]) -> u16 {
    u16::from_le_bytes([p[0], p[1]])
}

fn word32(p: &[u8]) -> u32 {
    u32::from_le_bytes([p[0], p[1], p[2], p[3]])
}

fn timed(call: impl FnOnce(*mut u8, usize) -> u8) -> Result<Timed, Refusal> {
    let mut answer = [0; 10];
    accepted(call(answer.as_mut_ptr(), answer.len()))?;
    Ok(Timed {
        value: answer[1],
        closed: answer[2] != 0,
        interrupt: answer[3] != 0,
        clocks: word32(&answer[4..]),
        blocks: word16(&answer[8..]),
    })
}

fn number(call: impl FnOnce(*mut u8, usize) -> u8) -> Result<u32, Refusal> {
    let mut answer = [0; 5];
    accepted(call(answer.as_mut_ptr(), answer.len()))?;
    Ok(word32(&answer[1..]))
}

// SAFETY, of every block below: each pointer is that of a live array of this struct, of the caller's slice or of a local
// answer, goes out with a length no greater than the array's, and is used by the call only; the borrow checker keeps those
// that are written apart from every other.
impl Machine {
    pub const fn new() -> Machine {
        Machine {
            devices: Devices::none(),
            kind: Kind::Spectrum48,
            state: [0; STATE_BYTES],
            map: [0; 4],
            memory: Memory([[0; PAGE_BYTES]; ROM_PAGES + RAM_PAGES]),
            a: [0; PICTURE_BYTES],
            b: [0; PICTURE_BYTES],
            border: [0; BORDER_BYTES],
        }
    }

    /// On the heap, without passing over the stack in an optimised build.
    pub fn boxed() -> Box<Machine> {
        Box::new(Machine::new())
    }

    /// One on the heap, started from a snapshot, and what the snapshot has for the Z80: see [`Machine::start_sna`].
    pub fn from_sna(kind: Kind, rom: &[u8], file: &[u8]) -> Result<(Box<Machine>, Registers), Refusal> {
        let mut machine = Machine::boxed();
        let registers = machine.start_sna(kind, rom, file)?;
        Ok((machine, registers))
    }

    /// Takes a copy of the ROM and starts, with a black border. The devices stay as they are. Refused if the ROM has
    /// another length.
    pub fn start(&mut self, kind: Kind, rom: &[u8]) -> Result<(), Refusal> {
        self.start_colour(kind, rom, 0)
    }

    /// The same in a beam colour 0..7: for a capture bench whose stored first frames begin white, which asks for 7. The
    /// border that is reported is 0 whatever the colour. Refused, with nothing changed, if the ROM has another length,
    /// and then with [`Refusal::BadNumber`] if the colour is above 7.
    pub fn start_colour(&mut self, kind: Kind, rom: &[u8], colour: u32) -> Result<(), Refusal> {
        if rom.len() != kind.rom_bytes() {
            return Err(Refusal::BadLength);
        }
        let ram = kind.ram_bytes();
        accepted(unsafe {
            raw::ulb_start_colour(self.state.as_mut_ptr(), 23, self.memory.ram_mut(), ram, self.a.as_mut_ptr(),
                PICTURE_BYTES, self.b.as_mut_ptr(), PICTURE_BYTES, self.border.as_mut_ptr(), BORDER_BYTES, kind as u32,
                colour)
        })?;
        self.begin(kind, rom)
    }

    /// What a start of the layer's own has left to do: kind, ROM and map.
    fn begin(&mut self, kind: Kind, rom: &[u8]) -> Result<(), Refusal> {
        self.kind = kind;
        for (page, bytes) in self.memory.0.iter_mut().zip(rom.chunks_exact(PAGE_BYTES)) {
            page.copy_from_slice(bytes);
        }
        self.renew_map()
    }

    /// Takes a copy of the ROM and starts from a snapshot (SNA) of this kind: RAM, paging, lock and border are the file's,
    /// pictures and border are cleared, and the devices stay as they are. Refused, with nothing changed, if the ROM has another
    /// length; with [`Refusal::WrongSize`] if the file's size is not [`Kind::sna_bytes`] of its own 7FFD byte, which on 128K
    /// stands at offset 49,181; then with [`Refusal::UnequalCopies`].
    pub fn start_sna(&mut self, kind: Kind, rom: &[u8], file: &[u8]) -> Result<Registers, Refusal> {
        if rom.len() != kind.rom_bytes() {
            return Err(Refusal::BadLength);
        }
        let registers = self.import(kind, file)?;
        self.begin(kind, rom).map(|()| registers)
    }

    /// Starts again, from a snapshot of the machine's own kind: same ROM, same devices. Refused as [`Machine::start_sna`] is.
    pub fn load_sna(&mut self, file: &[u8]) -> Result<Registers, Refusal> {
        self.read_7ffd()?; // an import judges no record, but a machine that was never started has no ROM
        let registers = self.import(self.kind, file)?;
        self.renew_map().map(|()| registers)
    }

    fn import(&mut self, kind: Kind, file: &[u8]) -> Result<Registers, Refusal> {
        let ram = kind.ram_bytes();
        let mut registers = [0; REGISTER_BYTES];
        accepted(unsafe {
            raw::ulb_load_sna(self.state.as_mut_ptr(), 23, self.memory.ram_mut(), ram, file.as_ptr(), file.len(),
                registers.as_mut_ptr(), REGISTER_BYTES, self.a.as_mut_ptr(), PICTURE_BYTES, self.b.as_mut_ptr(),
                PICTURE_BYTES, self.border.as_mut_ptr(), BORDER_BYTES, kind as u32)
        })?;
        Ok(Registers::from_bytes(&registers))
    }

    /// How many bytes [`Machine::save_sna`] writes now; another bank paged in may change it. Of a machine that was never
    /// started it means nothing.
    pub const fn sna_bytes(&self) -> usize {
        self.kind.sna_bytes(self.state[PAGING_AT])
    }

    /// A snapshot of the machine as it stands, in no time, into [`Machine::sna_bytes`] of the caller's; of another size it is
    /// refused with [`Refusal::WrongSize`]. The header's border is the one that the machine reports.
    pub fn save_sna(&self, file: &mut [u8], registers: &Registers) -> Result<(), Refusal> {
        let (ram, registers) = (self.kind.ram_bytes(), registers.to_bytes());
        accepted(unsafe {
            raw::ulb_save_sna(self.state.as_ptr(), 23, self.memory.ram(), ram, file.as_mut_ptr(), file.len(),
                registers.as_ptr(), REGISTER_BYTES)
        })
    }

    /// A record that was kept, as [`Machine::state`] gave it, in the place of the machine's own; RAM is yours to load besides.
    /// Refused, with nothing changed, if it is another kind's or not sound.
    pub fn load_state(&mut self, state: &[u8; STATE_BYTES]) -> Result<(), Refusal> {
        if state[KIND_AT] != self.kind as u8 {
            return Err(Refusal::BadLength);
        }
        let before = self.state;
        self.state = *state;
        let renewed = self.renew_map(); // its calls judge the record
        if renewed.is_err() {
            self.state = before;
        }
        renewed
    }

    pub fn wait(&mut self, clocks: u32) -> Result<Timed, Refusal> {
        let ram = self.kind.ram_bytes();
        timed(|answer, len| unsafe {
            raw::ulb_wait_internal(self.state.as_mut_ptr(), 23, self.memory.ram(), ram, self.a.as_mut_ptr(), PICTURE_BYTES,
                self.b.as_mut_ptr(), PICTURE_BYTES, self.border.as_mut_ptr(), BORDER_BYTES, clocks, answer, len)
        })
    }

    pub fn wait_mreq(&mut self, addr: u16, clocks: u32) -> Result<Timed, Refusal> {
        let ram = self.kind.ram_bytes();
        timed(|answer, len| unsafe {
            raw::ulb_wait_mreq(self.state.as_mut_ptr(), 23, self.memory.ram(), ram, self.a.as_mut_ptr(), PICTURE_BYTES,
                self.b.as_mut_ptr(), PICTURE_BYTES, self.border.as_mut_ptr(), BORDER_BYTES, addr, clocks, answer, len)
        })
    }

    pub fn wait_no_mreq(&mut self, addr: u16, clocks: u32) -> Result<Timed, Refusal> {
        let ram = self.kind.ram_bytes();
        timed(|answer, len| unsafe {
            raw::ulb_wait_no_mreq(self.state.as_mut_ptr(), 23, self.memory.ram(), ram, self.a.as_mut_ptr(), PICTURE_BYTES,
                self.b.as_mut_ptr(), PICTURE_BYTES, self.border.as_mut_ptr(), BORDER_BYTES, addr, clocks, answer, len)
        })
    }

    pub fn read_io(&mut self, port: u16) -> Result<Timed, Refusal> {
        let (ram, devices) = (self.kind.ram_bytes(), self.devices.bytes());
        timed(|answer, len| unsafe {
            raw::ulb_read_io(self.state.as_mut_ptr(), 23, devices.as_ptr(), 35, self.memory.ram(), ram, self.a.as_mut_ptr(),
                PICTURE_BYTES, self.b.as_mut_ptr(), PICTURE_BYTES, self.border.as_mut_ptr(), BORDER_BYTES, port, answer, len)
        })
    }

    pub fn write_io(&mut self, port: u16, value: u8) -> Result<Timed, Refusal> {
        let (ram, devices) = (self.kind.ram_bytes(), self.devices.bytes());
        timed(|answer, len| unsafe {
            raw::ulb_write_io(self.state.as_mut_ptr(), 23, devices.as_ptr(), 35, self.memory.ram(), ram, self.a.as_mut_ptr(),
                PICTURE_BYTES, self.b.as_mut_ptr(), PICTURE_BYTES, self.border.as_mut_ptr(), BORDER_BYTES, port, value,
                answer, len)
        })
        .and_then(|t| self.renewed_if(t.value.into()).map(|()| t))
    }

    /// The byte at an address, in no time and without a call: for a processor, which asks for thousands a frame. It reads where
    /// `ulb_block` said that the address's block is. That this is the byte which [`Machine::read`] would give is proved as long
    /// as the 7FFD byte stays (crate contracts, proofs/Map.antt); the calls that change it ask `ulb_block` anew: a start, from
    /// a snapshot or not, and a port or 7FFD write that answers 5. Of a machine that was never started the byte means nothing.
    #[inline]
    pub fn byte(&self, addr: u16) -> u8 {
        let (block, offset) = (usize::from(addr) / PAGE_BYTES, usize::from(addr) % PAGE_BYTES);
        self.memory.0[usize::from(self.map[block])][offset]
    }

    /// Asks `ulb_block` for the page of each block. Needed whenever the 7FFD byte may have changed, and only then (contracts'
    /// theorem `map-stays`). Refused only if the record is not sound, which no accepted call leaves; the map then stays.
    fn renew_map(&mut self) -> Result<(), Refusal> {
        let mut map = [0; 4];
        for (block, page) in (0..).zip(&mut map) {
            *page = self.page_at(self.block_start(block)?) as u8;
        }
        self.map = map;
        Ok(())
    }

    fn renewed_if(&mut self, code: u32) -> Result<(), Refusal> {
        if code == PAGED {
            self.renew_map()
        } else {
            Ok(())
        }
    }

    /// The same byte by a call, which judges the record.
    pub fn read(&self, addr: u16) -> Result<u8, Refusal> {
        let (rom, ram) = (self.kind.rom_bytes(), self.kind.ram_bytes());
        number(|answer, len| unsafe {
            raw::ulb_read_internal(self.state.as_ptr(), 23, self.memory.rom(), rom, self.memory.ram(), ram, addr, answer, len)
        })
        .map(|byte| byte as u8)
    }

    /// A byte to an address, in no time; a write to ROM vanishes.
    pub fn write(&mut self, addr: u16, value: u8) -> Result<(), Refusal> {
        let ram = self.kind.ram_bytes();
        accepted(unsafe { raw::ulb_write_internal(self.state.as_ptr(), 23, self.memory.ram_mut(), ram, addr, value) })
    }

    /// 5 if paged, 6 if locked, 0 on 48K.
    pub fn write_7ffd(&mut self, value: u8) -> Result<u32, Refusal> {
        let code = number(|answer, len| unsafe { raw::ulb_write_7ffd(self.state.as_mut_ptr(), 23, value, answer, len) })?;
        self.renewed_if(code).map(|()| code)
    }

    pub fn read_7ffd(&self) -> Result<u32, Refusal> {
        number(|answer, len| unsafe { raw::ulb_read_7ffd(self.state.as_ptr(), 23, answer, len) })
    }

    pub fn int_active(&self) -> Result<bool, Refusal> {
        number(|answer, len| unsafe { raw::ulb_int_active(self.state.as_ptr(), 23, answer, len) }).map(|on| on != 0)
    }

    pub fn frames_count(&self) -> Result<u32, Refusal> {
        number(|answer, len| unsafe { raw::ulb_frames_count(self.state.as_ptr(), 23, answer, len) })
    }

    pub fn reset_frame_counter(&mut self) -> Result<(), Refusal> {
        accepted(unsafe { raw::ulb_reset_frame_counter(self.state.as_mut_ptr(), 23) })
    }

    pub fn load_page(&mut self, bytes: &[u8], page: u32) -> Result<(), Refusal> {
        let ram = self.kind.ram_bytes();
        accepted(unsafe {
            raw::ulb_load_page(self.state.as_ptr(), 23, self.memory.ram_mut(), ram, bytes.as_ptr(), bytes.len(), page)
        })
    }

    /// The screen file of the page that is now shown (48K: 0; 128K: 5, or 7 with bit 3 of the 7FFD byte), into
    /// [`SCREEN_FILE_BYTES`] of the caller's.
    pub fn save_scr(&self, file: &mut [u8]) -> Result<(), Refusal> {
        let ram = self.kind.ram_bytes();
        accepted(unsafe {
            raw::ulb_save_scr(self.state.as_ptr(), 23, self.memory.ram(), ram, file.as_mut_ptr(), file.len())
        })
    }

    /// A screen file into a video page (48K: 0; 128K: 5 or 7), shown or not, and no other byte of RAM. In no time: a
    /// file read in mid-frame shows in the blocks still to come.
    pub fn load_scr(&mut self, file: &[u8], page: u32) -> Result<(), Refusal> {
        let ram = self.kind.ram_bytes();
        accepted(unsafe {
            raw::ulb_load_scr(self.state.as_ptr(), 23, self.memory.ram_mut(), ram, file.as_ptr(), file.len(), page)
        })
    }

    /// The page of `memory` at a part's start, RAM counted after ROM.
    fn page_at(&self, start: u32) -> usize {
        let (start, rom) = (start as usize, self.kind.rom_bytes());
        match start.checked_sub(rom) {
            None => start / PAGE_BYTES,
            Some(at) => ROM_PAGES + at / PAGE_BYTES,
        }
    }

    fn part(&self, start: u32) -> &[u8] {
        &self.memory.0[self.page_at(start)]
    }

    pub fn ram_page(&self, page: u32) -> Result<&[u8], Refusal> {
        let ram = self.kind.ram_bytes();
        number(|answer, len| unsafe {
            raw::ulb_ram_page(self.state.as_ptr(), 23, self.memory.ram(), ram, page, answer, len)
        })
        .map(|start| self.part(start))
    }

    fn block_start(&self, block: u32) -> Result<u32, Refusal> {
        let (rom, ram) = (self.kind.rom_bytes(), self.kind.ram_bytes());
        number(|answer, len| unsafe {
            raw::ulb_block(self.state.as_ptr(), 23, self.memory.rom(), rom, self.memory.ram(), ram, block, answer, len)
        })
    }

    /// The 16 KiB at a block 0..3: a part of ROM or RAM.
    pub fn block(&self, block: u32) -> Result<&[u8], Refusal> {
        self.block_start(block).map(|start| self.part(start))
    }

    /// 256 x 192 colours 0..15 of the last finished frame.
    pub fn shown_picture(&self) -> Result<&[u8; PICTURE_BYTES], Refusal> {
        number(|answer, len| unsafe {
            raw::ulb_shown_picture(self.state.as_ptr(), 23, self.a.as_ptr(), PICTURE_BYTES, self.b.as_ptr(), PICTURE_BYTES,
                answer, len)
        })
        .map(|start| if start == 0 { &self.a } else { &self.b })
    }

    /// 320 x 240 colours 0..7: the finished frame's as long as no border write has followed.
    pub fn border(&self) -> &[u8; BORDER_BYTES] {
        &self.border
    }

    /// Paints the RAM page that is now shown (48K: 0; 128K: 5, or 7 with bit 3 of the 7FFD byte) whole, with flash 0 or 1,
    /// into a picture of the caller's.
    pub fn still_picture(&self, picture: &mut [u8], flash: u32) -> Result<(), Refusal> {
        let ram = self.kind.ram_bytes();
        accepted(unsafe {
            raw::ulb_still_picture(self.state.as_ptr(), 23, self.memory.ram(), ram, picture.as_mut_ptr(), picture.len(), flash)
        })
    }

    /// The record, to be kept: see [`Machine::load_state`].
    pub fn state(&self) -> &[u8; STATE_BYTES] {
        &self.state
    }

    pub fn kind(&self) -> Kind {
        self.kind
    }

    pub fn frame_clock(&self) -> u32 {
        word32(&self.state[6..])
    }

    /// Blocks painted in this frame.
    pub fn blocks_painted(&self) -> u16 {
        word16(&self.state[15..])
    }
}

impl Default for Machine {
    fn default() -> Self {
        Machine::new()
    }
}

macro_rules! helpers {
    ($($(#[$doc:meta])* $name:ident => $call:ident;)*) => {
        $($(#[$doc])* pub fn $name(n: u32) -> Result<u32, Refusal> {
            // SAFETY: the answer is a local array with its own length.
            number(|answer, len| unsafe { raw::$call(n, answer, len) })
        })*
    };
}

helpers! {
    /// Address of a picture line's first byte; lines 0..191.
    bitmap_line_addr => ulb_bitmap_line_addr;
    /// Line of a bitmap offset 0..17FFh.
    bitmap_line_rel => ulb_bitmap_line_rel;
    /// Column of a bitmap offset 0..17FFh.
    bitmap_col_rel => ulb_bitmap_col_rel;
    /// Row of an attribute offset 1800h..1AFFh.
    attr_row_rel => ulb_attr_row_rel;
    /// Column of an attribute offset 1800h..1AFFh.
    attr_col_rel => ulb_attr_col_rel;
    /// Colour of three bits.
    color_from_bits => ulb_color_from_bits;
}
