//! Ours: the way in to the original controller, which is private to its crate. `Watched` has pictures that can be seen
//! from outside, the hidden one too; `Plain` has the cheapest fair pictures, for speed.
use crate::{
    host::*,
    settings::{RustzxSettings, ZXAYMode},
    zx::{
        controller::ZXController,
        joy::kempston::KempstonJoy,
        machine::ZXMachine,
        memory::Page,
        mouse::kempston::KempstonMouse,
        video::colors::{ZXBrightness, ZXColor},
    },
};
use core::cell::{Cell, RefCell};
use rustzx_z80::Z80Bus;
use std::rc::Rc;

/// Whether this build has the AY: the original decides it when it is compiled.
pub const AY: bool = cfg!(feature = "ay");

/// The address helpers, as they are.
pub use crate::utils::screen as helpers;

/// The number of the colour that the original makes of three bits.
pub fn color_from_bits(bits: u8) -> u8 {
    ZXColor::from_bits(bits).into()
}

fn settings(machine: u8) -> RustzxSettings {
    RustzxSettings {
        machine: if machine == 0 { ZXMachine::Sinclair48K } else { ZXMachine::Sinclair128K },
        kempston_enabled: false,
        mouse_enabled: false,
        beeper_enabled: true,
        ay_enabled: true,
        ay_mode: ZXAYMode::Mono,
        sound_sample_rate: 44100,
        sound_volume: 100,
        load_default_rom: false,
    }
}

/// An extender that claims every port or none.
#[derive(Default)]
pub struct Extender {
    pub claims: bool,
    pub byte: u8,
    pub writes: u32,
}

impl IoExtender for Extender {
    fn extends_port(&self, _: u16) -> bool {
        self.claims
    }
    fn write(&mut self, _: u16, _: u8) {
        self.writes += 1;
    }
    fn read(&mut self, _: u16) -> u8 {
        self.byte
    }
}

pub struct NoDebugger;

impl DebugInterface for NoDebugger {
    fn check_pc_breakpoint(&mut self, _: u16) -> bool {
        false
    }
}

// ---- pictures that can be seen from outside

/// A picture, and how many pixels were set in it.
pub struct Plane {
    width: usize,
    pub pixels: Box<[Cell<u8>]>,
    pub sets: Cell<u64>,
}

type Planes = Rc<RefCell<Vec<Rc<Plane>>>>;

pub struct WatchedPicture(Rc<Plane>);

impl FrameBuffer for WatchedPicture {
    type Context = Planes;

    fn new(width: usize, height: usize, _: FrameBufferSource, planes: Planes) -> Self {
        let pixels = vec![Cell::new(0); width * height].into_boxed_slice();
        let plane = Rc::new(Plane { width, pixels, sets: Cell::new(0) });
        planes.borrow_mut().push(plane.clone());
        WatchedPicture(plane)
    }

    fn set_color(&mut self, x: usize, y: usize, color: ZXColor, brightness: ZXBrightness) {
        assert!(x < self.0.width);
        self.0.pixels[y * self.0.width + x].set(color as u8 + 8 * brightness as u8);
        self.0.sets.set(self.0.sets.get() + 1);
    }
}

pub struct WatchedHost;

impl HostContext<WatchedHost> for Planes {
    fn frame_buffer_context(&self) -> Planes {
        self.clone()
    }
}

impl Host for WatchedHost {
    type Context = Planes;
    type TapeAsset = ();
    type FrameBuffer = WatchedPicture;
    type IoExtender = Extender;
    type DebugInterface = NoDebugger;
}

// ---- the cheapest fair pictures

pub struct PlainPicture {
    width: usize,
    pixels: Box<[u8]>,
}

impl FrameBuffer for PlainPicture {
    type Context = ();

    fn new(width: usize, height: usize, _: FrameBufferSource, _: ()) -> Self {
        PlainPicture { width, pixels: vec![0; width * height].into_boxed_slice() }
    }

    #[inline(always)]
    fn set_color(&mut self, x: usize, y: usize, color: ZXColor, brightness: ZXBrightness) {
        self.pixels[y * self.width + x] = color as u8 + 8 * brightness as u8;
    }
}

pub struct PlainHost;

impl HostContext<PlainHost> for () {
    fn frame_buffer_context(&self) {}
}

impl Host for PlainHost {
    type Context = ();
    type TapeAsset = ();
    type FrameBuffer = PlainPicture;
    type IoExtender = Extender;
    type DebugInterface = NoDebugger;
}

// ---- the calls

/// A machine of the original.
pub struct Door<H: Host<IoExtender = Extender>> {
    c: ZXController<H>,
}

impl<H: Host<IoExtender = Extender>> Door<H> {
    pub fn wait_internal(&mut self, clocks: usize) {
        self.c.wait_internal(clocks)
    }
    pub fn wait_mreq(&mut self, addr: u16, clocks: usize) {
        self.c.wait_mreq(addr, clocks)
    }
    pub fn wait_no_mreq(&mut self, addr: u16, clocks: usize) {
        self.c.wait_no_mreq(addr, clocks)
    }
    pub fn read_io(&mut self, port: u16) -> u8 {
        self.c.read_io(port)
    }
    pub fn write_io(&mut self, port: u16, value: u8) {
        self.c.write_io(port, value)
    }
    pub fn read_internal(&mut self, addr: u16) -> u8 {
        self.c.read_internal(addr)
    }
    pub fn write_internal(&mut self, addr: u16, value: u8) {
        self.c.write_internal(addr, value)
    }
    pub fn write_7ffd(&mut self, value: u8) {
        self.c.write_7ffd(value)
    }
    pub fn read_7ffd(&self) -> u8 {
        self.c.read_7ffd()
    }
    pub fn int_active(&self) -> bool {
        self.c.int_active()
    }
    pub fn frames_count(&self) -> usize {
        self.c.frames_count()
    }
    pub fn reset_frame_counter(&mut self) {
        self.c.reset_frame_counter()
    }
    /// A page load, followed by the refresh of the mirrored video banks.
    pub fn load_page(&mut self, page: u8, bytes: &[u8]) {
        self.c.memory.ram_page_data_mut(page).copy_from_slice(bytes);
        self.c.refresh_memory_dependent_devices();
    }
    pub fn load_rom(&mut self, page: u8, bytes: &[u8]) {
        self.c.memory.rom_page_data_mut(page).copy_from_slice(bytes)
    }
    pub fn ram_page(&self, page: u8) -> &[u8] {
        self.c.memory.ram_page_data(page)
    }
    /// Whether RAM stands at a block, and which page.
    pub fn block(&self, block: usize) -> (bool, u8) {
        match self.c.memory.get_bank_type(block) {
            Page::Ram(page) => (true, page),
            Page::Rom(page) => (false, page),
        }
    }
    pub fn border_color(&self) -> u8 {
        self.c.border_color.into()
    }
    pub fn frame_clocks(&self) -> usize {
        self.c.frame_clocks
    }

    /// The bytes of the device record, but for its AY flag.
    pub fn set_devices(&mut self, d: &[u8; 35]) {
        self.c.keyboard.copy_from_slice(&d[0..8]);
        self.c.keyboard_extended.copy_from_slice(&d[8..16]);
        self.c.keyboard_sinclair.copy_from_slice(&d[16..24]);
        self.c.tape.bit = d[24] == 1;
        self.c.io_extender = Some(Extender { claims: d[25] == 1, byte: d[26], writes: 0 });
        self.c.mixer.ay.byte = d[28];
        self.c.kempston = (d[29] == 1).then(|| KempstonJoy { byte: d[30] });
        self.c.mouse =
            (d[31] == 1).then(|| KempstonMouse { buttons_port: d[32], x_pos_port: d[33], y_pos_port: d[34] });
    }

    /// Clocks that have passed in all, as the tape was told.
    pub fn clocks(&self) -> u64 {
        self.c.tape.clocks
    }
    /// Clocks that had passed when the tape bit was last taken.
    pub fn tape_taken_at(&self) -> u64 {
        self.c.tape.taken_at.get()
    }
    /// How many writes reached the extender, the AY's selection, the AY's data and the beeper.
    pub fn reached(&self) -> [u32; 4] {
        let mixer = &self.c.mixer;
        let extender = self.c.io_extender.as_ref().map_or(0, |e| e.writes);
        [extender, mixer.ay.selects, mixer.ay.writes, mixer.beeper.changes]
    }

    // Direct edits, which document 01 leaves behind: only to put the original in a given sound state.
    pub fn set_frame_clocks(&mut self, clock: usize) {
        self.c.frame_clocks = clock
    }
    pub fn set_border_at(&mut self, clock: usize, color: u8) {
        self.c.set_border_color(clock, ZXColor::from_bits(color))
    }
    pub fn set_border_color(&mut self, color: u8) {
        self.c.border_color = ZXColor::from_bits(color)
    }
    /// The beam's colour from a frame's start on; the reported border stays as it is.
    pub fn set_beam(&mut self, color: u8) {
        self.c.border.set_border(0, ZXColor::from_bits(color))
    }
}

pub type Plain = Door<PlainHost>;

impl Plain {
    pub fn new(machine: u8) -> Self {
        Door { c: ZXController::new(&settings(machine), ()) }
    }
}

pub struct Watched {
    pub door: Door<WatchedHost>,
    planes: Planes,
}

impl Watched {
    pub fn new(machine: u8) -> Self {
        let planes = Planes::default();
        Watched { door: Door { c: ZXController::new(&settings(machine), planes.clone()) }, planes }
    }
    /// Picture A (0) is the first that the original makes, and shown at start; B is 1, the border 2.
    pub fn plane(&self, which: usize) -> Rc<Plane> {
        self.planes.borrow()[which].clone()
    }
    /// Which picture the original hands back as shown.
    pub fn shown(&self) -> usize {
        let shown = &self.door.c.screen.frame_buffer().0;
        if Rc::ptr_eq(shown, &self.plane(0)) {
            0
        } else {
            1
        }
    }
}
