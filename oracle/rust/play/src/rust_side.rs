// The original's side of a script. This file is taken twice, once over each build of the original, named `core_x`.
use crate::{script::*, Side, State};
use core_x::door::{self, helpers, Watched};

pub struct RustSide {
    pub m: Watched,
    machine: u8,
    devices: [u8; 35],
}

/// A panic of the original is a refusal of ours.
fn or_refused(refusal: u8, answer: impl FnOnce() -> u32) -> Answer {
    match crate::quietly(answer) {
        Some(n) => Answer::Number(n),
        None => Answer::Refused(refusal),
    }
}

fn helper(r: Record) -> Answer {
    let at = r.z as u16;
    or_refused(8, || match r.op {
        b'a' => helpers::bitmap_line_addr(r.z as usize) as u32,
        b'b' => helpers::bitmap_line_rel(at) as u32,
        b'c' => helpers::bitmap_col_rel(at) as u32,
        b'd' => helpers::attr_row_rel(at) as u32,
        b'e' => helpers::attr_col_rel(at) as u32,
        _ => door::color_from_bits(r.z as u8) as u32,
    })
}

impl RustSide {
    /// The original's own start, whose beam is white. It takes no colour: for another one its border is told so before
    /// any time passes, and the border that it reports stays black.
    pub fn new(machine: u8, colour: u8) -> Self {
        let mut m = Watched::new(machine);
        if colour != WHITE {
            m.door.set_beam(colour)
        }
        RustSide { m, machine, devices: devices(door::AY as u8) }
    }

    /// Snapshots are our addition: to the original an import is its own start and then, before any time passes, its own
    /// load of each page with the refresh, its 7FFD write, which locks where the byte says so, and its border call.
    pub fn imported(import: &Import) -> Self {
        let mut side = RustSide::new(import.machine, WHITE);
        for page in 0..(RAM_BYTES[import.machine as usize] / 16_384) as u8 {
            side.m.door.load_page(page, &import.page(page));
        }
        side.m.door.write_7ffd(import.paging);
        side.m.door.set_border_at(0, import.border & 7);
        side
    }

    /// A timed call: what it answers, and what is seen of it from outside.
    fn timed(&mut self, call: impl FnOnce(&mut Watched) -> u32) -> Answer {
        let blocks = |m: &Watched| (m.plane(0).sets.get() + m.plane(1).sets.get()) / 8;
        let (clocks, frames, painted) = (self.m.door.clocks(), self.m.door.frames_count(), blocks(&self.m));
        let value = call(&mut self.m);
        let door = &self.m.door;
        Answer::Timed([
            value,
            (door.frames_count() - frames) as u32,
            door.int_active() as u32,
            (door.clocks() - clocks) as u32,
            (blocks(&self.m) - painted) as u32,
        ])
    }

    fn read_io(&mut self, r: Record) -> Answer {
        self.m.door.set_devices(&self.devices);
        let takes_tape = r.y % 2 == 0 && self.devices[25] == 0;
        self.timed(|m| {
            let value = m.door.read_io(r.y) as u32;
            // The moment that the firmware's duties name: the call's end less its last clock.
            assert!(!takes_tape || m.door.tape_taken_at() == m.door.clocks() - 1);
            value
        })
    }

    /// The original's port write answers nothing. Its value here is what it is seen to do: 1 the extender, 2 the AY's
    /// selection, 3 its data, 4 border and beeper, 5 another 7FFD byte, 0 nothing of these.
    fn write_io(&mut self, r: Record) -> Answer {
        self.m.door.set_devices(&self.devices);
        self.timed(|m| {
            let (reached, paging) = (m.door.reached(), m.door.read_7ffd());
            m.door.write_io(r.y, r.x);
            let mut seen: Vec<u32> =
                (0..4).filter(|&i| m.door.reached()[i] != reached[i]).map(|i| i as u32 + 1).collect();
            if m.door.read_7ffd() != paging {
                assert_eq!(m.door.read_7ffd(), r.x);
                seen.push(5)
            }
            assert!(seen.len() < 2, "one write, two devices");
            seen.first().copied().unwrap_or(0)
        })
    }

    /// The same of the 7FFD write: 5 for another byte, 0 for none.
    fn write_7ffd(&mut self, value: u8) -> Answer {
        let paging = self.m.door.read_7ffd();
        self.m.door.write_7ffd(value);
        Answer::Number(if self.m.door.read_7ffd() != paging { 5 } else { 0 })
    }

    /// RAM is counted after ROM; a page's start is taken from where its bytes stand.
    fn ram_page(&self, page: u8) -> u32 {
        let base = self.m.door.ram_page(0).as_ptr() as usize;
        let start = self.m.door.ram_page(page).as_ptr() as usize - base;
        (ROM_BYTES[self.machine as usize] + start) as u32
    }

    fn block(&self, block: usize) -> u32 {
        match self.m.door.block(block) {
            (true, page) => self.ram_page(page),
            (false, page) => page as u32 * 16_384,
        }
    }

    /// The still picture is our addition: what a fresh original with the same video pages and the same 7FFD byte, which
    /// itself picks the page, paints in its first frame (flash off) or in its second (flash on).
    fn still(&self, flash: u32) -> u32 {
        let mut fresh = Watched::new(self.machine);
        for &page in self.video_pages() {
            fresh.door.load_page(page, self.m.door.ram_page(page));
        }
        fresh.door.write_7ffd(self.m.door.read_7ffd());
        fresh.door.wait_internal(65_535);
        if flash == 1 {
            fresh.door.wait_internal(20_000);
            fresh.door.wait_internal(65_535 - 20_000);
        }
        digest(fresh.plane(1 - flash as usize).pixels.iter().map(|p| p.get()))
    }

    fn video_pages(&self) -> &'static [u8] {
        if self.machine == 0 {
            &[0]
        } else {
            &[5, 7]
        }
    }

    /// Screen files are our addition: to the original a load is its own load of the page's bytes with the file in front,
    /// where it has the page. That a page it never shows is refused with 9 is our rule.
    fn load_screen(&mut self, page: u8, seed: u32) -> Answer {
        match or_refused(7, || self.ram_page(page)) {
            Answer::Number(_) if self.video_pages().contains(&page) => {
                let mut bytes = self.m.door.ram_page(page).to_vec();
                bytes[..SCREEN_FILE].copy_from_slice(&filling(seed, SCREEN_FILE));
                self.m.door.load_page(page, &bytes);
                Answer::Done
            }
            Answer::Number(_) => Answer::Refused(9),
            refused => refused,
        }
    }

    /// And what is saved is the front of the page that it shows: its own field `screen_bank` cannot be read from here.
    fn save_screen(&self) -> u32 {
        let shown = self.video_pages()[if self.machine == 0 { 0 } else { (self.m.door.read_7ffd() >> 3 & 1) as usize }];
        digest(self.m.door.ram_page(shown).iter().copied().take(SCREEN_FILE))
    }

    /// And what an export writes is what the original tells of itself: its pages, its 7FFD byte and its border.
    fn save_snapshot(&self, seed: u32) -> u32 {
        let door = &self.m.door;
        let page = |page| door.ram_page(page).to_vec();
        digest(snapshot(self.machine, registers(seed), door.border_color(), door.read_7ffd(), page).into_iter())
    }

    fn digests(&self) -> Answer {
        let plane = |i| digest(self.m.plane(i).pixels.iter().map(|p| p.get()));
        Answer::Digests([plane(0), plane(1), plane(2), digest(self.ram().into_iter())])
    }

    fn load_rom(&mut self, seed: u32) -> Answer {
        let rom = filling(seed, ROM_BYTES[self.machine as usize]);
        for (page, bytes) in rom.chunks(16_384).enumerate() {
            self.m.door.load_rom(page as u8, bytes)
        }
        Answer::Done
    }
}

impl Side for RustSide {
    fn play(&mut self, r: Record) -> Answer {
        let done = |_: ()| Answer::Done;
        match r.op {
            b'N' => self.timed(|m| {
                m.door.wait_internal(r.z as usize);
                0
            }),
            b'M' => self.timed(|m| {
                m.door.wait_mreq(r.y, r.z as usize);
                0
            }),
            b'O' => self.timed(|m| {
                m.door.wait_no_mreq(r.y, r.z as usize);
                0
            }),
            b'I' => self.read_io(r),
            b'W' => self.write_io(r),
            b'D' => {
                assert!(r.x != 27, "the AY flag is the build's");
                self.devices[r.x as usize] = r.z as u8;
                Answer::Done
            }
            b'G' => Answer::Number(self.m.door.read_internal(r.y) as u32),
            b'P' => done(self.m.door.write_internal(r.y, r.x)),
            b'7' => self.write_7ffd(r.x),
            b'8' => Answer::Number(self.m.door.read_7ffd() as u32),
            b'T' => Answer::Number(self.m.door.int_active() as u32),
            b'F' => Answer::Number(self.m.door.frames_count() as u32),
            b'Z' => done(self.m.door.reset_frame_counter()),
            b'L' => match or_refused(7, || {
                self.m.door.load_page(r.x, &filling(r.z, 16_384));
                0
            }) {
                Answer::Number(_) => Answer::Done,
                refused => refused,
            },
            b'l' => self.load_screen(r.x, r.z),
            b's' => Answer::Number(self.save_screen()),
            b'x' => Answer::Number(self.save_snapshot(r.z)),
            b'R' => self.load_rom(r.z),
            b'Q' => or_refused(7, || self.ram_page(r.x)),
            b'B' => or_refused(8, || self.block(r.x as usize)),
            b'V' => Answer::Number(49_152 * self.m.shown() as u32),
            b'K' => Answer::Number(self.still(r.z)),
            b'C' => Answer::Clock(self.m.door.frame_clocks() as u32, self.m.door.border_color()),
            b'H' => self.digests(),
            b'a'..=b'f' => helper(r),
            op => panic!("no operation {op}"),
        }
    }

    fn clock(&self) -> usize {
        self.m.door.frame_clocks()
    }

    fn ram(&self) -> Vec<u8> {
        let pages = RAM_BYTES[self.machine as usize] / 16_384;
        (0..pages).flat_map(|p| self.m.door.ram_page(p as u8).to_vec()).collect()
    }

    fn differs(&self, ram: &[u8], planes: [&[u8]; 3]) -> Option<&'static str> {
        for (i, name) in ["picture A", "picture B", "border"].into_iter().enumerate() {
            // no early end, so that it is quick
            let bits = self.m.plane(i).pixels.iter().zip(planes[i]).fold(0, |bits, (p, q)| bits | (p.get() ^ q));
            if bits != 0 {
                return Some(name);
            }
        }
        let same = |(p, bytes): (usize, &[u8])| self.m.door.ram_page(p as u8) == bytes;
        (!ram.chunks(16_384).enumerate().all(same)).then_some("RAM")
    }

    fn set_clock(&mut self, clock: usize) {
        self.m.door.set_frame_clocks(clock)
    }

    fn put(&mut self, s: &State) {
        self.m.door.set_frame_clocks(FRAME[self.machine as usize]);
        self.m.door.wait_internal(0);
        if let Some(clock) = s.painted_at {
            self.m.door.set_frame_clocks(clock);
            self.m.door.wait_internal(0);
        }
        self.m.door.set_border_at(s.beam_at, s.beam);
        self.m.door.set_border_color(s.reported);
        self.m.door.set_frame_clocks(s.clock);
    }

    fn pictures(&self) -> [Vec<u8>; 3] {
        [0, 1, 2].map(|i| self.m.plane(i).pixels.iter().map(|p| p.get()).collect())
    }
}
