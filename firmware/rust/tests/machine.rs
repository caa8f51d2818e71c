//! A few frames through the safe layer. Linked and run on x86-64; elsewhere `cargo check --tests` reads it.
use ulb_machine::{
    bitmap_line_addr, Kind, Machine, Mouse, Refusal, Registers, PAGE_BYTES, PICTURE_BYTES, REGISTER_BYTES,
    SCREEN_FILE_BYTES, SNA_BYTES_128K, SNA_BYTES_128K_TWICE, SNA_BYTES_48K,
};

fn started(kind: Kind) -> Box<Machine> {
    let mut m = Machine::boxed();
    m.start(kind, &vec![0x55; kind.rom_bytes()]).unwrap();
    m
}

#[test]
fn refusals() {
    let mut m = Machine::boxed();
    assert_eq!(m.wait(1), Err(Refusal::Unsound));
    assert_eq!(m.load_sna(&[0; SNA_BYTES_48K]), Err(Refusal::Unsound));
    assert_eq!(m.save_sna(&mut [0; SNA_BYTES_48K], &Registers::default()), Err(Refusal::Unsound));
    assert_eq!(m.start(Kind::Spectrum48, &[0; 5]), Err(Refusal::BadLength));
    m.start(Kind::Spectrum48, &[0; 16384]).unwrap();
    assert_eq!(m.wait(65536), Err(Refusal::LongWait));
    assert_eq!(m.load_page(&[0; 16384], 3), Err(Refusal::BadPage));
    assert_eq!(m.load_page(&[0; 16383], 3), Err(Refusal::BadLength));
    assert_eq!(m.block(4), Err(Refusal::BadNumber));
    assert_eq!(m.load_scr(&[0; 6912], 3), Err(Refusal::BadPage));
    assert_eq!(m.load_scr(&[0; 6912], 2), Err(Refusal::NoVideoPage));
    assert_eq!(m.load_scr(&[0; 6911], 2), Err(Refusal::BadLength));
    assert_eq!(m.save_scr(&mut [0; 6913]), Err(Refusal::BadLength));
    assert_eq!(m.frame_clock(), 0);
}

/// The first frames after a start, with no border write in them: black, or in the colour that the start was given. In a
/// record byte 18 is the reported border and byte 19 the beam colour.
#[test]
fn starts() {
    for kind in [Kind::Spectrum48, Kind::Spectrum128] {
        let rom = vec![0x55; kind.rom_bytes()];
        let mut m = started(kind);
        let black = *m.state();
        assert_eq!((black[18], black[19], first_frames(&mut m)), (0, 0, 0));
        for colour in 0..8 {
            m.start_colour(kind, &rom, colour).unwrap();
            let mut record = black;
            record[19] = colour as u8;
            assert_eq!(*m.state(), record);
            assert!(m.border().iter().all(|&pixel| pixel == 0));
            assert_eq!(u32::from(first_frames(&mut m)), colour);
        }
        m.start(kind, &rom).unwrap();
        assert_eq!((*m.state(), first_frames(&mut m)), (black, 0));
    }
}

/// The one colour of all border pixels of two frames.
fn first_frames(m: &mut Machine) -> u8 {
    let frame = m.kind().frame();
    let colours = [0; 2].map(|_| {
        assert!(!m.wait(60000).unwrap().closed);
        assert!(m.wait(frame - 60000).unwrap().closed);
        let colour = m.border()[0];
        assert!(m.border().iter().all(|&pixel| pixel == colour));
        colour
    });
    assert_eq!(colours[0], colours[1]);
    colours[0]
}

/// Kind, record, RAM, shown picture, border and the ROM that is paged in.
fn seen(m: &Machine) -> (Kind, [u8; 23], Vec<u8>, Vec<u8>) {
    let pictures = [&m.shown_picture().unwrap()[..], &m.border()[..], m.block(0).unwrap()].concat();
    (m.kind(), *m.state(), ram(m), pictures)
}

/// A refused start changes nothing: neither kind nor record, nor any byte of memory.
#[test]
fn refused_starts() {
    let mut m = filled(Kind::Spectrum48);
    m.write_io(0x00FE, 5).unwrap();
    assert!(m.wait(65535).unwrap().blocks > 0 && m.wait(4353).unwrap().closed);
    let before = seen(&m);
    for kind in [Kind::Spectrum48, Kind::Spectrum128] {
        let rom = vec![0; kind.rom_bytes()];
        for colour in [8, 255, 256, 0x8000_0007] {
            assert_eq!(m.start_colour(kind, &rom, colour), Err(Refusal::BadNumber));
            assert_eq!(m.start_colour(kind, &rom[1..], colour), Err(Refusal::BadLength));
        }
        assert_eq!(m.start(kind, &rom[1..]), Err(Refusal::BadLength));
    }
    assert!(seen(&m) == before);
}

/// Demand 3's sums over some frames, with border writes on the way.
#[test]
fn sums() {
    for kind in [Kind::Spectrum48, Kind::Spectrum128] {
        let mut m = started(kind);
        let (mut clocks, mut blocks, mut frames) = (0u64, 0u64, 0u64);
        for turn in 0..20000u32 {
            let t = match turn % 3 {
                0 => m.write_io(0x40FE, (turn % 8) as u8),
                1 => m.read_io(0x7FFE),
                _ => m.wait_mreq(0x4000, turn % 97),
            }
            .unwrap();
            clocks += u64::from(t.clocks);
            blocks += u64::from(t.blocks);
            frames += u64::from(t.closed);
        }
        assert!(frames > 1);
        assert_eq!(clocks, frames * u64::from(kind.frame()) + u64::from(m.frame_clock()));
        assert_eq!(blocks, frames * 6144 + u64::from(m.blocks_painted()));
        assert_eq!(u64::from(m.frames_count().unwrap()), frames);
    }
}

#[test]
fn memory_and_pictures() {
    let mut m = started(Kind::Spectrum128);
    m.write(0x4000, 0x80).unwrap();
    m.write(0x5800, 0x47).unwrap();
    m.write(0x0000, 0xFF).unwrap();
    assert_eq!((m.read(0x4000), m.read(0x0000)), (Ok(0x80), Ok(0x55)));
    assert_eq!(m.block(1).unwrap()[0], 0x80);
    assert_eq!(m.ram_page(5).unwrap()[0], 0x80);
    assert!(m.wait(60000).unwrap().blocks == 6144);
    assert!(m.wait(20000).unwrap().closed);
    assert_eq!(m.shown_picture().unwrap()[..2], [15, 8]);
    assert!(m.border().iter().all(|&pixel| pixel == 0));
    let mut still = vec![0; PICTURE_BYTES];
    m.still_picture(&mut still, 0).unwrap();
    assert_eq!(&still[..], &m.shown_picture().unwrap()[..]);
    // page 7, which is empty, once bit 3 shows it
    assert_eq!(m.write_7ffd(0x08), Ok(5));
    m.still_picture(&mut still, 0).unwrap();
    assert!(still.iter().all(|&pixel| pixel == 0));
    assert_eq!((m.write_7ffd(0x27), m.write_7ffd(0), m.read_7ffd()), (Ok(5), Ok(6), Ok(0x27)));
}

#[test]
fn devices() {
    let mut m = started(Kind::Spectrum48);
    assert_eq!(m.read_io(0xFFFE).unwrap().value, 0xFF);
    m.devices.tape = false;
    assert_eq!(m.read_io(0xFFFE).unwrap().value, 0xBF);
    m.devices.rows[1][0] = 0xFE;
    assert_eq!(m.read_io(0xFEFE).unwrap().value, 0xBE);
    m.devices.mouse = Some(Mouse { buttons: 1, x: 2, y: 3 });
    assert_eq!(m.read_io(0xFADF).unwrap().value, 1);
    assert_eq!(m.read_io(0xFBDF).unwrap().value, 2);
    assert_eq!(m.read_io(0xFFDF).unwrap().value, 3);
    m.devices.extender = Some(9);
    assert_eq!(m.read_io(0xFFDF).unwrap().value, 9);
    assert_eq!(bitmap_line_addr(191), Ok(0x57E0));
}

/// No two pages of ROM and RAM have the same byte at the same offset, so that a wrong page is seen at every address.
fn filling(page: usize, offset: usize) -> u8 {
    (31 * page + 7 * offset + (offset >> 8) + 3) as u8
}

fn filled(kind: Kind) -> Box<Machine> {
    let page = |number| (0..PAGE_BYTES).map(|offset| filling(number, offset)).collect::<Vec<u8>>();
    let mut m = Machine::boxed();
    m.start(kind, &[page(8), page(9)].concat()[..kind.rom_bytes()]).unwrap();
    for number in 0..kind.ram_bytes() / PAGE_BYTES {
        m.load_page(&page(number), number as u32).unwrap();
    }
    m
}

/// The map's byte is the call's, in every block at its first and last two bytes, and at every `stride`th address.
fn same(m: &Machine, stride: usize) {
    for addr in 0..=0xFFFF {
        let offset = usize::from(addr) % PAGE_BYTES;
        if offset < 2 || offset >= PAGE_BYTES - 2 || usize::from(addr) % stride == 0 {
            assert_eq!(Ok(m.byte(addr)), m.read(addr), "at {addr:04X}h");
        }
    }
}

#[test]
fn bytes_through_the_map() {
    let mut m = filled(Kind::Spectrum48);
    same(&m, 1);
    assert_eq!((m.write_7ffd(0x17), m.write_io(0x7FFD, 0x17).unwrap().value), (Ok(0), 0));
    same(&m, 97);

    // every 7FFD byte, by the call and by the port, each from a fresh record, since some lock
    let mut m = filled(Kind::Spectrum128);
    let fresh = *m.state();
    same(&m, 1);
    for value in 0..=255 {
        m.load_state(&fresh).unwrap();
        same(&m, 4999);
        assert_eq!(m.write_7ffd(value), Ok(5));
        same(&m, 997);
        let locked = value & 0x20 != 0;
        assert_eq!(m.write_io(0x7FFD, value ^ 7).unwrap().value, if locked { 6 } else { 5 });
        same(&m, 997);
    }
}

/// What the map's bytes are before and after paging: a map that was not renewed would still give the first.
#[test]
fn the_map_is_renewed() {
    let mut m = filled(Kind::Spectrum128);
    let seen = |m: &Machine| [0x0000, 0x4000, 0x8000, 0xC000].map(|addr| m.byte(addr));
    let pages = |pages: [usize; 4]| pages.map(|page| filling(page, 0));
    assert_eq!(seen(&m), pages([8, 5, 2, 0]));
    assert_eq!(m.write_io(0x7FFD, 0x13).unwrap().value, 5);
    assert_eq!(seen(&m), pages([9, 5, 2, 3]));
    assert_eq!(m.write_7ffd(0x26), Ok(5));
    assert_eq!(seen(&m), pages([8, 5, 2, 6]));
    assert_eq!(m.write_7ffd(0x10), Ok(6));
    assert_eq!(seen(&m), pages([8, 5, 2, 6]));
    m.write(0xC000, 0xA5).unwrap();
    assert_eq!((m.byte(0xC000), m.ram_page(6).unwrap()[0]), (0xA5, 0xA5));

    let mut record = *m.state();
    record[17] = 0x14;
    m.load_state(&record).unwrap();
    assert_eq!(seen(&m), pages([9, 5, 2, 4]));
    record[14] = 32; // no such flash phase
    assert_eq!(m.load_state(&record), Err(Refusal::Unsound));
    record[5] = 0; // a 48K's
    assert_eq!(m.load_state(&record), Err(Refusal::BadLength));
    assert_eq!((seen(&m), m.read_7ffd()), (pages([9, 5, 2, 4]), Ok(0x14)));
    m.start(Kind::Spectrum128, &[1; 32768]).unwrap();
    assert_eq!(seen(&m), [1, 0, 0, 0]);
}

/// A file is the shown page's front; read into either video page it is that page's, and the rest of RAM stays.
#[test]
fn screen_files() {
    for (kind, pages) in [(Kind::Spectrum48, &[0][..]), (Kind::Spectrum128, &[5, 7])] {
        let mut m = filled(kind);
        for &shown in pages {
            m.write_7ffd(if shown == 7 { 8 } else { 0 }).unwrap();
            for &page in pages {
                let mut file = vec![0; SCREEN_FILE_BYTES];
                m.save_scr(&mut file).unwrap();
                assert_eq!(file, m.ram_page(shown).unwrap()[..SCREEN_FILE_BYTES]);
                let mut want = ram(&m);
                file.iter_mut().for_each(|byte| *byte = byte.wrapping_add(1));
                m.load_scr(&file, page).unwrap();
                want[page as usize * PAGE_BYTES..][..SCREEN_FILE_BYTES].copy_from_slice(&file);
                assert_eq!(ram(&m), want);
            }
        }
    }
}

fn ram(m: &Machine) -> Vec<u8> {
    (0..).map_while(|page| m.ram_page(page).ok()).flatten().copied().collect()
}

/// Blocks painted before a file is read keep the old bytes; those after have the file's.
#[test]
fn a_file_in_mid_frame() {
    let mut m = started(Kind::Spectrum48);
    let before = usize::from(m.wait(36788).unwrap().blocks);
    let mut file = [0xFF; SCREEN_FILE_BYTES];
    file[6144..].fill(0x46);
    m.load_scr(&file, 0).unwrap();
    assert_eq!((before, m.frame_clock()), (3213, 36788));
    assert!(m.wait(69888 - 36788).unwrap().closed);
    let picture = m.shown_picture().unwrap();
    assert!(picture.iter().enumerate().all(|(i, &pixel)| pixel == if i / 8 < before { 0 } else { 14 }));
}

/// Thirty different bytes; the header's border is yellow, with its high bits set.
fn register_bytes() -> [u8; REGISTER_BYTES] {
    let mut bytes = [0; REGISTER_BYTES];
    for (byte, value) in bytes.iter_mut().zip(0xA4..) {
        *byte = value;
    }
    bytes
}

/// A snapshot made by hand: bank `n` has the filling of page `n`, on 48K as on 128K.
fn snapshot(kind: Kind, paging: u8) -> Vec<u8> {
    let bank = |number| (0..PAGE_BYTES).map(|offset| filling(number, offset)).collect::<Vec<u8>>();
    let (registers, paged) = (register_bytes(), usize::from(paging & 7));
    let mut file = registers[..27].to_vec();
    match kind {
        Kind::Spectrum48 => (0..3).for_each(|number| file.extend(bank(number))),
        Kind::Spectrum128 => {
            [5, 2, paged].iter().for_each(|&number| file.extend(bank(number)));
            file.extend([registers[27], registers[28], paging, registers[29]]);
            (0..8).filter(|&number| ![5, 2, paged].contains(&number)).for_each(|number| file.extend(bank(number)));
        }
    }
    file
}

/// Both kinds, and on 128K every paged bank, both screens, either ROM, locked and not.
fn snapshots() -> Vec<(Kind, u8)> {
    let all = (0..64).chain([0xC5, 0xFA]).map(|paging| (Kind::Spectrum128, paging));
    all.chain([(Kind::Spectrum48, 0)]).collect()
}

fn saved(m: &Machine, registers: &Registers) -> Vec<u8> {
    let mut file = vec![0x55; m.sna_bytes()];
    m.save_sna(&mut file, registers).unwrap();
    file
}

#[test]
fn registers_by_name() {
    let bytes = register_bytes();
    let z = Registers::from_bytes(&bytes);
    assert_eq!(z.to_bytes(), bytes);
    let word = |at: usize| u16::from_le_bytes([bytes[at], bytes[at + 1]]);
    assert_eq!((z.i, z.r, z.iff, z.im, z.border, z.tr_dos), (bytes[0], bytes[20], bytes[19], bytes[25], bytes[26], bytes[29]));
    assert_eq!([z.hl2, z.de2, z.bc2, z.af2, z.hl, z.de, z.bc], [1, 3, 5, 7, 9, 11, 13].map(word));
    assert_eq!([z.iy, z.ix, z.af, z.sp, z.pc], [15, 17, 21, 23, 27].map(word));
    assert!(z.iff2() && !Registers { iff: 0xFB, ..z }.iff2());
    assert_eq!(Registers::default().to_bytes(), [0; REGISTER_BYTES]);
}

/// A start from a snapshot: RAM, paging, lock and border are the file's, all else is as after a start; and what is saved is the
/// file again, but for the high bits of its border.
#[test]
fn started_from_snapshots() {
    for (kind, paging) in snapshots() {
        let (file, rom) = (snapshot(kind, paging), vec![0x55; kind.rom_bytes()]);
        assert_eq!(file.len(), kind.sna_bytes(paging));
        let (mut m, registers) = Machine::from_sna(kind, &rom, &file).unwrap();
        let mut record = *started(kind).state();
        record[17] = paging;
        record[18] = 6;
        record[19] = 6;
        assert_eq!(*m.state(), record);
        let mut bytes = register_bytes();
        if kind == Kind::Spectrum48 {
            bytes[27..].fill(0);
        }
        assert_eq!(registers.to_bytes(), bytes);
        assert_eq!(ram(&m), (0..ram(&m).len()).map(|at| filling(at / PAGE_BYTES, at % PAGE_BYTES)).collect::<Vec<u8>>());
        assert!(m.border().iter().chain(&m.shown_picture().unwrap()[..]).all(|&pixel| pixel == 0));
        same(&m, 997);
        let mut again = file.clone();
        again[26] = 6;
        assert_eq!(saved(&m, &registers), again);
        assert_eq!(saved(&m, &Registers { border: 1, ..registers }), again);
        if kind == Kind::Spectrum48 {
            assert_eq!(saved(&m, &Registers { pc: 0x1234, tr_dos: 1, ..registers }), again);
        } else {
            assert_eq!(m.write_7ffd(paging ^ 1), Ok(if paging & 0x20 != 0 { 6 } else { 5 }));
        }
        assert_eq!(first_frames(&mut m), 6);
    }
}

/// A snapshot into a machine that ran: nothing of what was there is left but ROM and devices, and the map is renewed.
#[test]
fn loaded_into_a_running_machine() {
    for (kind, paging) in snapshots() {
        let file = snapshot(kind, paging);
        let mut m = filled(kind);
        m.devices.tape = false;
        m.write_7ffd(0x34).unwrap();
        m.write_io(0x00FE, 5).unwrap();
        m.wait(60000).unwrap();
        m.wait(50000).unwrap();
        m.write(0x4000, 0xEE).unwrap();
        let registers = m.load_sna(&file).unwrap();
        same(&m, 997);
        let rom = if paging & 0x10 != 0 { 9 } else { 8 };
        assert_eq!((m.byte(0x3FFF), m.devices.tape), (filling(rom, 0x3FFF), false));
        let (fresh, first) = Machine::from_sna(kind, &vec![0; kind.rom_bytes()], &file).unwrap();
        assert_eq!((registers, *m.state(), ram(&m)), (first, *fresh.state(), ram(&fresh)));
        assert!(m.border().iter().chain(&m.shown_picture().unwrap()[..]).all(|&pixel| pixel == 0));
    }
}

/// What was changed since, saved and loaded into another machine, is all there.
#[test]
fn saved_and_loaded() {
    let mut m = filled(Kind::Spectrum128);
    m.write_io(0x00FE, 3).unwrap();
    m.write(0x5800, 0x47).unwrap();
    let registers = Registers { pc: 0x8000, sp: 0xFF40, im: 1, iff: 4, ..Registers::default() };
    for paging in [0x00, 0x02, 0x0D, 0x37] {
        m.write_7ffd(paging).unwrap();
        let file = saved(&m, &registers);
        let (other, given) = Machine::from_sna(Kind::Spectrum128, &[0; 32768], &file).unwrap();
        assert_eq!((given, ram(&other)), (Registers { border: 3, ..registers }, ram(&m)));
        assert_eq!((other.read_7ffd(), other.state()[18]), (Ok(u32::from(paging)), 3));
    }
}

/// Each refusal in its turn, and that it changes nothing.
#[test]
fn refused_snapshots() {
    let rom = [vec![0; 16384], vec![0; 32768]];
    let mut m = filled(Kind::Spectrum128);
    m.write_7ffd(0x0B).unwrap();
    m.write_io(0x00FE, 5).unwrap();
    m.wait(60000).unwrap();
    m.wait(20000).unwrap();
    let before = seen(&m);
    for (kind, paging) in snapshots() {
        let (mut file, rom) = (snapshot(kind, paging), &rom[kind as usize]);
        assert_eq!(m.start_sna(kind, &rom[1..], &file), Err(Refusal::BadLength));
        for size in [0, 27, 49178, 49180, 49181, 49182, file.len() - 1, SNA_BYTES_128K, SNA_BYTES_128K_TWICE] {
            let cut: Vec<u8> = file.iter().copied().chain([0]).cycle().take(size).collect();
            if size != kind.sna_bytes(*cut.get(49181).unwrap_or(&0)) {
                assert_eq!(m.start_sna(kind, rom, &cut), Err(Refusal::WrongSize));
            }
        }
        file.push(0);
        assert_eq!(m.start_sna(kind, rom, &file), Err(Refusal::WrongSize));
        if kind == Kind::Spectrum128 && [2, 5].contains(&(paging & 7)) {
            for at in [0, 8191, 16383] {
                let mut unequal = snapshot(kind, paging);
                unequal[27 + 2 * PAGE_BYTES + at] ^= 0x10;
                assert_eq!(m.start_sna(kind, rom, &unequal), Err(Refusal::UnequalCopies));
                assert_eq!(m.load_sna(&unequal), Err(Refusal::UnequalCopies));
            }
        }
    }
    assert_eq!(m.load_sna(&snapshot(Kind::Spectrum48, 0)), Err(Refusal::WrongSize));
    for size in [0, SNA_BYTES_48K, m.sna_bytes() - 1, m.sna_bytes() + 1, SNA_BYTES_128K_TWICE] {
        let mut file = vec![0x55; size];
        assert_eq!(m.save_sna(&mut file, &Registers::default()), Err(Refusal::WrongSize));
        assert!(file.iter().all(|&byte| byte == 0x55));
    }
    assert!(seen(&m) == before);
}
