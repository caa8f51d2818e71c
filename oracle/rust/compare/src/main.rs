//! compare [SECONDS [SEED]]: the original and our library side by side, call by call, each answer compared; pictures,
//! border and RAM compared whole at every frame's end and every 64 calls. First calls at every clock of a frame, from
//! every start and from snapshots, then random histories. Where they differ it prints the shortest script that it finds
//! and stops with status 1.
use compare::{plain_start, Ours};
use play::random::{self, Rng};
use play::script::*;
use play::Side;
use std::time::{Duration, Instant};

#[derive(Default, Clone, Copy)]
struct Tally {
    calls: u64,
    looks: u64,
    frames: u64,
    bytes: u64,
}

impl Tally {
    fn add(&mut self, other: Tally) {
        self.calls += other.calls;
        self.looks += other.looks;
        self.frames += other.frames;
        self.bytes += other.bytes;
    }
}

impl std::fmt::Display for Tally {
    fn fmt(&self, f: &mut std::fmt::Formatter<'_>) -> std::fmt::Result {
        let Tally { calls, looks, frames, bytes } = self;
        write!(
            f,
            "{calls} calls compared, {looks} looks between, {frames} frames closed, {bytes} bytes of pictures and RAM"
        )
    }
}

/// The two machines, and every record since their start.
struct Pair {
    rust: Box<dyn Side>,
    ours: Ours,
    since: Vec<Record>,
    t: Tally,
}

/// Two more records that scripts do not have: `J` goes to a sound state of the next frame by the seed z, `X` to the
/// clock z.
const JUMP: u8 = b'J';
const SET_CLOCK: u8 = b'X';

impl Pair {
    fn new(start: Record) -> Pair {
        let ours = Import::of(start).map_or_else(|| Ours::new(start), |import| Ours::imported(&import));
        Pair { rust: play::start(start), ours, since: vec![start], t: Tally::default() }
    }

    fn whole(&mut self) -> Result<(), String> {
        let o = &self.ours;
        self.t.bytes += (o.ram.len() + o.a.len() + o.b.len() + o.border.len()) as u64;
        match self.rust.differs(&o.ram, [&o.a, &o.b, &o.border]) {
            Some(part) => Err(format!("{part} differs")),
            None => Ok(()),
        }
    }

    /// Both play a record, and what is seen afterwards is the same.
    fn play(&mut self, r: Record) -> Result<(), String> {
        self.since.push(r);
        match r.op {
            JUMP => {
                let state = random::state(&mut Rng(r.z as u64), self.ours.machine);
                self.rust.put(&state);
                self.ours.put(&state, self.rust.pictures());
                return Ok(());
            }
            SET_CLOCK => {
                self.rust.set_clock(r.z as usize);
                self.ours.set_clock(r.z as usize);
                return Ok(());
            }
            _ => {}
        }
        if let Some(import) = Import::of(r) {
            self.rust = play::start(r);
            self.ours.import(&import);
            self.t.calls += 1;
            return self.whole();
        }
        let (rust, ours) = (self.rust.play(r), self.ours.play(r));
        self.t.calls += 1;
        if rust != ours {
            return Err(format!("{r}: the original {rust}, ours {ours}"));
        }
        let closed = matches!(rust, Answer::Timed([_, 1, ..]));
        self.t.frames += closed as u64;
        if closed || self.t.calls % 64 == 0 {
            self.whole()
        } else {
            Ok(())
        }
    }

    /// What calls that take no time tell.
    fn look(&mut self) -> Result<(), String> {
        for op in *b"C8FVT" {
            let r = record(op, 0, 0, 0);
            let (rust, ours) = (self.rust.play(r), self.ours.play(r));
            if rust != ours {
                return Err(format!("then {r}: the original {rust}, ours {ours}"));
            }
            self.t.looks += 1;
        }
        Ok(())
    }

    /// The still pictures of the page that is now shown, with flash off and on.
    fn stills(&mut self) -> Result<(), String> {
        (0..2).try_for_each(|flash| self.play(record(b'K', 0, 0, flash)))
    }

    /// A screen file that is read, wherever the beam stands, and one that is saved.
    fn screen_file(&mut self, page: u8, seed: u32) -> Result<(), String> {
        self.step(record(b'l', page, 0, seed))?;
        self.play(record(b's', 0, 0, 0))
    }

    /// A second start, from a snapshot, and the ROM for it.
    fn import(&mut self, import: Import) -> Result<(), String> {
        self.step(import.record())?;
        self.step(record(b'R', 0, 0, import.seed))
    }

    fn step(&mut self, r: Record) -> Result<(), String> {
        self.play(r)?;
        self.look()
    }
}

/// Plays a script from its start record, and compares as it goes: in a short one everything after each record.
fn replay(script: &[Record]) -> Result<(), String> {
    let mut pair = Pair::new(script[0]);
    pair.look()?;
    for &r in &script[1..] {
        pair.step(r)?;
        if script.len() < 1000 {
            pair.whole()?
        }
    }
    pair.whole()
}

/// Leaves records out as long as the rest still differs.
fn shortest(mut script: Vec<Record>) -> Vec<Record> {
    let mut size = script.len() / 2;
    while size > 0 {
        let mut at = 1;
        while at < script.len() {
            let mut shorter = script.clone();
            shorter.drain(at..(at + size).min(script.len()));
            if let Some(Err(_)) = play::quietly(|| replay(&shorter)) {
                script = shorter
            } else {
                at += size
            }
        }
        size /= 2;
    }
    script
}

fn or_stop(pair: &Pair, result: Result<(), String>) {
    let Err(difference) = result else { return };
    println!("DIFFERENCE after {} records: {difference}", pair.since.len());
    let script = shortest(pair.since.clone());
    println!("shortest script found, {} records:", script.len());
    for r in &script {
        println!("  {r}");
    }
    println!("it says: {}", replay(&script).err().unwrap_or_default());
    std::process::exit(1)
}

/// Calls of every kind that time depends on: waits at each block of 16 KiB, plain waits, ports of each kind of contention.
fn timed_kinds() -> Vec<Record> {
    let mut kinds = vec![];
    for addr in [0x0000, 0x4000, 0x8000, 0xC000] {
        kinds.extend([0, 1, 4, 11].map(|n| record(b'M', 0, addr, n)));
        kinds.push(record(b'O', 0, addr, 3));
    }
    kinds.extend([0, 1, 16].map(|n| record(b'N', 0, 0, n)));
    for port in [0x40FF, 0x40FE, 0x00FF, 0x00FE, 0xC0FF, 0xC0FE, 0x80FF, 0x80FE, 0x7FFD, 0x7FFC, 0xFFFD] {
        kinds.extend([record(b'I', 0, port, 0), record(b'W', 5, port, 0)]);
    }
    kinds
}

fn begun(start: Record, then: impl Iterator<Item = Record>) -> Pair {
    let mut pair = Pair::new(start);
    for r in then {
        let went = pair.step(r);
        or_stop(&pair, went);
    }
    pair
}

/// A machine with full pages.
fn full(start: Record, paging: u8, seed: u32) -> Pair {
    let pages = (0..RAM_BYTES[start.z as usize] / 16_384).map(|p| record(b'L', p as u8, 0, seed + p as u32));
    begun(start, pages.chain([record(b'R', 0, 0, seed), record(b'7', paging, 0, 0)]))
}

/// The same from a snapshot, which fills them.
fn from_snapshot(import: Import) -> Pair {
    begun(import.record(), [record(b'R', 0, 0, import.seed)].into_iter())
}

/// A call begun at every clock of a frame. The clock only rises in a frame, so it takes a frame for each remainder by 17.
fn every_clock(machine: u8, paging: u8, kind: Record) -> Tally {
    let frame = FRAME[machine as usize];
    let mut pair = full(start(machine, 0, WHITE), paging, 900);
    for first in 0..17 {
        let mut clock = first;
        while clock < frame {
            let frames = pair.t.frames;
            let went = pair.play(record(SET_CLOCK, 0, 0, clock as u32)).and_then(|()| pair.play(kind));
            or_stop(&pair, went);
            if pair.t.frames != frames {
                break; // in the next frame the clocks that are left would be early ones
            }
            clock += 17;
        }
        let looked = pair.look().and_then(|()| pair.play(record(SET_CLOCK, 0, 0, frame as u32 - 1)));
        let closed = looked.and_then(|()| pair.step(record(b'N', 0, 0, 1)));
        or_stop(&pair, closed);
    }
    pair.t
}

/// Waits of many lengths, 0 to 65,535, from a few clocks; after each one a wait of 1, which paints what is left over.
fn every_length(machine: u8) -> Tally {
    let frame = FRAME[machine as usize];
    let mut pair = full(start(machine, 0, WHITE), 0, 950);
    for from in [0, random::CONTENTION[machine as usize], 57_344, frame - 65_535, frame - 1] {
        let near = |n: usize| n < 40 || n > 65_530 || (from + n).abs_diff(frame) < 3 || n % 251 == 0;
        for n in (0..=65_535).filter(|&n| near(n)) {
            let calls = [(SET_CLOCK, frame - 1), (b'N', 1), (SET_CLOCK, from), (b'N', n), (b'N', 0), (b'N', 1)];
            for (op, z) in calls {
                let went = pair.step(record(op, 0, 0, z as u32));
                or_stop(&pair, went);
            }
        }
    }
    pair.t
}

/// The helpers, pages and blocks on every number of 16 bits (of 8 where the original takes a byte).
fn every_number() -> Tally {
    let mut total = Tally::default();
    for machine in 0..2 {
        let mut pair = full(start(machine, 1, WHITE), 0, 970);
        for z in 0..=65_535 {
            for op in *b"abcdef" {
                if op != b'f' || z < 256 {
                    let went = pair.play(record(op, 0, 0, z));
                    or_stop(&pair, went);
                }
            }
            if z < 256 {
                for op in *b"QB" {
                    let went = pair.play(record(op, z as u8, 0, 0));
                    or_stop(&pair, went);
                }
            }
        }
        // stills of both video pages, the second time with the byte locked
        for paging in [0x00, 0x08, 0x07, 0x28, 0x00] {
            let went = pair.play(record(b'7', paging, 0, 0)).and_then(|_| pair.stills());
            or_stop(&pair, went);
        }
        total.add(pair.t);
    }
    total
}

/// A script from each start: of every colour, and of the one that takes none.
fn from_each_start(machine: u8, script: &[Record]) -> Tally {
    let mut total = Tally::default();
    let starts = (0..=WHITE).map(|colour| start(machine, 0, colour));
    for start in starts.chain([plain_start(machine, 0)]) {
        let mut pair = Pair::new(start);
        let begun = pair.look().and_then(|()| pair.whole());
        or_stop(&pair, begun);
        for &r in script {
            let went = pair.step(r);
            or_stop(&pair, went);
        }
        total.add(pair.t);
    }
    total
}

/// What a start's colour paints until another is written, at each edge of the first frame or of the second.
fn every_start() -> Tally {
    let mut total = Tally::default();
    for machine in 0..2 {
        let go = |clock: usize| record(SET_CLOCK, 0, 0, clock as u32);
        let close = [go(FRAME[machine as usize] - 1), record(b'N', 0, 0, 1)];
        for edge in random::edges(machine) {
            let write = [go(edge - 1), record(b'W', 2, 0x00FE, 0)];
            for script in [[write, close, close], [close, write, close]] {
                total.add(from_each_start(machine, &script.concat()));
            }
        }
    }
    total
}

/// What an import leaves, and what becomes of it: bytes at each block, stills, the file saved again; then, in the picture,
/// a border write and both writes of 7FFD, which a locked byte does not let through; two frames, and the file saved once more.
fn after_an_import(machine: u8, seed: u32) -> Vec<Record> {
    let frame = FRAME[machine as usize] as u32;
    let mut script: Vec<Record> = [0x0000, 0x4000, 0x8000, 0xC000, 0xFFFF].map(|at| record(b'G', 0, at, 0)).into();
    script.extend([record(b'K', 0, 0, 0), record(b'x', 0, 0, seed), record(b'N', 0, 0, 20_000 + seed % 30_000)]);
    script.extend([record(b'W', seed as u8, 0x00FE, 0), record(b'P', !seed as u8, 0xC000, 0)]);
    script.extend([record(b'W', seed as u8 ^ 0x0F, 0x7FFD, 0), record(b'7', seed as u8 ^ 0x1A, 0, 0)]);
    for clock in [frame - 1, frame - 1] {
        script.extend([record(SET_CLOCK, 0, 0, clock), record(b'N', 0, 0, 1)]);
    }
    script.push(record(b'x', 0, 0, !seed));
    script
}

/// An import of each 7FFD byte, and of each colour on 48K, first into new buffers and then over what ran.
fn every_import() -> Tally {
    let mut total = Tally::default();
    for number in 0..264 {
        let (machine, paging) = if number < 8 { (0, 0) } else { (1, (number - 8) as u8) };
        let import = || Import { machine, ay: 0, paging, border: (number * 37 % 256) as u8, seed: 7000 + 9 * number };
        let mut pair = from_snapshot(import());
        let begun = pair.look().and_then(|()| pair.whole());
        or_stop(&pair, begun);
        for r in after_an_import(machine, number) {
            let went = pair.step(r);
            or_stop(&pair, went);
        }
        let again = pair.import(Import { border: !import().border, seed: number, ..import() });
        let went = again.and_then(|()| after_an_import(machine, !number).into_iter().try_for_each(|r| pair.step(r)));
        or_stop(&pair, went);
        total.add(pair.t);
    }
    total
}

/// A snapshot with any bank paged, one in four of them locked.
fn random_import(r: &mut Rng, machine: u8, ay: u8) -> Import {
    let lock = if r.chance(4) { 0x20 } else { 0 };
    let paging = if machine == 0 { 0 } else { r.byte() & 0xDF | lock };
    Import { machine, ay, paging, border: r.byte(), seed: r.next() as u32 >> 1 }
}

/// For a screen file: mostly a video page, now and then any, or one that there is not.
fn random_page(r: &mut Rng, machine: u8) -> u8 {
    match (r.chance(4), machine) {
        (true, _) => r.next() as u8 % 10,
        (false, 0) => 0,
        (false, _) => 5 + 2 * (r.next() as u8 % 2),
    }
}

/// Where it is no snapshot: mostly as the original starts by itself; one in four with another colour than white, and a
/// quarter of these by the start that takes none.
fn random_start(r: &mut Rng, machine: u8, ay: u8) -> Record {
    match r.below(16) {
        0 => plain_start(machine, ay),
        1..=3 => start(machine, ay, r.below(WHITE as usize) as u8),
        _ => start(machine, ay, WHITE),
    }
}

/// A random history, and its start: one in three from a snapshot. Every fourth goes to sound states that no history from a
/// start reaches.
fn history(seed: u64, calls: usize) -> (Record, Tally) {
    let mut r = Rng(seed.wrapping_mul(0x0123_4567_89AB_CDEF) ^ 0x2468);
    let (machine, ay, lengths) = ((seed % 2) as u8, (seed / 2 % 2) as u8, (seed / 4 % 4) as u8);
    let mut pair = if r.chance(3) {
        from_snapshot(random_import(&mut r, machine, ay))
    } else {
        full(random_start(&mut r, machine, ay), 0, r.next() as u32 >> 1)
    };
    let locks = r.chance(2);
    // half of them wait first, so that the beam paints in the start's colour before a write takes another
    if r.chance(2) {
        let went = pair.step(record(b'N', 0, 0, r.below(65_536) as u32));
        or_stop(&pair, went);
    }
    for _ in 0..calls {
        if lengths == 3 && r.chance(24) {
            let went = pair.step(record(JUMP, 0, 0, r.next() as u32));
            or_stop(&pair, went);
        }
        // the stored script has no snapshots and no screen files, so they come here
        if r.chance(1024) {
            let went = pair.import(random_import(&mut r, machine, ay));
            or_stop(&pair, went);
        }
        if r.chance(96) {
            let went = pair.step(record(b'x', 0, 0, r.next() as u32));
            or_stop(&pair, went);
        }
        if r.chance(48) {
            let went = pair.screen_file(random_page(&mut r, machine), r.next() as u32 >> 1);
            or_stop(&pair, went);
        }
        let went = pair.step(random::call(&mut r, machine, pair.rust.clock(), lengths % 3, locks));
        or_stop(&pair, went);
    }
    let ended = pair.stills().and_then(|_| pair.whole());
    or_stop(&pair, ended);
    (pair.since[0], pair.t)
}

fn main() {
    play::keep_quiet();
    let number = |i| std::env::args().nth(i).map(|s| s.parse::<u64>().expect("a number"));
    let (seconds, seed) = (number(1).unwrap_or(30), number(2).unwrap_or(1));
    let mut total = Tally::default();
    for machine in 0..2 {
        for paging in [0x00, 0x0B].into_iter().take(machine as usize + 1) {
            for kind in timed_kinds() {
                total.add(every_clock(machine, paging, kind));
            }
        }
        total.add(every_length(machine));
    }
    println!("at every clock and of every length: {total}");
    let numbers = every_number();
    println!("every number: {numbers}");
    total.add(numbers);
    let starts = every_start();
    println!("every start: {starts}");
    total.add(starts);
    let imports = every_import();
    println!("every import: {imports}");
    total.add(imports);
    let (began, mut histories, mut random) = (Instant::now(), 0, Tally::default());
    let (mut imported, mut coloured) = (0, 0);
    while began.elapsed() < Duration::from_secs(seconds) {
        let (start, tally) = history((seed << 32) + histories, 4096);
        random.add(tally);
        histories += 1;
        match Import::of(start) {
            Some(_) => imported += 1,
            None => coloured += (start.y != WHITE as u16) as u64,
        }
    }
    println!(
        "{histories} random histories, {imported} from a snapshot, {coloured} from another colour than white: {random}"
    );
    total.add(random);
    println!("no difference in {total}");
}
