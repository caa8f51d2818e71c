//! bench [ROUNDS]: the Rust original and our library timed side by side in one run, on the machine at hand. Each line is
//! one round of one work: its name, and the nanoseconds of one call (or one frame) at the original and at ours, with tabs
//! between them; bench/report makes a table of them. The two go in turns, so that a slow moment of the machine falls on both.
use compare::{c, Ours};
use core_ay::door::Plain;
use play::random::{BLOCK, LINE};
use play::script::{filling, start, FRAME, WHITE};
use std::hint::black_box;
use ulb_machine::{Kind, Machine};

const MACHINE: u8 = 1;

#[repr(C)]
struct Time {
    seconds: i64,
    nanoseconds: i64,
}

extern "C" {
    fn clock_gettime(clock: i32, time: *mut Time) -> i32;
}

/// Nanoseconds that this thread has run (Linux): other programs on the machine do not count.
fn now() -> f64 {
    const THREAD_CPU_TIME: i32 = 3;
    let mut t = Time { seconds: 0, nanoseconds: 0 };
    assert_eq!(0, unsafe { clock_gettime(THREAD_CPU_TIME, &mut t) });
    t.seconds as f64 * 1e9 + t.nanoseconds as f64
}

fn rust() -> Plain {
    let mut m = Plain::new(MACHINE);
    for page in 0..8 {
        m.load_page(page, &filling(page as u32, 16_384));
    }
    m.set_devices(&play::script::devices(1));
    m
}

fn ours() -> Ours {
    let mut m = Ours::new(start(MACHINE, 1, WHITE));
    for page in 0..8 {
        assert_eq!(0, c::load_page(&m.state, &mut m.ram, &filling(page, 16_384), page));
    }
    m
}

/// The same machine in the wrapper that a firmware uses, which reads bytes without a call.
fn wrapped() -> Box<Machine> {
    let mut m = Machine::boxed();
    m.start_colour(Kind::Spectrum128, &filling(99, 32_768), WHITE as u32).unwrap();
    for page in 0..8 {
        m.load_page(&filling(page, 16_384), page).unwrap();
    }
    m
}

fn wait_internal(m: &mut Ours, n: u32) -> u8 {
    let mut t = [0; 10];
    c::wait_internal(&mut m.state, &m.ram, &mut m.a, &mut m.b, &mut m.border, n, &mut t);
    t[4]
}

fn wait_mreq(m: &mut Ours, n: u32) -> u8 {
    let mut t = [0; 10];
    c::wait_mreq(&mut m.state, &m.ram, &mut m.a, &mut m.b, &mut m.border, 0x4000, n, &mut t);
    t[4]
}

fn wait_no_mreq(m: &mut Ours, n: u32) -> u8 {
    let mut t = [0; 10];
    c::wait_no_mreq(&mut m.state, &m.ram, &mut m.a, &mut m.b, &mut m.border, 0x4000, n, &mut t);
    t[4]
}

fn read_io(m: &mut Ours, port: u32) -> u8 {
    let mut t = [0; 10];
    c::read_io(&mut m.state, &m.devices, &m.ram, &mut m.a, &mut m.b, &mut m.border, port as u16, &mut t);
    t[1]
}

fn write_io(m: &mut Ours, port: u32) -> u8 {
    let mut t = [0; 10];
    c::write_io(&mut m.state, &m.devices, &m.ram, &mut m.a, &mut m.b, &mut m.border, port as u16, 2, &mut t);
    t[1]
}

fn read_internal(m: &mut Ours, addr: u32) -> u8 {
    let mut t = [0; 5];
    c::read_internal(&m.state, &m.rom, &m.ram, addr as u16, &mut t);
    t[1]
}

fn write_internal(m: &mut Ours, addr: u32) -> u8 {
    c::write_internal(&m.state, &mut m.ram, addr as u16, 3)
}

fn keep(answer: u8) {
    black_box(answer);
}

/// Nanoseconds of one of `times` calls.
fn per_call(times: u32, mut call: impl FnMut(u32)) -> f64 {
    let began = now();
    for i in 0..times {
        call(i)
    }
    (now() - began) / times as f64
}

/// Nanoseconds of a frame that `frame` runs from a clock on, at the original and at ours; the way to that clock is not timed.
fn per_frame(
    from: usize,
    r: &mut Plain,
    o: &mut Ours,
    rust: impl Fn(&mut Plain),
    ours: impl Fn(&mut Ours),
) -> (f64, f64) {
    let frame = FRAME[MACHINE as usize];
    let left = (frame - r.frame_clocks()) % frame;
    for n in [left.min(50_000), left - left.min(50_000), from] {
        r.wait_internal(n);
        wait_internal(o, n as u32);
    }
    assert!(r.frame_clocks() == from && o.clock() as usize == from);
    let began = now();
    rust(r);
    let middle = now();
    ours(o);
    let ended = now();
    assert_eq!(r.frame_clocks(), o.clock() as usize);
    (middle - began, ended - middle)
}

/// Contended waits of 4 clocks until the frame closes.
fn rust_frame(m: &mut Plain) {
    let frames = m.frames_count();
    while m.frames_count() == frames {
        m.wait_mreq(0x4000, 4)
    }
}

fn our_frame(m: &mut Ours) {
    let mut t = [0; 10];
    while t[2] == 0 {
        c::wait_mreq(&mut m.state, &m.ram, &mut m.a, &mut m.b, &mut m.border, 0x4000, 4, &mut t);
    }
}

fn report(name: &str, (rust, ours): (f64, f64)) {
    println!("{name}\t{rust:.3}\t{ours:.3}");
}

/// Rounds of 20,000 calls each, of the original and of ours on a machine `o`.
fn calls_on<M>(
    name: &str,
    rounds: usize,
    rust_call: impl Fn(&mut Plain, u32),
    mut o: M,
    our_call: impl Fn(&mut M, u32) -> u8,
    argument: impl Fn(u32) -> u32,
) {
    let mut r = rust();
    for _ in 0..rounds {
        let rust = per_call(20_000, |i| rust_call(&mut r, black_box(argument(i))));
        let ours = per_call(20_000, |i| keep(our_call(&mut o, black_box(argument(i)))));
        report(name, (rust, ours))
    }
}

fn calls(
    name: &str,
    rounds: usize,
    rust_call: impl Fn(&mut Plain, u32),
    our_call: impl Fn(&mut Ours, u32) -> u8,
    argument: impl Fn(u32) -> u32,
) {
    calls_on(name, rounds, rust_call, ours(), our_call, argument)
}

fn main() {
    let rounds = std::env::args().nth(1).map_or(9, |s| s.parse().expect("a number"));
    calls("plain wait, 4 clocks", rounds, |m, n| m.wait_internal(n as usize), wait_internal, |_| 4);
    calls("plain wait, 0 clocks", rounds, |m, n| m.wait_internal(n as usize), wait_internal, |_| 0);
    calls("contended wait, 4 clocks", rounds, |m, n| m.wait_mreq(0x4000, n as usize), wait_mreq, |_| 4);
    calls(
        "contended wait without request, 1 clock",
        rounds,
        |m, n| m.wait_no_mreq(0x4000, n as usize),
        wait_no_mreq,
        |_| 1,
    );
    let read = |m: &mut Plain, p: u32| keep(m.read_io(p as u16));
    calls("port read, keys", rounds, read, read_io, |i| 0xFE | i << 8);
    calls("port read, floating bus", rounds, read, read_io, |_| 0x40FF);
    let write = |m: &mut Plain, p: u32| m.write_io(p as u16, 2);
    calls("port write, border", rounds, write, write_io, |_| 0xFE);
    calls("port write, 7FFD", rounds, write, write_io, |_| 0x7FFD);
    let peek = |m: &mut Plain, a: u32| keep(m.read_internal(a as u16));
    calls("byte read", rounds, peek, read_internal, |i| i);
    calls_on("byte read through the map", rounds, peek, wrapped(), |m, a| m.byte(a as u16), |i| i);
    calls("byte write", rounds, |m, a| m.write_internal(a as u16, 3), write_internal, |i| 0x4000 + i % 0x1B00);

    let frames = |name: &str, from: usize, run: &dyn Fn(&mut Plain), run_ours: &dyn Fn(&mut Ours)| {
        let (mut r, mut o) = (rust(), ours());
        for _ in 0..rounds {
            report(name, per_frame(from, &mut r, &mut o, run, run_ours))
        }
    };
    let block = BLOCK[MACHINE as usize];
    frames("a frame of contended waits of 4 clocks", 0, &rust_frame, &our_frame);
    frames("a picture painted in one step", block - 1, &|m| m.wait_internal(50_000), &|m| {
        keep(wait_internal(m, 50_000))
    });
    let steps = 192 * LINE[MACHINE as usize] / 4;
    frames("a picture painted a block a step", block - 1, &|m| (0..steps).for_each(|_| m.wait_internal(4)), &|m| {
        (0..steps).for_each(|_| keep(wait_internal(m, 4)))
    });
}
