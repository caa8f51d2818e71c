//! Scripts of calls, and the original's side of them.
pub mod random;
pub mod script;
pub mod ay {
    use core_ay as core_x;
    include!("rust_side.rs");
}
pub mod noay {
    use core_noay as core_x;
    include!("rust_side.rs");
}
use script::{Answer, Import, Record};

/// A sound state that no history from a start need reach, and the clocks by which the original is brought there.
#[derive(Clone, Copy, Debug)]
pub struct State {
    pub clock: usize,
    pub painted: usize,
    pub painted_at: Option<usize>,
    pub reported: u8,
    pub beam: u8,
    pub blocked: bool,
    pub pairs: usize,
    pub beam_at: usize,
}

/// A machine that plays records, and what is seen of it.
pub trait Side {
    fn play(&mut self, r: Record) -> Answer;
    fn clock(&self) -> usize;
    fn ram(&self) -> Vec<u8>;
    /// The first of pictures, border and RAM that differs from the given bytes.
    fn differs(&self, ram: &[u8], planes: [&[u8]; 3]) -> Option<&'static str>;
    fn set_clock(&mut self, clock: usize);
    /// Closes the frame and goes to a state of the next one.
    fn put(&mut self, s: &State);
    fn pictures(&self) -> [Vec<u8>; 3];
}

/// A fresh machine of the original by the record of its start, from the build with or without the AY.
pub fn start(r: Record) -> Box<dyn Side> {
    if let Some(import) = Import::of(r) {
        return match import.ay {
            0 => Box::new(noay::RustSide::imported(&import)),
            _ => Box::new(ay::RustSide::imported(&import)),
        };
    }
    let (machine, colour) = (r.z as u8, u8::try_from(r.y).expect("a colour"));
    match r.x {
        0 => Box::new(noay::RustSide::new(machine, colour)),
        _ => Box::new(ay::RustSide::new(machine, colour)),
    }
}

thread_local! { static QUIET: std::cell::Cell<bool> = const { std::cell::Cell::new(false) }; }

/// What `f` answers, or nothing where it panics, and then nothing is said of it.
pub fn quietly<T>(f: impl FnOnce() -> T) -> Option<T> {
    QUIET.set(true);
    let answer = std::panic::catch_unwind(std::panic::AssertUnwindSafe(f)).ok();
    QUIET.set(false);
    answer
}

/// To be called once, before any `quietly`.
pub fn keep_quiet() {
    let said = std::panic::take_hook();
    std::panic::set_hook(Box::new(move |p| {
        if !QUIET.get() {
            said(p)
        }
    }));
}
