//! Ours: the tape. It holds the bit that it answers, adds up the clocks that pass (these are the clocks that a call is
//! reported to take), and keeps the sum at which the bit was last taken.
use crate::error::Error;
use core::{cell::Cell, marker::PhantomData};

pub trait TapeImpl {
    fn process_clocks(&mut self, clocks: usize) -> Result<(), Error>;
    fn current_bit(&self) -> bool;
}

pub struct ZXTape<A> {
    pub bit: bool,
    pub clocks: u64,
    pub taken_at: Cell<u64>,
    asset: PhantomData<A>,
}

impl<A> Default for ZXTape<A> {
    fn default() -> Self {
        Self { bit: false, clocks: 0, taken_at: Cell::new(0), asset: PhantomData }
    }
}

impl<A> TapeImpl for ZXTape<A> {
    fn process_clocks(&mut self, clocks: usize) -> Result<(), Error> {
        self.clocks += clocks as u64;
        Ok(())
    }

    fn current_bit(&self) -> bool {
        self.taken_at.set(self.clocks);
        self.bit
    }
}
