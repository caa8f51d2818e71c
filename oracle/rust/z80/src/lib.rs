//! Ours: the crate around the original bus.rs. It names what that file takes from its neighbours.
mod bus;
mod opcode {
    pub struct Opcode;
    pub struct Prefix;
}
pub use bus::Z80Bus;

pub trait CodegenMemorySpace {
    fn write_byte(&mut self, addr: u16, byte: u8);
}
