//! Ours: the traits by which the original reaches its host.
use crate::zx::video::colors::{ZXBrightness, ZXColor};

#[derive(Clone, Copy, PartialEq, Eq)]
pub enum FrameBufferSource {
    Screen,
    Border,
}

pub trait FrameBuffer {
    type Context: Clone;
    fn new(width: usize, height: usize, source: FrameBufferSource, context: Self::Context) -> Self;
    fn set_color(&mut self, x: usize, y: usize, color: ZXColor, brightness: ZXBrightness);
}

pub trait IoExtender {
    fn extends_port(&self, port: u16) -> bool;
    fn write(&mut self, port: u16, data: u8);
    fn read(&mut self, port: u16) -> u8;
}

pub trait DebugInterface {
    fn check_pc_breakpoint(&mut self, addr: u16) -> bool;
}

pub trait Host {
    type Context: HostContext<Self>;
    type TapeAsset;
    type FrameBuffer: FrameBuffer;
    type IoExtender: IoExtender;
    type DebugInterface: DebugInterface;
}

pub trait HostContext<H: Host + ?Sized> {
    fn frame_buffer_context(&self) -> <<H as Host>::FrameBuffer as FrameBuffer>::Context;
}
