//! Ours: the settings that the controller reads.
use crate::zx::machine::ZXMachine;

#[derive(Clone, Copy)]
pub enum ZXAYMode {
    Mono,
}

pub struct RustzxSettings {
    pub machine: ZXMachine,
    pub kempston_enabled: bool,
    pub mouse_enabled: bool,
    pub beeper_enabled: bool,
    pub ay_enabled: bool,
    pub ay_mode: ZXAYMode,
    pub sound_sample_rate: usize,
    pub sound_volume: u8,
    pub load_default_rom: bool,
}
