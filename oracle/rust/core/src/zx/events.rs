//! Ours: events are left behind; these are collected and never looked at.
#[derive(Default)]
pub struct EmulationEvents(u8);

impl EmulationEvents {
    pub const TAPE_FAST_LOAD_TRIGGER_DETECTED: Self = Self(1);
    pub const PC_BREAKPOINT: Self = Self(2);

    pub fn take(&mut self) -> Self {
        core::mem::take(self)
    }
}

impl core::ops::BitOrAssign for EmulationEvents {
    fn bitor_assign(&mut self, other: Self) {
        self.0 |= other.0;
    }
}
