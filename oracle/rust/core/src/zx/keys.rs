//! Ours: key tables are left behind; rows reach the controller as bytes.
#[derive(Clone, Copy)]
pub enum ZXKey {
    Shift,
    Other,
}

impl ZXKey {
    pub fn row_id(self) -> usize {
        0
    }
    pub fn mask(self) -> u8 {
        1
    }
}

#[derive(Clone, Copy)]
pub struct CompoundKey;

impl CompoundKey {
    pub fn modifier_key(self) -> ZXKey {
        ZXKey::Shift
    }
    pub fn primary_key(self) -> ZXKey {
        ZXKey::Shift
    }
    pub fn modifier_mask(self) -> u32 {
        1
    }
}
