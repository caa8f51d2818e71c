//! Ours: joysticks; the Kempston one holds the byte that it answers.
pub mod kempston {
    #[derive(Default)]
    pub struct KempstonJoy {
        pub byte: u8,
    }

    impl KempstonJoy {
        pub fn read(&self) -> u8 {
            self.byte
        }
    }
}

pub mod sinclair {
    use crate::zx::keys::ZXKey;

    pub enum SinclairJoyNum {
        First,
    }

    pub enum SinclairKey {
        Fire,
    }

    pub fn sinclair_event_to_zx_key(_: SinclairKey, _: SinclairJoyNum) -> ZXKey {
        ZXKey::Shift
    }
}
