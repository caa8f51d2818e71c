//! Ours: sound. The AY holds the byte that it answers; AY and beeper count what reaches them.
pub mod mixer {
    use crate::settings::ZXAYMode;

    #[derive(Default)]
    pub struct Ay {
        pub byte: u8,
        pub selects: u32,
        pub writes: u32,
    }

    impl Ay {
        pub fn read(&mut self) -> u8 {
            self.byte
        }
        pub fn write(&mut self, _: u8) {
            self.writes += 1;
        }
        pub fn select_reg(&mut self, _: u8) {
            self.selects += 1;
        }
    }

    #[derive(Default)]
    pub struct Beeper {
        pub changes: u32,
    }

    impl Beeper {
        pub fn change_state(&mut self, _ear: bool, _mic: bool) {
            self.changes += 1;
        }
    }

    #[derive(Default)]
    pub struct ZXMixer {
        pub ay: Ay,
        pub beeper: Beeper,
    }

    impl ZXMixer {
        pub fn new(
            _beeper: bool,
            #[cfg(feature = "ay")] _ay: bool,
            #[cfg(feature = "ay")] _mode: ZXAYMode,
            _rate: usize,
        ) -> Self {
            Self::default()
        }
        pub fn volume(&mut self, _: f64) {}
        pub fn process(&mut self, _: f64) {}
        pub fn new_frame(&mut self) {}
    }
}
