//! Ours: the mouse; it holds the three bytes that its ports answer.
pub mod kempston {
    #[derive(Default)]
    pub struct KempstonMouse {
        pub buttons_port: u8,
        pub x_pos_port: u8,
        pub y_pos_port: u8,
    }

    pub enum KempstonMouseButton {
        Left,
    }

    pub enum KempstonMouseWheelDirection {
        Up,
    }

    impl KempstonMouse {
        pub fn send_button(&mut self, _: KempstonMouseButton, _: bool) {}
        pub fn send_wheel(&mut self, _: KempstonMouseWheelDirection) {}
        pub fn send_pos_diff(&mut self, _: i8, _: i8) {}
    }
}
