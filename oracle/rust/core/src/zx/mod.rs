//! Ours: the module list.
pub mod constants;
pub(crate) mod controller;
pub mod events;
pub mod joy;
pub mod keys;
pub mod machine;
pub mod memory;
pub mod mouse;
pub mod sound;
pub mod tape;
pub mod video;
