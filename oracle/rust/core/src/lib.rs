//! Ours: the crate around nine original files of rustzx-core, which the setup puts beside these:
//! utils/screen.rs; zx/constants.rs, controller.rs, memory.rs; zx/machine/mod.rs, specs.rs;
//! zx/video/border.rs, colors.rs, screen.rs. Every other file here is ours and stands for what is left behind;
//! `door` is the way in to the controller, which is private to its crate.
#![allow(dead_code, unused_imports, unexpected_cfgs)]
extern crate alloc;
pub mod door;
pub mod error;
pub mod host;
pub mod settings;
pub mod utils;
pub mod zx;
