//! Ours: the module list.
pub mod border;
pub mod colors;
pub mod screen;
