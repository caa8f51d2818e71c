//! Ours: the module list.
pub mod screen;
