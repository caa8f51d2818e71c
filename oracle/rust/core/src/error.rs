//! Ours: no stub here fails.
#[derive(Debug)]
pub struct Error;
