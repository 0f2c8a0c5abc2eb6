//! Runs beside tower: their text, how they are made up, and how tower answers them.

pub mod drive;
pub mod generate;
pub mod kinds;
pub mod random;
pub mod run;
