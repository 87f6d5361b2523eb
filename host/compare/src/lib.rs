//! The parts of the comparison: sections, what the Rust answers on them, and whether the proved calls agree.
pub mod agree;
pub mod cuts;
pub mod fill;
pub mod layout;
pub mod lists;
pub mod materials;
pub mod oracle;
pub mod players;
pub mod poses;
pub mod replay;
pub mod rng;
pub mod sections;
pub mod writes;
