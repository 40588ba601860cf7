//! A model of the machine, written from the rules alone: sets of entries for each page, in each
//! context and for all contexts, a walk by address, the sheet of permissions, a list reader, a report,
//! images as lines, and beside them a plain machine and a chip with a TLB of n places.
pub mod chip;
pub mod generate;
pub mod generate_lines;
pub mod generate_stores;
pub mod lines;
pub mod list;
pub mod machine;
pub mod permission;
pub mod random;
pub mod walk;
