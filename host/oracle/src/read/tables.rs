//! Tables, by the part of a font they belong to.

pub mod gpos;
pub mod layout;
