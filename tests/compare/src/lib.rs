//! Document 01 twice: the proved functions of `crates/capi` held against a model that was written apart from
//! them, over random cases.

pub mod cases;
pub mod model;
pub mod proved;
pub mod side;
