//! What the verified library is measured against.

pub mod careful;
