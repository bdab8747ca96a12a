//! A second implementation of the 21X4 serial ROM format, written from the published documents
//! alone. The library is compared with it.
//!
//! What the two share is the shape of arguments and answers: the `#[repr(C)]` types are laid out as
//! include/srom.h has them, which tests/library/tests/c.rs holds them to, and so the library's calls
//! take and answer these very types. Nothing else is shared.

pub mod calls;
pub mod cases;
pub mod crc;
pub mod edition;
pub mod forms;
pub mod images;
pub mod layout;
pub mod magic;
pub mod random;
pub mod reader;
pub mod sheet;
pub mod sheets;
pub mod specification;
pub mod walk;
