//! A host for ROC Plus devices: requests sent over TCP or a serial device,
//! replies shown by the manual's names.

pub mod examples;
mod failure;
mod host;
pub mod layout;
mod line;
pub mod request;
pub mod value;
pub mod words;

pub use failure::Failure;
pub use host::{Host, Response};
pub use line::Line;
