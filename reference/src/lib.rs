//! The gateway of the rules: frames in, replies out, over one store and one
//! clock. The public calls take plain numbers and byte buffers and end with an
//! outcome number of the rules for every input.

pub mod clock;
pub mod crc;
mod draft;
mod fill;
pub mod frame;
mod number;
mod opcodes;
pub mod outcome;
pub mod points;
mod request;
pub mod store;
mod system;
mod value;

pub use clock::tick;
pub use fill::fill;
pub use number::{number_read, Number};
pub use outcome::Outcome;
pub use request::request;
pub use system::system_write;
