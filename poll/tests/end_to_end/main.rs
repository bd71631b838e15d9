//! The gateway as its own process, polled over TCP and a pseudo-terminal; what
//! it answers is held to the reference.
//!
//! The program is build/firmware/tyurkanim-sanitized, or what TYURKANIM names;
//! tools/test-gateway builds it and runs this.

mod clients;
mod floods;
mod framing;
mod gateway;
mod libc;
mod load;
mod opcodes;
mod pair;
mod poller;
mod program;
mod random;
mod refusals;
mod serial;
mod silence;
mod unit;
