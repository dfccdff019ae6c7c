//! The update port of a rack controller, both ends, written from the paper a second time in plain Rust.
//!
//! It shares nothing with the proved program but the paper, and is there to be compared with it. The calls in
//! [`port`] have the parameters of the C header, so that answers, records and every lent byte can be compared.

pub mod base64;
pub mod cbor;
pub mod collector;
pub mod controller;
pub mod crc;
pub mod host;
pub mod images;
pub mod packet;
pub mod port;
pub mod reader;
pub mod recording;
pub mod refusal;
pub mod replay;
pub mod sender;
pub mod slot;
