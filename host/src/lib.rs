//! The fjord session wire for Rust: a safe wrapper over its proved static library.
//!
//! The library decodes and encodes the wire's messages in memory that the caller lends, and never leaves a byte of an earlier message
//! behind a later one. What this crate adds is types: slices in, enums with borrowed texts out.
//!
//! ```
//! use fjord_gateway::{KindTable, Memory, Message, Receiver};
//!
//! // a client that reads what a server sends, in pieces as the network cut them
//! let mut hold = vec![0; 4096];
//! let mut memory = Memory::new(4096, 1024, 1024);
//! let mut receiver = Receiver::open(&KindTable::from_server(), &mut hold);
//! let run = [b"E\x05\0\0\0\x09\0\0\0\x08\x07Insu".as_slice(), b"lin"];
//! let mut seen = Vec::new();
//! for mut piece in run {
//!     while let Some(frame) = receiver.next(&mut piece, memory.lend())? {
//!         if let Ok(Message::Error { text, .. }) = frame.message {
//!             seen.push(text.to_string());
//!         }
//!     }
//! }
//! assert_eq!(seen, ["Insulin"]);
//! # Ok::<(), fjord_gateway::Refusal>(())
//! ```
#![warn(missing_docs)]

mod decode;
mod desc;
mod encode;
pub mod ffi;
mod frame;
mod memory;
mod message;
mod receiver;
mod refusal;
mod tables;

pub use decode::{decode, decode_desc};
pub use desc::{Alternative, Desc, DescKind, Field};
pub use encode::{Draft, PredicateShape, Shape};
pub use frame::{decode_frame, decode_header, encode_frame, put_slot, FrameHeader};
pub use memory::{Lent, Memory};
pub use message::{
    Claim, Claims, ControlOp, ControlReply, ErrorCode, FactId, Message, MessageKind, Mode, Predicate, Step, Steps,
    Types,
};
pub use receiver::{Frame, Receiver};
pub use refusal::Refusal;
pub use tables::KindTable;
