//! The original crate, as far as its files are given: its modules are compiled from the documents' texts as they are, and the names that
//! those texts expect at the crate's root stand here.
include!(concat!(env!("OUT_DIR"), "/modules.rs"));

pub use error::WireError;
pub use frame::FrameKind;

/// The checksum of blocks, whose file is not given. Blocks are out of scope and nothing here reads one.
mod crc {
    pub fn start() -> u32 {
        unreachable!("blocks are not compared")
    }

    pub fn update(_: u32, _: &[u8]) -> u32 {
        unreachable!("blocks are not compared")
    }

    pub fn finish(_: u32) -> u32 {
        unreachable!("blocks are not compared")
    }
}
