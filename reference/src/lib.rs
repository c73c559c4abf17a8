//! An independent second coder and decoder for the DVB-S chain, written from
//! EN 300 421 (as ITU-R BO.1211, annex 1) and the project's documents 01 and 02. It shares
//! no code with the project and favours the shapes of the standard's figures
//! (shift registers, queues, bit by bit) over speed.

// build.rs sets the cfgs `exports_linked`, `bridge_linked` and `kernels_linked`. Newer compilers want to be told of it, and older ones do not know the lint.
#![allow(unknown_lints, unexpected_cfgs)]

pub mod acquisition;
pub mod answer;
pub mod bridge;
pub mod channel;
pub mod exports;
pub mod erasures;
pub mod guarded;
pub mod inner_code;
pub mod inner_decoder;
pub mod interleaver;
pub mod kernels;
pub mod lock_state;
pub mod losses;
pub mod numbered;
pub mod randomizer;
pub mod reader_state;
pub mod receiver;
pub mod receiver_state;
pub mod recording;
pub mod reed_solomon;
pub mod report;
pub mod runs;
pub mod samples;
pub mod season;
pub mod sender;
pub mod sender_state;
pub mod states;
pub mod xorshift;

/// Length of a transport packet (4.4.1).
pub const PACKET_LENGTH: usize = 188;
/// Length of an error protected packet (4.4.2).
pub const BLOCK_LENGTH: usize = 204;
/// Packets from one loading of the randomizer to the next (4.4.1).
pub const GROUP_LENGTH: usize = 8;
/// MPEG-2 sync byte, and the same inverted (4.4.1).
pub const SYNC: u8 = 0x47;
pub const INVERTED_SYNC: u8 = 0xB8;
/// The MPEG-2 null packet: PID 1FFF, payload only, stuffing bytes FF. It is sent
/// where there is no packet, since randomizing stays active then (4.4.1).
pub const NULL_PACKET: [u8; PACKET_LENGTH] = {
    let mut packet = [0xFF; PACKET_LENGTH];
    packet[0] = SYNC;
    packet[1] = 0x1F;
    packet[2] = 0xFF;
    packet[3] = 0x10;
    packet
};
