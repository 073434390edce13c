//! The boards: simulated in the gateway, or whoever connects to a drive's socket.

pub mod simulated;
pub mod socket;
