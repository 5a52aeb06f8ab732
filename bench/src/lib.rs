//! What the drivers share: the texts, the recordings, the buffers to lend, the timing, and calls that the original has not.
pub mod inputs;
pub mod ours;
pub mod recordings;
pub mod room;
pub mod timing;
