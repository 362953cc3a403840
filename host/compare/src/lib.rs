//! What the comparison tests share. The proved codec and the second implementation answer behind one trait,
//! [`Boundary`](boundary::Boundary), in the numbers of include/svsc.h; [`agree`] makes the same call of both and names
//! the first difference. [`frames`] has the same for messages on a stream and include/svsc_frames.h, [`relay`] for the
//! relay and include/crondelith.h, [`reasons`] for the functions there that explain a call.

pub mod agree;
pub mod amount;
pub mod boundary;
pub mod difference;
pub mod forms;
pub mod frames;
pub mod guarded;
pub mod random;
pub mod reasons;
pub mod relay;
pub mod tally;
