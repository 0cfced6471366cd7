//! libgateway.a behind safe functions, as include/windrow_gateway.h declares it; its states beside the model's, and archive memory
//! for them; frames, runs of live points and live tables for a poll.

pub mod ffi;
pub mod frames;
pub mod live;
pub mod memories;
pub mod rows;
pub mod states;
pub mod tables;
