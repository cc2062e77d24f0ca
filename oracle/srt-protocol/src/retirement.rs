//! Stand-in for `srt_group/retirement.rs`, which is not among the published files.
//!
//! `srt_group/mod.rs` takes one name from it, the cursor that tears a dropped group down step by step. No call
//! of `SrtGroup` that document 01 asks for uses it. Document 01's retirement of held packets ("Removal") is
//! `bound_group_owned_pending` in `srt_group/mod.rs` itself.

pub struct GroupRetirement;
