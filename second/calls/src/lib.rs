//! Compares the interface for C with the second program.
//!
//! `memory` is everything that a call may be lent, `kind` names the calls, `scene` fills the memory with what a call accepts, `damage`
//! spoils it, `layout_text` spoils layout texts, `expected` makes the second program's call, `comparison` holds another side's call
//! against it and counts, `compaction` says what has to hold and to come up of compactions, and `plan` goes through all inputs. The binary
//! has the other side: the archive; `bin/times` times the archive's cut list, preview and compaction, and `bin/stack` tells how much stack
//! each call takes.

pub mod compaction;
pub mod comparison;
pub mod damage;
pub mod expected;
pub mod guarded;
pub mod kind;
pub mod layout_text;
pub mod memory;
pub mod plan;
pub mod scene;
