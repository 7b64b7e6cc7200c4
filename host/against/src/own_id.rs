//! The exception to document 01: a replica's own id never joins the set of those who sent StartViewChange.

use schedules::rust::{Call, Setup};
use vsr_rs::Message;

/// Whether by document 01 this call would have put the own id into the set: given to a replica in this status (FORMAT.md's number)
/// and view.
pub fn would_join(setup: Setup, status: usize, view: usize, call: &Call) -> bool {
    let Call::Frame { message, .. } = call else {
        return false;
    };
    let Message::StartViewChange {
        view_number,
        replica_id,
    } = message
    else {
        return false;
    };
    let joins = match status {
        3 => false,
        2 => *view_number >= view,
        _ => *view_number > view,
    };
    joins && *replica_id == setup.id && call.refused_alone(setup) == 0
}
