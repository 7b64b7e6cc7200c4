//! The exception to document 01 at an install: the reply to a client's last log entry isn't forgotten where that entry is committed.

use std::collections::HashSet;

/// The client of an entry of 32 bytes.
fn client(entry: &[u8]) -> [u8; 8] {
    *entry.first_chunk().expect("an entry")
}

/// The clients of entries of 32 bytes each.
fn clients(entries: &[u8]) -> HashSet<[u8; 8]> {
    entries.chunks_exact(32).map(client).collect()
}

/// Whether by document 01 a reply would have been forgotten where this log took the place of that before it, of which the first
/// `commit` bytes were committed: a client has an entry among these, a later one was dropped, and the new log has no later one.
pub fn would_forget(before: &[u8], commit: usize, log: &[u8]) -> bool {
    let (Some(open), Some(later)) = (before.get(commit..), log.get(commit..)) else {
        return false;
    };
    let mut dropped = clients(open);
    for client in clients(later) {
        dropped.remove(&client);
    }
    !dropped.is_empty() && !dropped.is_disjoint(&clients(&before[..commit]))
}

#[cfg(test)]
mod tests {
    use super::would_forget;

    /// A log, an entry for each client.
    fn log(clients: &[u8]) -> Vec<u8> {
        clients.iter().flat_map(|client| [*client; 32]).collect()
    }

    #[test]
    fn a_later_entry_is_dropped() {
        for (before, committed, after, forgets) in [
            (&[1, 2, 1][..], 2, &[1, 2][..], true),
            (&[1, 2, 1], 2, &[1, 2, 3], true),
            (&[1, 2, 1], 2, &[1, 2, 3, 1], false),
            (&[1, 2, 3], 2, &[1, 2], false),
            (&[1, 2, 1], 3, &[1, 2, 1], false),
            (&[1, 1], 0, &[], false),
            (&[1, 2, 3, 2], 2, &[1, 2, 3], true),
            (&[1, 2, 1], 2, &[1], false),
        ] {
            let met = would_forget(&log(before), 32 * committed, &log(after));
            assert_eq!(met, forgets, "{before:?}, {committed}, {after:?}");
        }
    }
}
