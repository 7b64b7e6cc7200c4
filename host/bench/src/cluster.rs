//! So many replicas of a side, and how they play a round of a case.

use crate::cases::{broken_log, log, malformed_log, Case};
use crate::sides::{setup, Side, Standing};
use crate::stopwatch::took;
use std::hint::black_box;
use std::time::Duration;
use vsr_rs::{LogEntry, Message};
use whitherhaul::Refusal;
use wire::fees::Charge;
use wire::frames::{frame, request, write_frame};

/// One round of a case: what each of its pieces took, how many calls of the case a piece has, and how the replicas stand after
/// it. Pieces are short, so that of the rounds of a busy machine most have a given piece undisturbed.
pub struct Round {
    pub pieces: Vec<Duration>,
    pub calls: u32,
    pub standings: Vec<Standing>,
}

/// So many replicas of a side and what is under way.
pub struct Cluster<S: Side> {
    replicas: Vec<S::Replica>,
    wire: S::Wire,
    next: S::Wire,
}

impl<S: Side> Cluster<S> {
    /// So many replicas, three to seven. Requests are played by any number of them, the other cases by three.
    pub fn new(replicas: u8) -> Cluster<S> {
        let replica = |id| S::new(&setup(replicas, id));
        Cluster {
            replicas: (0..replicas).map(replica).collect(),
            wire: S::Wire::default(),
            next: S::Wire::default(),
        }
    }

    /// One round of a case; none where this side doesn't have it.
    pub fn round(&mut self, case: Case) -> Option<Round> {
        let (calls, pieces) = match case {
            Case::Request { clients, later } => (20, self.requests(clients, later)),
            Case::Tick { uncommitted } => self.ticks(uncommitted),
            Case::Heartbeat => (100, self.heartbeats()),
            Case::StartView { entries, clients } => (1, self.start_views(entries, clients)),
            Case::Refused { entries, clients } => (1, self.not_rising(entries, clients)?),
            Case::Malformed { entries } => (1, self.malformed(entries)?),
            Case::Quorum { entries } => (1, self.quorums(entries)),
            Case::Recovery { entries } => (1, self.recoveries(entries)),
            Case::Takings => (100, self.takings()),
        };
        let standings = self.replicas.iter().map(S::standing).collect();
        Some(Round {
            pieces,
            calls,
            standings,
        })
    }

    fn renew(&mut self) {
        let replicas = self.replicas.len() as u8;
        for (id, replica) in (0..).zip(&mut self.replicas) {
            S::renew(replica, &setup(replicas, id));
        }
    }

    /// Delivers what is on the wire, and what comes of it, until nothing is under way.
    fn settle(&mut self) {
        while S::count(&self.wire).0 > 0 {
            self.pass();
        }
    }

    /// Delivers what is on the wire, once.
    fn pass(&mut self) {
        S::pass(&mut self.replicas, &mut self.wire, &mut self.next);
        std::mem::swap(&mut self.wire, &mut self.next);
    }

    /// Fills the replicas with these entries by requests that are committed.
    fn commit(&mut self, log: &[LogEntry<Charge>]) {
        for entry in log {
            S::load(&mut self.wire, &request_frame(entry));
            self.settle();
        }
    }

    /// 2,000 requests, each through all replicas, in pieces of 20.
    fn requests(&mut self, clients: usize, later: bool) -> Vec<Duration> {
        self.renew();
        let before = match later {
            true => clients,
            false => 0,
        };
        let log = log(before + 2_000, clients);
        self.commit(&log[..before]);
        let load = |entry| {
            let mut wire = S::Wire::default();
            S::load(&mut wire, &request_frame(entry));
            wire
        };
        let mut wires: Vec<S::Wire> = log[before..].iter().map(load).collect();
        let pieces = wires.chunks_mut(20).map(|piece| {
            took(false, || {
                for request in piece {
                    S::pass(&mut self.replicas, request, &mut self.wire);
                    self.pass();
                    self.pass();
                }
            })
        });
        let pieces = pieces.collect();
        assert_eq!(S::count(&self.wire), (0, 1));
        pieces
    }

    /// Ticks of a primary with 16 committed entries and some uncommitted ones.
    fn ticks(&mut self, uncommitted: usize) -> (u32, Vec<Duration>) {
        self.renew();
        let log = log(16 + uncommitted, 16);
        self.commit(&log[..16]);
        for entry in &log[16..] {
            S::load(&mut self.wire, &request_frame(entry));
            self.pass();
        }
        let calls = match uncommitted {
            0 => 200,
            _ => 10,
        };
        let pieces = timed(20, || {
            for _ in 0..calls {
                S::tick(&mut self.replicas[0], &mut self.next);
            }
        });
        assert_eq!(S::count(&self.next), (2 + 2 * uncommitted, 0));
        (calls, pieces)
    }

    /// Ticks of the primary, delivered to both backups.
    fn heartbeats(&mut self) -> Vec<Duration> {
        self.renew();
        self.commit(&log(16, 16));
        let pieces = timed(20, || {
            for _ in 0..100 {
                S::tick(&mut self.replicas[0], &mut self.wire);
                self.pass();
            }
        });
        assert_eq!(S::count(&self.wire), (0, 0));
        pieces
    }

    /// Starts each time with fresh replicas and these frames on the wire; only the delivery is timed.
    fn deliveries(&mut self, frames: &[u8], times: usize) -> Vec<Duration> {
        let deliver = |_| {
            self.renew();
            S::load(&mut self.wire, frames);
            let pass = || S::pass(&mut self.replicas, &mut self.wire, &mut self.next);
            took(times == 1, pass)
        };
        (0..times).map(deliver).collect()
    }

    fn start_views(&mut self, entries: usize, clients: usize) -> Vec<Duration> {
        let frame = start_view_frame(log(entries, clients));
        let pieces = self.deliveries(&frame, times(entries));
        assert_eq!(S::count(&self.next), (1, 0));
        pieces
    }

    fn not_rising(&mut self, entries: usize, clients: usize) -> Option<Vec<Duration>> {
        let frame = start_view_frame(broken_log(entries, clients));
        self.refusals(&frame, times(entries), Refusal::NotRising)
    }

    fn malformed(&mut self, entries: usize) -> Option<Vec<Duration>> {
        let frame = start_view_frame(malformed_log(entries));
        let length = frame.len();
        let offset = length - 1;
        self.refusals(
            &frame,
            times(entries),
            Refusal::Malformed { offset, length },
        )
    }

    /// A frame that is refused just so, again and again; none where this side knows no refusals.
    fn refusals(&mut self, frame: &[u8], times: usize, due: Refusal) -> Option<Vec<Duration>> {
        self.renew();
        let deliver = |_| {
            let mut refusal = None;
            let piece = took(times == 1, || {
                refusal = S::refused(&mut self.replicas, frame);
            });
            assert_eq!(refusal?, due);
            Some(piece)
        };
        (0..times).map(deliver).collect()
    }

    fn quorums(&mut self, entries: usize) -> Vec<Duration> {
        let mut frames = Vec::new();
        for replica_id in [0, 2] {
            let message = Message::DoViewChange {
                view_number: 1,
                replica_id,
                last_normal_view: 0,
                log: log(entries, 16),
                op_number: entries,
                commit_number: entries,
            };
            write_frame(&mut frames, 1, &message);
        }
        let pieces = self.deliveries(&frames, times(entries));
        // A StartViewChange and a StartView to each of the others, and a Reply for each entry.
        assert_eq!(S::count(&self.next), (4, entries));
        pieces
    }

    fn recoveries(&mut self, entries: usize) -> Vec<Duration> {
        let times = times(entries);
        self.renew();
        self.commit(&log(entries, 16));
        let recover = |nonce| {
            S::recover(&mut self.replicas[1], &setup(3, 1), nonce, &mut self.wire);
            took(times == 1, || {
                S::pass(&mut self.replicas, &mut self.wire, &mut self.next);
                S::pass(&mut self.replicas, &mut self.next, &mut self.wire);
            })
        };
        (1..=times as u64).map(recover).collect()
    }

    /// The takings of a primary with 16 committed entries.
    fn takings(&mut self) -> Vec<Duration> {
        self.renew();
        self.commit(&log(16, 16));
        let mut sum = 0;
        let pieces = timed(20, || {
            for _ in 0..100 {
                sum = S::takings(black_box(&self.replicas[0]));
            }
        });
        assert_eq!(sum, 16 * 4_500);
        pieces
    }
}

/// How often a round repeats a case with a log.
fn times(entries: usize) -> usize {
    match entries {
        0..=256 => 20,
        _ => 1,
    }
}

/// What each of so many pieces takes.
fn timed(pieces: usize, mut piece: impl FnMut()) -> Vec<Duration> {
    (0..pieces).map(|_| took(false, &mut piece)).collect()
}

/// A StartView of view 1 for replica 2, all of its log committed.
fn start_view_frame(log: Vec<LogEntry<Charge>>) -> Vec<u8> {
    let entries = log.len();
    let message = Message::StartView {
        view_number: 1,
        log,
        op_number: entries,
        commit_number: entries,
    };
    frame(2, &message)
}

fn request_frame(entry: &LogEntry<Charge>) -> Vec<u8> {
    frame(0, &request(entry.clone()))
}
