//! The machines of the ledger: calls of their replicas, crashes, and coming back.

use crate::clubs::List;
use crate::damage::Damage;
use crate::day::{Day, Parcel, REPLICAS};
use crate::journals::{self, Journals};
use crate::library::{Answer, Library, Standing};
use crate::stops;
use crate::words::{charges, money};
use std::path::PathBuf;
use whitherhaul::Setup;

/// Idle periods without the leader before a backup asks for the next view.
const TIMEOUT: u32 = 5;

/// A machine: its replica, or the step at which it is back; and the view and the journal, which survive a crash.
pub struct Machine<L: Library> {
    setup: Setup,
    view: u32,
    journal: Option<PathBuf>,
    pub runs: Result<L::Replica, u64>,
}

impl<L: Library> Machine<L> {
    /// A machine's first start. Its log has room for the whole list.
    pub fn new(id: u8, list: &List, journals: Option<&Journals>) -> Machine<L> {
        let setup = Setup {
            replicas: REPLICAS.into(),
            id: id.into(),
            timeout: TIMEOUT,
            room: list.charges.len() as u32,
            members: list.members,
        };
        Machine {
            setup,
            view: 0,
            journal: journals.map(|journals| journals.of(id)),
            runs: Ok(L::replica(&setup)),
        }
    }

    /// How its replica stands, if it runs.
    pub fn standing(&self) -> Option<Standing> {
        self.runs.as_ref().ok().map(L::standing)
    }

    /// The same in words.
    pub fn told(&self) -> String {
        let id = self.setup.id;
        match self.standing() {
            None => format!("replica {id} is down"),
            Some(standing) => format!(
                "replica {id} is {:?} in view {} with {}, {} committed",
                standing.status,
                standing.view,
                charges(standing.op_number),
                standing.commit_number
            ),
        }
    }

    /// Writes to its journal what a call committed. One that can't be written is given up, and what keeps it from being
    /// written is said in a sentence.
    fn write_down(&mut self, before: Standing, after: Standing) -> Option<String> {
        let committed = after.commit_number;
        let (Some(file), Ok(replica)) = (&self.journal, &self.runs) else {
            return None;
        };
        if committed <= before.commit_number {
            return None;
        }
        let written = journals::append(file, committed, |op| L::journal_since(replica, op));
        let fault = written.err()?;
        let why = format!("{} can't be written: {fault}", file.display());
        self.journal = None;
        Some(why)
    }
}

impl<L: Library> Day<'_, L> {
    /// A replica, if there is one with this id and it runs.
    pub fn running(&mut self, id: u8) -> Option<&mut L::Replica> {
        let machine = self.machines.get_mut(usize::from(id))?;
        machine.runs.as_mut().ok()
    }

    /// A call of a replica, if it runs.
    pub fn call(&mut self, id: u8, call: impl FnOnce(&mut L::Replica) -> Answer<L::Message>) {
        let Some(replica) = self.running(id) else {
            return;
        };
        let before = L::standing(replica);
        match stops::caught(|| call(replica)) {
            Ok(answer) => self.give(id, before, answer),
            Err(why) => self.stop(id, None, &why),
        }
    }

    /// What a call of a running replica gave goes out, and before that its view is kept and its journal written.
    pub fn give(&mut self, id: u8, before: Standing, answer: Answer<L::Message>) {
        let machine = &mut self.machines[usize::from(id)];
        let after = machine.standing().expect("a replica that runs");
        machine.view = after.view;
        let unwritten = machine.write_down(before, after);
        self.wrong.extend(unwritten);
        self.tell(id, before, after);
        if let Some(refused) = answer.refused {
            self.counts.refused += 1;
            self.say(format!("replica {id} refuses: {refused}"));
        }
        for (to, message) in answer.messages {
            self.send(Parcel::Message(to, message));
        }
        for reply in answer.replies {
            self.send(Parcel::Reply(reply));
        }
    }

    fn say(&mut self, line: String) {
        self.teller.say(&self.counts, &line);
    }

    /// Says what a call changed that is worth a line.
    fn tell(&mut self, id: u8, before: Standing, after: Standing) {
        let view = after.view;
        if view > self.asked_view && !after.normal() {
            self.asked_view = view;
            self.say(format!(
                "replica {id} no longer hears the leader and asks for view {view}"
            ));
        }
        if view > self.begun_view && after.normal() && after.leads {
            self.begun_view = view;
            self.counts.views += 1;
            self.say(format!("view {view} begins: replica {id} leads"));
        }
        if before.recovering() && after.normal() {
            self.counts.recoveries += 1;
            self.say(format!(
                "replica {id} has recovered in view {view}: {}, {} committed",
                charges(after.op_number),
                after.commit_number
            ));
        }
        if after.commit_number > self.committed {
            let tenth = |count| count * 10 / self.options.requests;
            let shown = tenth(after.commit_number) > tenth(self.committed);
            self.committed = after.commit_number;
            self.ask_takings(id);
            if shown {
                self.progress();
            }
        }
    }

    /// Asks the replica that has committed most for its takings. They have to be its totals, added up.
    fn ask_takings(&mut self, id: u8) {
        let machine = &self.machines[usize::from(id)];
        let Ok(replica) = &machine.runs else {
            return;
        };
        let members = 0..machine.setup.members;
        let added = members.map(|member| L::total(replica, member)).sum();
        match L::takings(replica) {
            Ok(takings) if takings == added => self.takings = takings,
            Ok(takings) => self.wrong.push(format!(
                "replica {id} says that its takings are {}, its totals come to {}",
                money(takings),
                money(added)
            )),
            Err(why) => {
                let line = format!("replica {id} doesn't say its takings: {why}");
                self.wrong.push(line);
            }
        }
    }

    /// A machine crashes when it is time, the leader every other time; only if all are there, so that two always are.
    pub fn crash(&mut self) {
        let due = self.crashes.last().is_some_and(|at| *at <= self.committed);
        let standings = self.machines.iter().map(Machine::standing);
        let Some(standings) = standings.collect::<Option<Vec<_>>>() else {
            return;
        };
        if !due || standings.iter().any(Standing::recovering) {
            return;
        }
        self.crashes.pop();
        let leader = standings.iter().position(|s| s.leads && s.normal());
        let some = self.network.random.below(usize::from(REPLICAS));
        let id = match leader {
            Some(leader) if self.counts.crashes % 2 != 1 => leader,
            _ => some,
        };
        self.down(id);
        self.counts.crashes += 1;
        let leads = if standings[id].leads {
            ", the leader"
        } else {
            ""
        };
        self.say(format!(
            "replica {id} crashes{leads}: {}, {} committed, all forgotten",
            charges(standings[id].op_number),
            standings[id].commit_number
        ));
    }

    /// A replica's library panicked, at a damaged frame or later, so that its machine stops.
    pub fn stop(&mut self, id: u8, damage: Option<Damage>, why: &str) {
        self.tally.stopped(damage, why);
        if damage.is_none() && self.tally.later == 1 {
            let line = format!("replica {id} stops at what isn't damaged: {why}");
            self.teller.damage(&self.counts, &line);
        }
        self.down(usize::from(id));
    }

    /// A machine forgets all, and is back some steps later.
    fn down(&mut self, id: usize) {
        let back = self.counts.steps + 30 + self.network.random.below(60) as u64;
        self.machines[id].runs = Err(back);
    }

    /// A machine whose time has come is back with its view and a nonce that was never used, and recovers.
    pub fn come_back(&mut self) {
        for id in 0..self.machines.len() {
            let machine = &mut self.machines[id];
            if !matches!(machine.runs, Err(back) if back <= self.counts.steps) {
                continue;
            }
            let view = machine.view;
            let nonce = self.counts.crashes + self.tally.stops();
            let (replica, letters) = L::recovered(&machine.setup, view, nonce);
            machine.runs = Ok(replica);
            self.say(format!(
                "replica {id} is back with nothing but view {view} and asks the others"
            ));
            for (to, message) in letters {
                self.send(Parcel::Message(to, message));
            }
        }
    }
}
