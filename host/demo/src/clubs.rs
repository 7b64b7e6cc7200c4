//! The clubs, their members and the renewal list, all made up.

use whitherhaul::Operation;
use wire::random::Random;

/// A club and its yearly fee in cents.
pub struct Club {
    pub name: &'static str,
    fee: u64,
}

pub const CLUBS: [Club; 8] = [
    club("Heronsgate Rowing Club", 18_000),
    club("Mill Lane Tennis Club", 14_500),
    club("Old Quarry Climbers", 9_600),
    club("Ferry Street Swimmers", 7_200),
    club("Bellwether Bowls Club", 6_400),
    club("Rosehip Allotments", 4_500),
    club("Thistledown Garden Society", 3_000),
    club("Larkfield Orchard Friends", 2_400),
];

const fn club(name: &'static str, fee: u64) -> Club {
    Club { name, fee }
}

/// Behind the yearly fee: a locker, or a key to the shed.
const EXTRA: u64 = 1_500;

const FIRST: [&str; 16] = [
    "Ada", "Bram", "Cleo", "Dov", "Edda", "Finn", "Greta", "Hugo", "Ines", "Joss", "Kaya", "Lorne",
    "Mina", "Nils", "Orla", "Piet",
];
const LAST: [&str; 16] = [
    "Ashcombe",
    "Brackley",
    "Coldwell",
    "Dunmore",
    "Elmhurst",
    "Fairlie",
    "Garrick",
    "Holloway",
    "Inchbold",
    "Jessop",
    "Kestrel",
    "Lambourn",
    "Merrick",
    "Northcote",
    "Oakden",
    "Penhallow",
];

/// Which club of `CLUBS` a member belongs to.
pub fn club_of(member: u32) -> usize {
    member as usize % CLUBS.len()
}

/// A member's name. Past 256 members names come again, so the number stands with it.
pub fn name_of(member: u32) -> String {
    let number = member as usize;
    let first = FIRST[number % FIRST.len()];
    let last = LAST[(number / FIRST.len() + number) % LAST.len()];
    format!("{first} {last}, member {member}")
}

/// Every fifth member of a club is a junior and pays half.
fn yearly(member: u32) -> u64 {
    let fee = CLUBS[club_of(member)].fee;
    match (member as usize / CLUBS.len()) % 5 {
        4 => fee / 2,
        _ => fee,
    }
}

/// One line of the renewal list.
#[derive(Clone, Copy, Debug)]
pub struct Charge {
    pub operation: Operation,
    pub member: u32,
    pub cents: u64,
}

/// The renewal list, and what has to come of it.
pub struct List {
    pub charges: Vec<Charge>,
    pub members: u32,
    /// What each member has paid once every charge is taken once.
    pub totals: Vec<u64>,
    /// The member's total just behind each charge.
    pub after: Vec<u64>,
}

impl List {
    /// So many charges: each member's yearly fee, some extras, a few refunds.
    pub fn new(requests: u64, random: &mut Random) -> List {
        let members = (requests * 4 / 5).max(CLUBS.len() as u64) as u32;
        let mut list = List {
            charges: Vec::new(),
            members,
            totals: vec![0; members as usize],
            after: Vec::new(),
        };
        let mut renewed = 0;
        for _ in 0..requests {
            let charge = list.next(&mut renewed, random);
            list.add(charge);
        }
        list
    }

    /// The next charge; the first `renewed` members have paid their yearly fee.
    fn next(&self, renewed: &mut u32, random: &mut Random) -> Charge {
        let roll = random.below(100);
        if *renewed == 0 || (*renewed < self.members && roll >= 16) {
            *renewed += 1;
            let member = *renewed - 1;
            return charge(Operation::Fee, member, yearly(member));
        }
        let member = random.below(*renewed as usize) as u32;
        let total = self.totals[member as usize];
        if roll < 7 && total > 1 {
            return charge(Operation::Refund, member, total / 2);
        }
        charge(Operation::Fee, member, EXTRA)
    }

    fn add(&mut self, charge: Charge) {
        let total = &mut self.totals[charge.member as usize];
        match charge.operation {
            Operation::Fee => *total += charge.cents,
            Operation::Refund => *total -= charge.cents,
            Operation::Ask => {}
        }
        self.after.push(*total);
        self.charges.push(charge);
    }
}

fn charge(operation: Operation, member: u32, cents: u64) -> Charge {
    Charge {
        operation,
        member,
        cents,
    }
}

#[cfg(test)]
mod tests {
    use super::*;

    #[test]
    fn no_refund_exceeds_what_was_paid() {
        for seed in 0..50 {
            let list = List::new(300, &mut Random::new(seed));
            assert_eq!(list.charges.len(), 300);
            let mut totals = vec![0; list.members as usize];
            for charge in &list.charges {
                let total = &mut totals[charge.member as usize];
                assert!((1..=1_000_000).contains(&charge.cents));
                match charge.operation {
                    Operation::Refund => *total -= charge.cents,
                    _ => *total += charge.cents,
                }
            }
            assert_eq!(totals, list.totals);
        }
    }
}
