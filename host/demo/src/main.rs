//! A renewal day, for people: three replicas, some desks, a bad network, crashes, and every charge taken exactly once.

mod arrivals;
mod clubs;
mod damage;
mod day;
mod journals;
mod ledgers;
mod library;
mod machines;
mod network;
mod ours;
mod picture;
mod stops;
mod tally;
mod teller;
#[cfg(test)]
mod tests;
#[cfg(feature = "vsr-rs")]
mod theirs;
mod words;

use clubs::{List, CLUBS};
use day::{Counts, Evening};
use demo_options::{Asked, Options};
use journals::Journals;
use ledgers::Ledgers;
use library::Library;
use network::REPEATED;
use std::process::ExitCode;
use tally::Tally;
use teller::Teller;
use whitherhaul::Operation;
use wire::random::Random;
use words::{charges, count, money};

/// The most lines that are printed of what isn't as it has to be.
const MOST_WRONG: usize = 12;

fn main() -> ExitCode {
    match demo_options::read(std::env::args_os().skip(1)) {
        Ok(Asked::Help) => {
            println!("{}", demo_options::HELP);
            ExitCode::SUCCESS
        }
        Ok(Asked::Day(options)) => {
            let journals = options.journal.as_deref().map(Journals::new).transpose();
            match journals {
                Ok(journals) => day(&options, journals.as_ref()),
                Err(why) => refused(&why),
            }
        }
        Err(why) => refused(&why),
    }
}

fn refused(why: &str) -> ExitCode {
    eprintln!("demo: {why}");
    ExitCode::from(2)
}

/// A library's day: its ledgers, what was counted, and what damage did.
struct Played {
    name: &'static str,
    ledgers: Ledgers,
    counts: Counts,
    tally: Tally,
}

/// One day through both libraries. Journals are kept by ours alone.
fn day(options: &Options, journals: Option<&Journals>) -> ExitCode {
    stops::silence();
    let list = List::new(options.requests, &mut Random::new(options.seed));
    opening(options, &list);
    let mut ours = played::<ours::Whitherhaul>(options, &list, true, journals);
    ours.ledgers.wrong.extend(ours.tally.wrong());
    println!();
    let theirs = beside(options, &list);
    table(&list, &ours.ledgers, theirs.as_ref().map(|t| &t.ledgers));
    println!();
    if options.damage > 0 {
        let lines = picture::lines(&ours.tally, theirs.as_ref().map(|t| &t.tally));
        println!("{}\n", lines.join("\n"));
    }
    counted(&ours.counts);
    let mut good = verdict(options, &ours);
    match &theirs {
        Some(theirs) => {
            let theirs_good = verdict(options, theirs) & compared(&ours, theirs);
            good &= theirs_good || options.damage > 0;
        }
        None => {
            println!("vsr-rs: not played beside it, since this demo was built without ../shared")
        }
    }
    good &= journals.is_none_or(|journals| journals.checked(list.members));
    match good {
        true => ExitCode::SUCCESS,
        false => ExitCode::FAILURE,
    }
}

/// Plays the day through a library and looks at its ledgers.
fn played<L: Library>(
    options: &Options,
    list: &List,
    speaks: bool,
    journals: Option<&Journals>,
) -> Played {
    let teller = Teller::new(L::NAME, speaks);
    let evening: Evening<L> = day::play(options, list, teller, journals);
    Played {
        name: L::NAME,
        ledgers: ledgers::look(list, &evening),
        counts: evening.counts,
        tally: evening.tally,
    }
}

#[cfg(feature = "vsr-rs")]
fn beside(options: &Options, list: &List) -> Option<Played> {
    if options.damage > 0 {
        println!("The same list through vsr-rs, of which only the damage is told:\n");
    }
    let mut theirs = played::<theirs::VsrRs>(options, list, false, None);
    if options.damage > 0 {
        println!();
    } else {
        theirs.ledgers.wrong.extend(theirs.tally.wrong());
    }
    Some(theirs)
}

#[cfg(not(feature = "vsr-rs"))]
fn beside(_: &Options, _: &List) -> Option<Played> {
    None
}

fn opening(options: &Options, list: &List) {
    let refunds = list.charges.iter();
    let refunds = refunds.filter(|c| c.operation == Operation::Refund).count();
    let of_them = match (options.requests, refunds) {
        (1, _) => String::new(),
        (_, 1) => String::from(" (1 of them a refund)"),
        _ => format!(" ({refunds} of them refunds)"),
    };
    println!(
        "A renewal day: {}{of_them} of {} members in {} clubs, {}, 3 replicas.",
        charges(options.requests),
        list.members,
        CLUBS.len(),
        count(options.desks, "desk", "desks")
    );
    println!(
        "The network loses {} %, repeats {REPEATED} % and reorders; {}. Seed {}.",
        options.loss,
        match day::crashes_of(options.requests) {
            0 => "no machine crashes on so short a list",
            _ => "machines crash and come back",
        },
        options.seed
    );
    if options.damage > 0 {
        println!(
            "Of each hundred frames {} also arrive as a damaged copy.",
            options.damage
        );
    }
    println!();
}

/// Each club's takings: by the list, by our ledgers and by those of vsr-rs; and those of all, as the libraries say them.
fn table(list: &List, ours: &Ledgers, theirs: Option<&Ledgers>) {
    let row = |name: &str, list: &str, ours: &str, theirs: Option<String>| {
        let theirs = theirs.map_or(String::new(), |theirs| format!("{theirs:>14}"));
        println!("{name:<28}{list:>14}{ours:>14}{theirs}");
    };
    let of_list = ledgers::takings(&list.totals);
    row(
        "Takings",
        "the list",
        "Whitherhaul",
        theirs.map(|_| String::from("vsr-rs")),
    );
    for (place, club) in CLUBS.iter().enumerate() {
        row(
            club.name,
            &money(of_list[place]),
            &money(ours.takings[place]),
            theirs.map(|theirs| money(theirs.takings[place])),
        );
    }
    row(
        "together",
        &money(of_list.iter().sum()),
        &money(ours.together),
        theirs.map(|theirs| money(theirs.together)),
    );
}

fn counted(counts: &Counts) {
    println!(
        "{}: {} sent, of these {} lost and {} repeated; {} sent again by desks, {}, {}, {}, {} refused.",
        count(counts.steps, "step", "steps"),
        counts.traffic.sent,
        counts.traffic.lost,
        counts.traffic.repeated,
        charges(counts.resent),
        count(counts.views, "new view", "new views"),
        count(counts.crashes, "crash", "crashes"),
        count(counts.recoveries, "recovery", "recoveries"),
        count(counts.refused, "call", "calls")
    );
}

/// Says whether a library's three ledgers are as they have to be.
fn verdict(options: &Options, played: &Played) -> bool {
    let Played { name, ledgers, .. } = played;
    if options.damage > 0 {
        println!(
            "{name}: {} arrived{}; machines stopped {}.",
            count(played.tally.arrived(), "damaged frame", "damaged frames"),
            match played.tally.wrong().is_empty() {
                true => ", all refused without a change",
                false => "",
            },
            count(played.tally.stops(), "time", "times")
        );
    }
    if ledgers.wrong.is_empty() {
        let applied = match options.requests {
            1 => "applied exactly once on all three ledgers",
            _ => "each applied exactly once on all three ledgers, in one order",
        };
        let charges = charges(options.requests);
        println!("{name}: {charges}, {applied}; totals and takings as the list adds up.");
        return true;
    }
    println!("{name}: NOT as it has to be:");
    for line in ledgers.wrong.iter().take(MOST_WRONG) {
        println!("  {line}");
    }
    if ledgers.wrong.len() > MOST_WRONG {
        println!("  and {} more", ledgers.wrong.len() - MOST_WRONG);
    }
    false
}

/// Says whether the two libraries have the same ledger. Where damage made the days differ, the order may be another.
fn compared(ours: &Played, theirs: &Played) -> bool {
    let same_day = ours.counts == theirs.counts;
    let same_totals = ours.ledgers.totals == theirs.ledgers.totals;
    let agree = same_totals && ours.ledgers.applied == theirs.ledgers.applied;
    println!(
        "{}",
        match (agree, same_day) {
            (true, true) => "Both ledgers agree, entry by entry, and both days had the same steps.",
            (true, false) => "Both ledgers agree, entry by entry.",
            (false, false) if same_totals && theirs.ledgers.wrong.is_empty() =>
                "Both ledgers agree in every total; the days differed, and so does the order of entries.",
            (false, _) => "The ledgers of Whitherhaul and vsr-rs DIFFER.",
        }
    );
    agree
}
