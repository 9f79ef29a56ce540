//! Measurements of the proved model beside the reference, in one process:
//! `bench count [GROUP]` runs each row twice, for callgrind to count; `bench
//! report [GROUP] TOTALS` times each row and prints the tables, with the counts
//! that were taken; `bench memory PROGRAM` prints what a program holds resident
//! at most. A group is one table, without one there are all. `bench/run` does
//! all three.

mod access;
mod calls;
mod commands;
mod conversions;
mod counted;
mod loops;
mod memory;
mod register;
mod sessions;

use std::process::ExitCode;

/// One table.
struct Group {
    name: &'static str,
    /// Runs its rows.
    count: fn(),
    /// How many counts that makes.
    counts: fn() -> usize,
    /// Times and prints them, given the counts.
    report: fn(&[u64]) -> Result<(), String>,
}

/// In the order of their counts.
const GROUPS: [Group; 5] = [
    Group { name: "access", count: access::count, counts: access::counts, report: access::report },
    Group { name: "register", count: register::count, counts: register::counts, report: register::report },
    Group { name: "commands", count: commands::count, counts: commands::counts, report: commands::report },
    Group { name: "conversions", count: conversions::count, counts: conversions::counts, report: conversions::report },
    Group { name: "calls", count: calls::count, counts: calls::counts, report: calls::report },
];

/// The group that is named first, or all, and what stands behind the name.
fn chosen(arguments: &[String]) -> (&[Group], &[String]) {
    let named = |name| GROUPS.iter().position(|group| group.name == name);
    match arguments.split_first().and_then(|(name, rest)| Some((named(name)?, rest))) {
        Some((k, rest)) => (&GROUPS[k..=k], rest),
        None => (&GROUPS, arguments),
    }
}

fn count(groups: &[Group]) {
    for group in groups {
        (group.count)();
    }
}

/// The tables of the groups and, behind all of them, sessions a second.
fn report(groups: &[Group], mut totals: &[u64]) -> Result<(), String> {
    if totals.len() != groups.iter().map(|group| (group.counts)()).sum::<usize>() {
        return Err(format!("{} counts are not two for each row and loop", totals.len()));
    }
    for group in groups {
        let (own, rest) = totals.split_at((group.counts)());
        (group.report)(own)?;
        totals = rest;
    }
    if groups.len() == GROUPS.len() {
        sessions::report();
    }
    Ok(())
}

fn main() -> ExitCode {
    let arguments: Vec<String> = std::env::args().skip(1).collect();
    let (groups, rest) = chosen(arguments.get(1..).unwrap_or_default());
    let done = match arguments.first().map(String::as_str) {
        Some("count") if rest.is_empty() => {
            count(groups);
            Ok(())
        }
        Some("report") => {
            let totals: Vec<u64> = rest.iter().filter_map(|a| a.parse().ok()).collect();
            report(groups, &totals)
        }
        Some("memory") if arguments.len() > 1 => memory::report(&arguments[1..]),
        _ => Err("usage: bench count [GROUP] | report [GROUP] TOTALS.. | memory PROGRAM [ARGUMENT..]".to_string()),
    };
    match done {
        Ok(()) => ExitCode::SUCCESS,
        Err(message) => {
            eprintln!("{message}");
            ExitCode::FAILURE
        }
    }
}
