//! The parts of a book that `--show` asks for.

use crate::check::check;
use crate::dump::{dump, Table};
use crate::engine::Engine;
use crate::journal::Entry;
use crate::lines::put_line;
use crate::money::Cents;
use crate::screens::{put_check, put_report, put_result, put_screen};

/// What is written in place of a script's screens or a run's report.
#[derive(Clone, Copy, PartialEq, Eq)]
pub enum Part {
    Screens,
    Report,
    Journal,
    /// Of a run alone.
    Receipts,
    Results,
    Check,
    Table(Table),
}

/// A book as it is at the end, and what is not in it.
pub struct Ended<'a> {
    pub engine: &'a Engine,
    pub totals: Totals,
    /// A script's screens, of which those of refusals are in no journal; a run has those of its journal.
    pub screens: Option<&'a [u8]>,
}

/// The three numbers of a report.
#[derive(Clone, Copy)]
pub struct Totals {
    pub entries: u64,
    pub paid: Cents,
    pub rise: Cents,
}

impl Part {
    /// The part of that name.
    pub fn of(name: &str) -> Option<Part> {
        Some(match name {
            "screens" => Part::Screens,
            "report" => Part::Report,
            "journal" => Part::Journal,
            "receipts" => Part::Receipts,
            "results" => Part::Results,
            "check" => Part::Check,
            _ => Part::Table(Table::of(name)?),
        })
    }

    fn name(self) -> &'static str {
        match self {
            Part::Screens => "screens",
            Part::Report => "report",
            Part::Journal => "journal",
            Part::Receipts => "receipts",
            Part::Results => "results",
            Part::Check => "check",
            Part::Table(table) => table.name(),
        }
    }
}

/// Appends these parts. One stands alone; of several each is under its name.
pub fn put_parts(out: &mut Vec<u8>, ended: &Ended, parts: &[Part]) {
    for &part in parts {
        if parts.len() > 1 {
            out.extend_from_slice(format!("== {}\n", part.name()).as_bytes());
        }
        put_part(out, ended, part);
    }
}

fn put_part(out: &mut Vec<u8>, ended: &Ended, part: Part) {
    let Ended { engine, totals, screens } = ended;
    match (part, screens) {
        (Part::Screens, Some(screens)) => out.extend_from_slice(screens),
        (Part::Screens, None) => {
            engine.journal.entries().iter().for_each(|entry| put_screen(out, Ok(&entry.reply)));
        }
        (Part::Report, _) => put_report(out, totals.entries, totals.paid, totals.rise),
        (Part::Journal, _) => engine.journal.entries().iter().for_each(|entry| put_line(out, &entry.request)),
        (Part::Receipts, _) => put_receipts(out, engine.journal.entries()),
        (Part::Results, _) => engine.journal.results().for_each(|ten| put_result(out, &ten)),
        (Part::Check, _) => put_check(out, check(&engine.tables)),
        (Part::Table(table), _) => dump(&engine.tables, table, out).expect("a vector takes all bytes"),
    }
}

// The entries by terminal, each with its number among the terminal's and its place in the journal.
fn put_receipts(out: &mut Vec<u8>, entries: &[Entry]) {
    let mut receipts: Vec<(usize, &Entry)> = entries.iter().enumerate().collect();
    receipts.sort_by_key(|(_, entry)| (entry.terminal, entry.number));
    out.extend_from_slice(b"terminal,number,place,request\n");
    for (place, Entry { terminal, number, request, .. }) in receipts {
        out.extend_from_slice(format!("{terminal},{number},{place},").as_bytes());
        put_line(out, request);
    }
}
