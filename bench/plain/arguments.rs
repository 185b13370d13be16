//! The words of the command line.

use crate::dump::Table;
use crate::fault::Fault;
use crate::generate::Kind;
use crate::money::LAST_MOMENT;
use crate::opening::Opening;
use crate::parts::Part;
use crate::runs::Plan;
use crate::tables::Scale;
use std::str::FromStr;

const MOST_PARTS: usize = 16;

/// What the program is asked to do.
pub enum Command {
    Script,
    Dump(Table),
    /// Terminals one after another.
    Serial,
    /// A thread a terminal, with the engine behind a mutex.
    Run,
    /// A terminal's requests as lines of a script.
    Requests,
    /// A drawn script of so many lines.
    Generate(Kind, u32),
}

/// All words, read.
pub struct Arguments {
    pub command: Command,
    pub opening: Opening,
    pub plan: Plan,
    /// What is shown; nothing where nothing was asked for.
    pub parts: Vec<Part>,
    /// Whether seconds are told on standard error.
    pub time: bool,
}

// An option may be given once, but for `--show`.
struct Words {
    table: Option<Table>,
    options: Vec<(String, String)>,
    flags: Vec<String>,
}

/// Reads the words behind the program's name; the scale is judged once they are all read.
pub fn read(words: impl Iterator<Item = String>) -> Result<Arguments, Fault> {
    let mut words = words;
    let name = words.next().ok_or(Fault::Arguments)?;
    let mut given = split(words, name == "dump")?;
    let command = match name.as_str() {
        "script" => Command::Script,
        "dump" => Command::Dump(given.table.take().ok_or(Fault::Arguments)?),
        "serial" => Command::Serial,
        "mutex" | "run" => Command::Run,
        "requests" => Command::Requests,
        "generate" => {
            let kind = given.take("kind").unwrap_or_else(|| "mixed".to_string());
            let lines = given.number("lines", 150, 0..=1_000_000)? as u32;
            Command::Generate(Kind::of(&kind).ok_or(Fault::Arguments)?, lines)
        }
        _ => return Err(Fault::Arguments),
    };
    let seed = given.number("seed", 1, 0..=u64::MAX)?;
    let moment = given.number("moment", 0, 0..=u64::from(LAST_MOMENT))? as u32;
    let plan = plan(&mut given, &command, seed, moment)?;
    let is_seeded = given.flag("seeded");
    let has_times = matches!(command, Command::Script | Command::Run | Command::Serial);
    let time = has_times && given.flag("time");
    let parts = match command {
        Command::Script | Command::Run => given.parts()?,
        _ => Vec::new(),
    };
    if matches!(command, Command::Script) && parts.contains(&Part::Receipts) {
        return Err(Fault::Arguments);
    }
    let warehouses = given.number("warehouses", 1, 0..=u64::from(u32::MAX))? as u32;
    let customers = given.number("customers", 10, 0..=u64::from(u32::MAX))? as u32;
    let items = given.number("items", 100, 0..=u64::from(u32::MAX))? as u32;
    if !given.options.is_empty() || !given.flags.is_empty() {
        return Err(Fault::Arguments);
    }
    let scale = scale(warehouses, customers, items)?;
    let opening = match is_seeded {
        true => Opening::Seeded { scale, seed, moment },
        false => Opening::Plain { scale },
    };
    Ok(Arguments { command, opening, plan, parts, time })
}

// The options of a run. A run's servers are taken and judged, though this program has none.
fn plan(given: &mut Words, command: &Command, seed: u64, moment: u32) -> Result<Plan, Fault> {
    let mut plan = Plan { terminals: 2, cards: 23, seed, moment };
    match command {
        Command::Serial | Command::Run => {
            plan.terminals = given.number("terminals", 2, 1..=999)? as u32;
            if !given.flag("direct") {
                given.number("servers", 1, 1..=16)?;
                given.number("retire", 0, 0..=100_000)?;
            }
            plan.cards = given.number("cards", 23, 0..=100_000)? as u32;
        }
        Command::Requests => {
            plan.terminals = given.number("terminal", 1, 1..=1000)? as u32;
            plan.cards = given.number("cards", 23, 0..=100_000)? as u32;
        }
        Command::Script | Command::Dump(_) | Command::Generate(..) => {}
    }
    Ok(plan)
}

fn scale(warehouses: u32, customers: u32, items: u32) -> Result<Scale, Fault> {
    if !(1..=100).contains(&warehouses) {
        return Err(Fault::Warehouses);
    }
    if !(10..=3000).contains(&customers) || customers % 10 != 0 {
        return Err(Fault::Customers);
    }
    if !(100..=100_000).contains(&items) {
        return Err(Fault::Items);
    }
    Ok(Scale { warehouses, customers, items })
}

// A flag has no value; the value of any other option stands behind it or behind a `=`. Behind `--` no word is an option.
fn split(words: impl Iterator<Item = String>, has_table: bool) -> Result<Words, Fault> {
    let mut words = words;
    let mut given = Words { table: None, options: Vec::new(), flags: Vec::new() };
    let mut has_ended = false;
    while let Some(word) = words.next() {
        match word.strip_prefix("--").filter(|_| !has_ended) {
            None => {
                let table = Table::of(&word).filter(|_| has_table && given.table.is_none());
                given.table = Some(table.ok_or(Fault::Arguments)?);
            }
            Some("") => has_ended = true,
            Some("seeded" | "time" | "direct") => given.flags.push(word[2..].to_string()),
            Some(option) => {
                let pair = match option.split_once('=') {
                    Some((name, value)) => (name.to_string(), value.to_string()),
                    None => (option.to_string(), words.next().ok_or(Fault::Arguments)?),
                };
                given.options.push(pair);
            }
        }
    }
    Ok(given)
}

impl Words {
    // Takes an option's value out; what is left in the end is unknown or given twice.
    fn take(&mut self, name: &str) -> Option<String> {
        let place = self.options.iter().position(|(given, _)| given == name)?;
        Some(self.options.remove(place).1)
    }

    fn number(&mut self, name: &str, default: u64, range: std::ops::RangeInclusive<u64>) -> Result<u64, Fault> {
        let Some(value) = self.take(name) else {
            return Ok(default);
        };
        // As in a script, with neither a sign nor a needless leading zero.
        let is_plain = value == "0" || value.starts_with(|first: char| ('1'..='9').contains(&first));
        let number = u64::from_str(&value).ok().filter(|_| is_plain).ok_or(Fault::Arguments)?;
        if range.contains(&number) {
            Ok(number)
        } else {
            Err(Fault::Arguments)
        }
    }

    // All that `--show` was given with.
    fn parts(&mut self) -> Result<Vec<Part>, Fault> {
        let mut parts = Vec::new();
        while let Some(name) = self.take("show") {
            parts.push(Part::of(&name).ok_or(Fault::Arguments)?);
        }
        match parts.len() {
            0..=MOST_PARTS => Ok(parts),
            _ => Err(Fault::Arguments),
        }
    }

    fn flag(&mut self, name: &str) -> bool {
        match self.flags.iter().position(|given| given == name) {
            Some(place) => {
                self.flags.remove(place);
                true
            }
            None => false,
        }
    }
}
