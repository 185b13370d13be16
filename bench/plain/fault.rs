//! What goes wrong outside requests: its line on standard error, and the exit status.

use std::fmt;

/// What ends a script.
#[derive(Clone, Copy, Debug, PartialEq, Eq)]
pub enum ScriptFault {
    Bad(u64),
    Cut(u64),
    LongLine(u64),
    TooManyLines,
    Read,
    Write,
}

/// What ends the program.
#[derive(Clone, Copy, Debug, PartialEq, Eq)]
pub enum Fault {
    Arguments,
    Warehouses,
    Customers,
    Items,
    Script(ScriptFault),
    DumpWrite,
    RunWrite,
    Missing,
}

impl Fault {
    /// The exit status.
    pub fn status(self) -> i32 {
        match self {
            Fault::Arguments | Fault::Warehouses | Fault::Customers | Fault::Items => 1,
            Fault::Script(ScriptFault::Read | ScriptFault::Write) => 3,
            Fault::Script(_) => 2,
            Fault::DumpWrite | Fault::RunWrite => 3,
            Fault::Missing => 5,
        }
    }
}

impl From<ScriptFault> for Fault {
    fn from(fault: ScriptFault) -> Self {
        Fault::Script(fault)
    }
}

impl fmt::Display for Fault {
    fn fmt(&self, f: &mut fmt::Formatter<'_>) -> fmt::Result {
        match self {
            Fault::Arguments => f.write_str("fault 1 Arguments"),
            Fault::Warehouses => f.write_str("fault 1 Warehouses"),
            Fault::Customers => f.write_str("fault 2 Customers"),
            Fault::Items => f.write_str("fault 3 Items"),
            Fault::Script(fault) => fault.fmt(f),
            Fault::DumpWrite => f.write_str("fault 1 Write"),
            Fault::RunWrite => f.write_str("fault 4 Write"),
            Fault::Missing => f.write_str("fault 1 Missing"),
        }
    }
}

impl fmt::Display for ScriptFault {
    fn fmt(&self, f: &mut fmt::Formatter<'_>) -> fmt::Result {
        match self {
            ScriptFault::Bad(line) => write!(f, "fault 1 Bad {line}"),
            ScriptFault::Cut(line) => write!(f, "fault 2 Cut {line}"),
            ScriptFault::LongLine(line) => write!(f, "fault 3 LongLine {line}"),
            ScriptFault::TooManyLines => f.write_str("fault 4 TooManyLines"),
            ScriptFault::Read => f.write_str("fault 5 Read"),
            ScriptFault::Write => f.write_str("fault 6 Write"),
        }
    }
}
