//! What the library refuses.
use std::error::Error;
use std::fmt;

/// Why a rule is not compiled. Places in a text are bytes, counted from 0.
#[derive(Clone, Copy, Debug, PartialEq, Eq)]
pub enum CompileFault {
    /// The text has no rules from the place on.
    Syntax {
        place: u32,
    },
    /// The rules are refused by a reason, 1 to 13.
    Description {
        number: u32,
        place: u32,
    },
    /// The rule is not certified: a conflict of a kind, 1 to 6, at a node.
    Conflict {
        number: u32,
        node: u32,
    },
    /// The text has more than 262,144 bytes.
    TooLong,
    NoMemory,
}

/// Why a block is not shown.
#[derive(Clone, Copy, Debug, PartialEq, Eq)]
pub enum BlockFault {
    /// It has no tree, and so many of its bits can be followed; all of them where it ends too early.
    Refused {
        place: usize,
    },
    /// It has fewer bits than are asked for, or more than 524,288 are.
    NoBlock,
    NoMemory,
}

/// Why a tree is not written.
#[derive(Clone, Debug, PartialEq, Eq)]
pub enum TreeFault {
    /// The bytes are the text of no tree, and so many of them begin one.
    NoText {
        place: usize,
    },
    NoJson,
    /// The JSON shows no tree.
    NoTree,
    /// No block has the tree. The path leads from the root to its first misfit: at each tree the number of the next one in it,
    /// from 0, and 0 below an alternative and below a label.
    NoBlock {
        why: Misfit,
        path: Vec<u32>,
    },
    /// There are more than 16,777,216 bytes.
    TooLong,
    NoMemory,
}

/// Why a tree first misses a description.
#[derive(Clone, Copy, Debug, PartialEq, Eq)]
pub enum Misfit {
    WrongKind,
    WrongLabel,
    WrongCount,
    WrongWidth,
    WrongSpare,
    NoSuchAlternative,
    WindowLength,
    TooManyBits,
}

impl Misfit {
    pub(crate) fn of(number: usize) -> Misfit {
        match number {
            1 => Misfit::WrongKind,
            2 => Misfit::WrongLabel,
            3 => Misfit::WrongCount,
            4 => Misfit::WrongWidth,
            5 => Misfit::WrongSpare,
            6 => Misfit::NoSuchAlternative,
            7 => Misfit::WindowLength,
            _ => Misfit::TooManyBits,
        }
    }
}

impl fmt::Display for CompileFault {
    fn fmt(&self, out: &mut fmt::Formatter<'_>) -> fmt::Result {
        match self {
            CompileFault::Syntax { place } => write!(out, "syntax {place}"),
            CompileFault::Description { number, place } => {
                write!(out, "description {number} {place}")
            }
            CompileFault::Conflict { number, node } => write!(out, "conflict {number} {node}"),
            CompileFault::TooLong => write!(out, "the text is too long"),
            CompileFault::NoMemory => write!(out, "no memory"),
        }
    }
}

impl fmt::Display for BlockFault {
    fn fmt(&self, out: &mut fmt::Formatter<'_>) -> fmt::Result {
        match self {
            BlockFault::Refused { place } => write!(out, "no string of the rule past bit {place}"),
            BlockFault::NoBlock => write!(
                out,
                "no block: the octets have fewer bits, or there are too many"
            ),
            BlockFault::NoMemory => write!(out, "no memory"),
        }
    }
}

impl fmt::Display for TreeFault {
    fn fmt(&self, out: &mut fmt::Formatter<'_>) -> fmt::Result {
        match self {
            TreeFault::NoText { place } => write!(out, "no text of a tree from byte {place} on"),
            TreeFault::NoJson => write!(out, "no JSON"),
            TreeFault::NoTree => write!(out, "JSON that shows no tree"),
            TreeFault::NoBlock { why, path } => {
                write!(out, "no block has the tree: {why:?} at {path:?}")
            }
            TreeFault::TooLong => write!(out, "the tree is too long"),
            TreeFault::NoMemory => write!(out, "no memory"),
        }
    }
}

impl Error for CompileFault {}
impl Error for BlockFault {}
impl Error for TreeFault {}
