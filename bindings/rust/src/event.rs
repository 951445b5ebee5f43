//! The events of a block.
use crate::raw::RawEvent;
use std::iter::FusedIterator;
use std::slice;

/// What an event is of.
#[derive(Clone, Copy, Debug, PartialEq, Eq)]
pub enum Kind {
    /// A node with parts begins.
    Begin,
    /// A leaf of bits that the rule fixes has ended.
    Literal,
    /// One spare bit.
    Spare,
    Field,
    /// Any bits to the end.
    Rest,
    /// Spare padding to the end.
    Padding,
    /// A node with parts ends.
    End,
}

/// What a node is of the one round it.
#[derive(Clone, Copy, Debug, PartialEq, Eq)]
pub enum Role {
    /// No node is round it; or it ends.
    Root,
    Part,
    /// The alternative of a choice with this number, from 0.
    Alternative(u32),
    /// The turn of a repetition with this number, from 0.
    Turn(u32),
}

/// A leaf of a block has ended, or a node with parts begins or ends.
#[derive(Clone, Copy, Debug, PartialEq, Eq)]
pub struct Event {
    /// The number of the node. Where the node before that of a leaf has a label, it is that of the leaf.
    pub node: u32,
    pub kind: Kind,
    pub role: Role,
    /// The first bit of a leaf, or the next one where a node begins or ends; from 0.
    pub place: u32,
    /// How many bits a leaf has.
    pub bits: u32,
    /// The number that they write, the first bit most significant, where they are at most 64.
    pub value: Option<u64>,
}

impl Event {
    fn of(raw: &RawEvent) -> Event {
        Event {
            node: raw.node,
            kind: Kind::of(raw.kind),
            role: Role::of(raw.role, raw.number),
            place: raw.place,
            bits: raw.bits,
            value: (raw.bits <= 64).then_some(raw.value),
        }
    }

    /// Whether a leaf has ended, which has the bits from the place on.
    pub fn is_leaf(&self) -> bool {
        !matches!(self.kind, Kind::Begin | Kind::End)
    }
}

impl Kind {
    fn of(number: u32) -> Kind {
        match number {
            0 => Kind::Begin,
            1 => Kind::Literal,
            2 => Kind::Spare,
            3 => Kind::Field,
            4 => Kind::Rest,
            5 => Kind::Padding,
            _ => Kind::End,
        }
    }
}

impl Role {
    fn of(role: u32, number: u32) -> Role {
        match role {
            0 => Role::Root,
            1 => Role::Part,
            2 => Role::Alternative(number),
            _ => Role::Turn(number),
        }
    }
}

/// The events of a block, in the order of its bits.
#[derive(Clone)]
pub struct Events<'a> {
    raw: slice::Iter<'a, RawEvent>,
    refused: Option<usize>,
}

impl<'a> Events<'a> {
    pub(crate) fn new(raw: &'a [RawEvent], refused: Option<usize>) -> Events<'a> {
        Events {
            raw: raw.iter(),
            refused,
        }
    }

    /// How many bits can be followed, where the block has no tree. The events are those with which each block begins that
    /// goes on from there.
    pub fn refused(&self) -> Option<usize> {
        self.refused
    }

    /// The leaves alone: each bit of a block that has a tree lies in one.
    pub fn leaves(self) -> impl Iterator<Item = Event> + 'a {
        self.filter(Event::is_leaf)
    }
}

impl Iterator for Events<'_> {
    type Item = Event;

    fn next(&mut self) -> Option<Event> {
        self.raw.next().map(Event::of)
    }

    fn size_hint(&self) -> (usize, Option<usize>) {
        self.raw.size_hint()
    }
}

impl ExactSizeIterator for Events<'_> {}
impl FusedIterator for Events<'_> {}
