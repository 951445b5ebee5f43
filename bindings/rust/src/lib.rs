//! Nambroit for Rust: a rule of a CSN.1 description is compiled, and by it blocks are judged, told, shown and
//! written.
//!
//! ```
//! use nambroit::{Block, Description, Form, Reading};
//! # fn main() -> Result<(), Box<dyn std::error::Error>> {
//! let mut rule = Description::compile("<M> ::= <A : bit (3)> 0 <B : bit (4)> ;", "M", Reading::Received)?;
//! assert_eq!(rule.show(Block::whole(&[0xA5]), Form::Text)?, "[<A>=3'5 . <B>=4'5]");
//! let values: Vec<_> = rule.events(Block::whole(&[0xA5]))?.leaves().map(|leaf| leaf.value).collect();
//! assert_eq!(values, [Some(5), Some(0), Some(5)]);
//! assert_eq!(rule.write("[<A>=3'5 . <B>=4'5]", Form::Text)?, (vec![0xA5], 8));
//! # Ok(())
//! # }
//! ```
//!
//! The calls are those of `bindings/c/csn.h`, which says what is proved of each. They take `&mut self`, so that one call at a
//! time uses a rule, as that header wants.
mod event;
mod fault;
mod raw;
mod stream;

pub use event::{Event, Events, Kind, Role};
pub use fault::{BlockFault, CompileFault, Misfit, TreeFault};
pub use stream::Stream;

use raw::{RawEvent, RawRule, RawWhy};

/// The version of `csn.h` that this crate was made for.
pub const VERSION: u32 = 1;

/// What is read: what a receiver must take, or what a sender may write.
#[derive(Clone, Copy, Debug, PartialEq, Eq)]
pub enum Reading {
    Received = 0,
    Sent = 1,
}

/// A form of a tree.
#[derive(Clone, Copy, Debug, PartialEq, Eq)]
pub enum Form {
    Text = 0,
    Json = 1,
}

/// The first `bits` bits of some octets, the most significant bit of an octet first.
#[derive(Clone, Copy, Debug, PartialEq, Eq)]
pub struct Block<'a> {
    pub octets: &'a [u8],
    pub bits: u32,
}

impl<'a> Block<'a> {
    /// All bits of the octets.
    pub fn whole(octets: &'a [u8]) -> Block<'a> {
        // what has more bits than a u32 counts is no block, and is refused as one
        let bits = u32::try_from(8 * octets.len() as u64).unwrap_or(u32::MAX);
        Block { octets, bits }
    }
}

/// A rule of a description, compiled in a reading.
pub struct Description {
    rule: RawRule,
    room: Vec<u8>,
    told: Vec<RawEvent>,
}

// SAFETY: what the handle owns is plain data, which no other value shares.
unsafe impl Send for Description {}

impl Drop for Description {
    fn drop(&mut self) {
        // SAFETY: the handle is as the last call left it, and is used no more.
        unsafe { raw::csn_free(&mut self.rule) }
    }
}

impl Description {
    /// Compiles the named rule of a text.
    pub fn compile(
        text: impl AsRef<[u8]>,
        name: impl AsRef<[u8]>,
        reading: Reading,
    ) -> Result<Description, CompileFault> {
        let (text, name, mut why) = (text.as_ref(), name.as_ref(), RawWhy::default());
        let mut made = Description {
            rule: RawRule::EMPTY,
            room: vec![0; 4096],
            told: vec![RawEvent::default(); 256],
        };
        // SAFETY: the slices are borrowed for the call, the handle is empty, and nothing overlaps. So at each call below.
        let status = unsafe {
            raw::csn_compile(
                text.as_ptr(),
                text.len(),
                name.as_ptr(),
                name.len(),
                reading as u32,
                &mut made.rule,
                &mut why,
            )
        };
        match status {
            0 => Ok(made),
            4 => Err(CompileFault::Syntax { place: why.place }),
            5 => Err(CompileFault::Description {
                number: why.number,
                place: why.place,
            }),
            6 => Err(CompileFault::Conflict {
                number: why.number,
                node: why.place,
            }),
            7 => Err(CompileFault::TooLong),
            _ => Err(CompileFault::NoMemory),
        }
    }

    /// Whether a block has a tree, or why not.
    pub fn judge(&mut self, block: Block<'_>) -> Result<(), BlockFault> {
        let mut number = 0;
        let Block { octets, bits } = block;
        // SAFETY: as at `compile`.
        let status = unsafe {
            raw::csn_judge(
                &mut self.rule,
                octets.as_ptr(),
                octets.len(),
                bits,
                &mut number,
            )
        };
        block_result(status, number)
    }

    /// The events of a block, also of one that has no tree: then those before its place.
    pub fn events(&mut self, block: Block<'_>) -> Result<Events<'_>, BlockFault> {
        let (mut count, refused) = self.tell(block)?;
        if count > self.told.len() {
            self.told.resize(count, RawEvent::default());
            (count, _) = self.tell(block)?;
        }
        Ok(Events::new(&self.told[..count], refused))
    }

    /// How many events a block has, of which the first stand in the room for them; and where it is refused, if it is.
    fn tell(&mut self, block: Block<'_>) -> Result<(usize, Option<usize>), BlockFault> {
        let Block { octets, bits } = block;
        let (mut count, mut number) = (0, 0);
        // SAFETY: as at `compile`.
        let status = unsafe {
            raw::csn_tell(
                &mut self.rule,
                octets.as_ptr(),
                octets.len(),
                bits,
                self.told.as_mut_ptr(),
                self.told.len(),
                &mut count,
                &mut number,
            )
        };
        match block_result(status, number) {
            Ok(()) => Ok((count, None)),
            Err(BlockFault::Refused { place }) => Ok((count, Some(place))),
            Err(fault) => Err(fault),
        }
    }

    /// The tree of a block in a form.
    pub fn show(&mut self, block: Block<'_>, form: Form) -> Result<&str, BlockFault> {
        let Block { octets, bits } = block;
        let (status, number) = self.with_room(
            |number| number,
            |rule, room, number| {
                // SAFETY: as at `compile`.
                unsafe {
                    raw::csn_show(
                        rule,
                        octets.as_ptr(),
                        octets.len(),
                        bits,
                        form as u32,
                        room.as_mut_ptr(),
                        room.len(),
                        number,
                    )
                }
            },
        );
        block_result(status, number)?;
        Ok(std::str::from_utf8(&self.room[..number]).expect("the text of a tree is ASCII"))
    }

    /// The octets and the number of bits of the block that has a tree, given in a form.
    pub fn write(
        &mut self,
        tree: impl AsRef<[u8]>,
        form: Form,
    ) -> Result<(Vec<u8>, usize), TreeFault> {
        let tree = tree.as_ref();
        let (status, number) = self.with_room(
            |bits| bits.div_ceil(8),
            |rule, room, number| {
                // SAFETY: as at `compile`.
                unsafe {
                    raw::csn_write(
                        rule,
                        tree.as_ptr(),
                        tree.len(),
                        form as u32,
                        room.as_mut_ptr(),
                        room.len(),
                        number,
                    )
                }
            },
        );
        match status {
            0 => Ok((self.room[..number.div_ceil(8)].to_vec(), number)),
            7 => Err(TreeFault::TooLong),
            9 => Err(TreeFault::NoBlock {
                why: Misfit::of(number),
                path: self.misfit(tree, form),
            }),
            11 => Err(TreeFault::NoText { place: number }),
            12 => Err(TreeFault::NoJson),
            13 => Err(TreeFault::NoTree),
            _ => Err(TreeFault::NoMemory),
        }
    }

    /// The path of the first misfit of a tree that has no block. It has at most 64 steps.
    fn misfit(&mut self, tree: &[u8], form: Form) -> Vec<u32> {
        let (mut path, mut count, mut number) = (vec![0; 64], 0, 0);
        // SAFETY: as at `compile`.
        unsafe {
            raw::csn_misfit(
                &mut self.rule,
                tree.as_ptr(),
                tree.len(),
                form as u32,
                path.as_mut_ptr(),
                path.len(),
                &mut count,
                &mut number,
            )
        };
        path.truncate(count);
        path
    }

    /// The handle.
    pub(crate) fn raw(&mut self) -> &mut RawRule {
        &mut self.rule
    }

    /// How many nodes the rule has.
    pub fn nodes(&mut self) -> u32 {
        // SAFETY: as at `compile`.
        unsafe { raw::csn_nodes(&mut self.rule) }
    }

    /// The label of a node, counted from 0, where it has one.
    pub fn label(&mut self, node: u32) -> Option<&str> {
        let (status, number) = self.with_room(
            |number| number,
            |rule, room, number| {
                // SAFETY: as at `compile`.
                unsafe { raw::csn_label(rule, node, room.as_mut_ptr(), room.len(), number) }
            },
        );
        if status != 0 {
            return None;
        }
        Some(std::str::from_utf8(&self.room[..number]).expect("a label is ASCII"))
    }

    /// Makes a call, and once more where the room was too small for the octets that it gives.
    fn with_room(
        &mut self,
        octets_in: impl Fn(usize) -> usize,
        call: impl Fn(&mut RawRule, &mut [u8], &mut usize) -> u32,
    ) -> (u32, usize) {
        let mut number = 0;
        let mut status = call(&mut self.rule, &mut self.room, &mut number);
        if status == 0 && octets_in(number) > self.room.len() {
            self.room.resize(octets_in(number), 0);
            status = call(&mut self.rule, &mut self.room, &mut number);
        }
        (status, number)
    }
}

fn block_result(status: u32, number: usize) -> Result<(), BlockFault> {
    match status {
        0 => Ok(()),
        3 | 7 => Err(BlockFault::NoBlock),
        8 => Err(BlockFault::Refused { place: number }),
        _ => Err(BlockFault::NoMemory),
    }
}

/// The version of the library.
pub fn version() -> u32 {
    // SAFETY: the call takes nothing.
    unsafe { raw::csn_version() }
}
