//! Blocks that come in pieces.
use crate::raw::{self, RawStream};
use crate::{block_result, Block, BlockFault, Description};

/// Judges blocks of a rule that come in pieces.
///
/// ```
/// use nambroit::{Block, BlockFault, Description, Reading, Stream};
/// # fn main() -> Result<(), Box<dyn std::error::Error>> {
/// let rule = Description::compile("<M> ::= <A : bit (3)> 0 <B : bit (4)> ;", "M", Reading::Received)?;
/// let mut stream = Stream::new(rule)?;
/// stream.push(Block { octets: &[0xA0], bits: 3 })?;
/// assert_eq!(stream.push(Block { octets: &[0x80], bits: 1 }), Err(BlockFault::Refused { place: 3 }));
/// # Ok(())
/// # }
/// ```
pub struct Stream {
    stream: RawStream,
}

// SAFETY: what the handle owns is plain data, which no other value shares.
unsafe impl Send for Stream {}

impl Drop for Stream {
    fn drop(&mut self) {
        // SAFETY: the handle is as the last call left it, and is used no more.
        unsafe { raw::csn_stream_free(&mut self.stream) }
    }
}

impl Stream {
    /// No bits so far, by a rule. There may be no memory for it.
    pub fn new(mut rule: Description) -> Result<Stream, BlockFault> {
        let mut made = Stream {
            stream: RawStream::EMPTY,
        };
        // SAFETY: both handles are as the last calls left them.
        let status = unsafe { raw::csn_stream_open(rule.raw(), &mut made.stream) };
        block_result(status, 0).map(|()| made)
    }

    /// Forgets the block, of which some bits may have come.
    pub fn begin(&mut self) {
        // SAFETY: the handle is as the last call left it. So at each call below.
        unsafe { raw::csn_stream_begin(&mut self.stream) };
    }

    /// The next bits of the block.
    pub fn push(&mut self, piece: Block<'_>) -> Result<(), BlockFault> {
        let Block { octets, bits } = piece;
        let mut number = 0;
        // SAFETY: as at `begin`, and the octets are borrowed for the call.
        let status = unsafe {
            raw::csn_stream_push(
                &mut self.stream,
                octets.as_ptr(),
                octets.len(),
                bits,
                &mut number,
            )
        };
        block_result(status, number)
    }

    /// The block has ended: whether it has a tree. Another begins.
    pub fn end(&mut self) -> Result<(), BlockFault> {
        let mut number = 0;
        // SAFETY: as at `begin`.
        let status = unsafe { raw::csn_stream_end(&mut self.stream, &mut number) };
        block_result(status, number)
    }
}
