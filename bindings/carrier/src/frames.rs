//! Frames between the carrier and the program: connection, kind and length, then so many bytes.

use std::io::{Error, ErrorKind, Result};
use tokio::io::{AsyncRead, AsyncReadExt};

/// The most bytes that one frame carries.
pub const LONGEST: usize = 65536;

/// What a frame says. To the program: all but that `ENDED` means that the peer sends no more, or is gone. From the program: `DATA`,
/// and `ENDED`, which closes the connection after what was sent.
pub const OPENED: u8 = 1;
pub const DATA: u8 = 2;
pub const ENDED: u8 = 3;
pub const STOP: u8 = 4;

/// One frame.
pub struct Frame {
    pub connection: u32,
    pub kind: u8,
    pub bytes: Vec<u8>,
}

impl Frame {
    /// A frame that carries nothing.
    pub fn bare(connection: u32, kind: u8) -> Frame {
        Frame { connection, kind, bytes: Vec::new() }
    }

    /// What stands before the bytes.
    pub fn head(&self) -> [u8; 9] {
        let mut head = [0; 9];
        head[..4].copy_from_slice(&self.connection.to_le_bytes());
        head[4] = self.kind;
        head[5..].copy_from_slice(&(self.bytes.len() as u32).to_le_bytes());
        head
    }
}

/// Reads a frame from the program; none where its output has ended between two frames.
pub async fn read_frame<R: AsyncRead + Unpin>(input: &mut R) -> Result<Option<Frame>> {
    let mut head = [0; 9];
    if input.read(&mut head[..1]).await? == 0 {
        return Ok(None);
    }
    input.read_exact(&mut head[1..]).await?;
    let connection = u32::from_le_bytes([head[0], head[1], head[2], head[3]]);
    let length = u32::from_le_bytes([head[5], head[6], head[7], head[8]]) as usize;
    let kind = head[4];
    if kind != DATA && kind != ENDED || length > LONGEST {
        return Err(Error::new(ErrorKind::InvalidData, format!("the program sent a frame of kind {kind} with {length} bytes")));
    }
    let mut bytes = vec![0; length];
    input.read_exact(&mut bytes).await?;
    Ok(Some(Frame { connection, kind, bytes }))
}
