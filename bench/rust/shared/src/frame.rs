//! WebSocket frames (RFC 6455): read in place at the front of a buffer, and appended to one.

use std::ops::Range;

pub const CONTINUATION: u8 = 0;
pub const TEXT: u8 = 1;
pub const BINARY: u8 = 2;
pub const CLOSE: u8 = 8;
pub const PING: u8 = 9;
pub const PONG: u8 = 10;

const LAST: u8 = 0x80;
const RESERVED: u8 = 0x70;
const OPCODE: u8 = 0x0f;
const MASKED: u8 = 0x80;
const LENGTH: u8 = 0x7f;
/// Shorter lengths stand in the second byte itself; this one and the next say how many bytes of length follow.
const SHORT: u8 = 126;
/// No payload is longer, whatever the reader allows.
const LONGEST: u64 = 1 << 32;
/// The key of every frame that `put_masked_frame` writes: it need not be a secret here.
const KEY: [u8; 4] = [0x5a, 0x17, 0xc3, 0x88];

/// Who wrote the frames that are read: a client masks its own, a server doesn't.
#[derive(Clone, Copy, PartialEq)]
pub enum Writer {
    Client,
    Server,
}

/// A frame that stands whole at the front of a buffer. Its payload ends where the frame does.
pub struct Frame {
    pub is_last: bool,
    pub opcode: u8,
    pub payload: Range<usize>,
}

#[derive(Debug, PartialEq)]
pub enum BadFrame {
    Protocol,
    TooBig,
}

/// Reads the frame at the front of `buffer`, and unmasks it in place. `None` where more bytes are needed.
pub fn next_frame(buffer: &mut [u8], writer: Writer, limit: usize) -> Result<Option<Frame>, BadFrame> {
    if buffer.len() < 2 {
        return Ok(None);
    }
    if !is_head_of(writer, buffer[0], buffer[1]) {
        return Err(BadFrame::Protocol);
    }
    let (length, mut start) = match length(buffer)? {
        Some((length, _)) if length > limit => return Err(BadFrame::TooBig),
        Some(found) => found,
        None => return Ok(None),
    };
    let mut key = [0; 4];
    if writer == Writer::Client {
        match buffer.get(start..start + 4) {
            Some(bytes) => key.copy_from_slice(bytes),
            None => return Ok(None),
        }
        start += 4;
    }
    let payload = start..start + length;
    if buffer.len() < payload.end {
        return Ok(None);
    }
    if writer == Writer::Client {
        for (at, byte) in buffer[payload.clone()].iter_mut().enumerate() {
            *byte ^= key[at & 3];
        }
    }
    Ok(Some(Frame { is_last: buffer[0] & LAST != 0, opcode: buffer[0] & OPCODE, payload }))
}

/// Whether a frame of the writer may begin with these two bytes.
fn is_head_of(writer: Writer, first: u8, second: u8) -> bool {
    let is_known = matches!(first & OPCODE, CONTINUATION..=BINARY | CLOSE..=PONG);
    let is_short = second & LENGTH < SHORT && first & LAST != 0;
    first & RESERVED == 0
        && is_known
        && (second & MASKED != 0) == (writer == Writer::Client)
        && (first & OPCODE < CLOSE || is_short)
}

/// The length of the payload, and where the head without a mask ends. `None` where more bytes are needed.
fn length(buffer: &[u8]) -> Result<Option<(usize, usize)>, BadFrame> {
    match buffer[1] & LENGTH {
        SHORT if buffer.len() < 4 => Ok(None),
        SHORT => Ok(Some((usize::from(u16::from_be_bytes([buffer[2], buffer[3]])), 4))),
        LENGTH if buffer.len() < 10 => Ok(None),
        LENGTH => {
            let mut bytes = [0; 8];
            bytes.copy_from_slice(&buffer[2..10]);
            match u64::from_be_bytes(bytes) {
                length if length >> 63 != 0 => Err(BadFrame::Protocol),
                length if length > LONGEST => Err(BadFrame::TooBig),
                length => Ok(Some((length as usize, 10))),
            }
        }
        short => Ok(Some((usize::from(short), 2))),
    }
}

/// Appends a server's frame.
pub fn put_frame(out: &mut Vec<u8>, opcode: u8, payload: &[u8]) {
    put_head(out, opcode, 0, payload.len());
    out.extend_from_slice(payload);
}

/// Appends a client's frame.
pub fn put_masked_frame(out: &mut Vec<u8>, opcode: u8, payload: &[u8]) {
    put_head(out, opcode, MASKED, payload.len());
    out.extend_from_slice(&KEY);
    out.extend(payload.iter().enumerate().map(|(at, byte)| byte ^ KEY[at & 3]));
}

fn put_head(out: &mut Vec<u8>, opcode: u8, mask: u8, length: usize) {
    out.push(LAST | opcode);
    if length < usize::from(SHORT) {
        out.push(mask | length as u8);
    } else if length < 65536 {
        out.push(mask | SHORT);
        out.extend_from_slice(&(length as u16).to_be_bytes());
    } else {
        out.push(mask | LENGTH);
        out.extend_from_slice(&(length as u64).to_be_bytes());
    }
}

/// Appends a server's close frame with a code.
pub fn put_close(out: &mut Vec<u8>, code: u16) {
    put_frame(out, CLOSE, &code.to_be_bytes());
}

/// Whether a client may close with the code.
pub fn is_close_code(code: u16) -> bool {
    matches!(code, 1000..=1003 | 1007..=1014 | 3000..=4999)
}

#[cfg(test)]
mod tests {
    use super::*;

    fn written(length: usize) -> Vec<u8> {
        let mut out = vec![];
        put_masked_frame(&mut out, TEXT, &vec![b'x'; length]);
        out
    }

    #[test]
    fn a_frame_is_read_as_it_was_written() {
        for length in [0, 1, 125, 126, 65535, 65536] {
            let mut buffer = written(length);
            let frame = next_frame(&mut buffer, Writer::Client, 1 << 20).unwrap().unwrap();
            assert!(frame.is_last && frame.opcode == TEXT && frame.payload.end == buffer.len());
            assert_eq!(buffer[frame.payload], vec![b'x'; length]);
        }
    }

    #[test]
    fn a_part_of_a_frame_is_waited_for() {
        let whole = written(126);
        for length in 0..whole.len() {
            assert!(next_frame(&mut whole[..length].to_vec(), Writer::Client, 1 << 20).unwrap().is_none());
        }
    }

    #[test]
    fn others_are_refused() {
        let refused = |bytes: &[u8], writer| next_frame(&mut bytes.to_vec(), writer, 125).err().unwrap();
        assert_eq!(refused(&written(1), Writer::Server), BadFrame::Protocol);
        assert_eq!(refused(&written(126), Writer::Client), BadFrame::TooBig);
        assert_eq!(refused(&[0x83, 0], Writer::Server), BadFrame::Protocol);
        assert_eq!(refused(&[0x09, 0], Writer::Server), BadFrame::Protocol);
    }
}
