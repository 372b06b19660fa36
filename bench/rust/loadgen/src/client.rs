//! One client: its WebSocket, its buffers, and the list that it has folded.

use crate::fold::Fold;
use crate::options::Options;
use shared::frame::{next_frame, put_masked_frame, BadFrame, Writer, PONG, TEXT};
use shared::handshake::{head_end, request};
use std::io::{Error, ErrorKind, Read, Result, Write};
use std::net::TcpStream;
use std::ops::Range;
use std::time::Duration;

/// Longer messages of the server are an error.
const LONGEST: usize = 1 << 25;
/// Bytes that were read, from so many on, are let go.
const KEPT: usize = 128 << 10;

pub struct Client {
    pub id: u64,
    pub room: usize,
    pub stream: TcpStream,
    pub fold: Fold,
    pub joined: bool,
    /// Whether its connection is over.
    pub gone: bool,
    pub input: Vec<u8>,
    /// So many bytes of `input` have been read as messages.
    taken: usize,
    output: Vec<u8>,
    /// So many bytes of `output` have been written.
    written: usize,
    /// Whether it is watched for when it can be written to.
    pub waits_for_room: bool,
}

impl Client {
    pub fn connect(options: &Options, id: u64, room: usize) -> Result<Client> {
        let mut stream = TcpStream::connect(("127.0.0.1", options.port))?;
        stream.set_nodelay(true)?;
        stream.set_read_timeout(Some(Duration::from_secs_f64(options.timeout)))?;
        stream.write_all(request(options.port).as_bytes())?;
        let (input, taken) = upgraded(&mut stream)?;
        stream.set_nonblocking(true)?;
        Ok(Client {
            id,
            room,
            stream,
            fold: Fold::default(),
            joined: false,
            gone: false,
            input,
            taken,
            output: vec![],
            written: 0,
            waits_for_room: false,
        })
    }

    /// Keeps a message until `flush`.
    pub fn queue(&mut self, text: &str) {
        put_masked_frame(&mut self.output, TEXT, text.as_bytes());
    }

    pub fn queue_pong(&mut self, payload: Range<usize>) {
        put_masked_frame(&mut self.output, PONG, &self.input[payload]);
    }

    /// Writes what the system takes. Whether something is left that is to be written later.
    pub fn flush(&mut self) -> Result<bool> {
        while self.written < self.output.len() {
            match self.stream.write(&self.output[self.written..]) {
                Ok(count) => self.written += count,
                Err(error) if error.kind() == ErrorKind::WouldBlock => return Ok(true),
                Err(error) => return Err(error),
            }
        }
        self.output.clear();
        self.written = 0;
        Ok(false)
    }

    /// Reads once, and says how many bytes came; it is an error where the connection is over.
    pub fn fill(&mut self, scratch: &mut [u8]) -> Result<usize> {
        let count = match self.stream.read(scratch) {
            Ok(0) => return Err(ErrorKind::UnexpectedEof.into()),
            Err(error) if error.kind() == ErrorKind::WouldBlock => 0,
            other => other?,
        };
        if self.taken == self.input.len() {
            self.input.clear();
            self.taken = 0;
        }
        self.input.extend_from_slice(&scratch[..count]);
        Ok(count)
    }

    /// The next whole frame: its opcode, and where in `input` its payload is.
    pub fn next(&mut self) -> std::result::Result<Option<(u8, Range<usize>)>, BadFrame> {
        let frame = match next_frame(&mut self.input[self.taken..], Writer::Server, LONGEST)? {
            Some(frame) => frame,
            None => return Ok(None),
        };
        let payload = self.taken + frame.payload.start..self.taken + frame.payload.end;
        self.taken = payload.end;
        Ok(Some((frame.opcode, payload)))
    }

    /// Lets go of what was read, where that is much.
    pub fn tidy(&mut self) {
        if self.taken > KEPT {
            self.input.drain(..self.taken);
            self.taken = 0;
        }
    }
}

/// Reads the answer to the handshake: what came, and where that answer ends in it.
fn upgraded(stream: &mut TcpStream) -> Result<(Vec<u8>, usize)> {
    let (mut input, mut scratch) = (vec![], [0; 4096]);
    loop {
        if let Some(end) = head_end(&input) {
            if input.starts_with(b"HTTP/1.1 101") {
                return Ok((input, end));
            }
            return Err(Error::new(ErrorKind::Other, String::from_utf8_lossy(&input[..end]).into_owned()));
        }
        match stream.read(&mut scratch)? {
            0 => return Err(ErrorKind::UnexpectedEof.into()),
            count => input.extend_from_slice(&scratch[..count]),
        }
    }
}
