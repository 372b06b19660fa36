//! One connection: its socket, its buffers, and the frames of its client, up to the messages of the session.

use crate::message::LONGEST;
use crate::session::{Effects, Pool, Session};
use crate::shard::Owner;
use shared::frame::{self, next_frame, put_close, put_frame, BadFrame, Frame, Writer};
use shared::handshake::{head_end, response};
use std::io::{ErrorKind, Read, Write};
use std::net::{Shutdown, TcpStream};
use std::ops::Range;
use std::time::{Duration, Instant};

/// Bytes that wait to be written at most: with more the connection ends.
const MOST_OUTPUT: usize = 17 << 20;
/// With more than so many nothing is delivered until some are written.
const MUCH_OUTPUT: usize = 256 << 10;
/// A buffer of output that is larger is let go once it is empty, down to so many bytes.
const LARGE_OUTPUT: usize = 1 << 20;
const SMALL_OUTPUT: usize = 4096;
/// Bytes of input that were read, from so many on, are let go.
const KEPT_INPUT: usize = 64 << 10;
const LONGEST_HEAD: usize = 16384;
/// A connection that says nothing for so long is closed.
const IDLE: Duration = Duration::from_secs(60);
const BAD_REQUEST: &[u8] = b"HTTP/1.1 400 Bad Request\r\nContent-Length: 0\r\nConnection: close\r\n\r\n";

#[derive(PartialEq, Clone, Copy)]
enum Phase {
    Handshake,
    Open,
    Closing,
}

/// The connection is over.
pub struct Gone;

pub struct Connection {
    pub stream: TcpStream,
    input: Vec<u8>,
    /// So many bytes of `input` have been served.
    served: usize,
    /// The opcode and payload of a message whose last frame hasn't come.
    fragments: Option<(u8, Vec<u8>)>,
    output: Vec<u8>,
    /// So many bytes of `output` have been written.
    written: usize,
    phase: Phase,
    last_heard: Instant,
    session: Session,
    /// Whether it is watched for when it can be written to.
    pub waits_for_room: bool,
}

impl Connection {
    pub fn new(stream: TcpStream, number: u64, owner: Owner) -> std::io::Result<Connection> {
        stream.set_nonblocking(true)?;
        stream.set_nodelay(true)?;
        Ok(Connection {
            stream,
            input: vec![],
            served: 0,
            fragments: None,
            output: vec![],
            written: 0,
            phase: Phase::Handshake,
            last_heard: Instant::now(),
            session: Session::new(number, owner),
            waits_for_room: false,
        })
    }

    pub fn has_input(&self) -> bool {
        self.served < self.input.len()
    }

    pub fn has_output(&self) -> bool {
        !self.output.is_empty()
    }

    pub fn is_closing(&self) -> bool {
        self.phase == Phase::Closing
    }

    /// Reads once. Whether bytes came.
    pub fn fill(&mut self, scratch: &mut [u8]) -> Result<bool, Gone> {
        let count = match self.stream.read(scratch) {
            Ok(0) => return Err(Gone),
            Ok(count) => count,
            Err(error) if matches!(error.kind(), ErrorKind::WouldBlock | ErrorKind::Interrupted) => return Ok(false),
            Err(_) => return Err(Gone),
        };
        if self.served == self.input.len() || self.served > KEPT_INPUT {
            self.input.drain(..self.served);
            self.served = 0;
        }
        self.input.extend_from_slice(&scratch[..count]);
        Ok(true)
    }

    /// Writes what the system takes.
    pub fn flush(&mut self) -> Result<(), Gone> {
        while self.written < self.output.len() {
            match self.stream.write(&self.output[self.written..]) {
                Ok(0) => return Err(Gone),
                Ok(count) => self.written += count,
                Err(error) if error.kind() == ErrorKind::WouldBlock => break,
                Err(error) if error.kind() == ErrorKind::Interrupted => {}
                Err(_) => return Err(Gone),
            }
        }
        if self.written < self.output.len() {
            return if self.output.len() - self.written > MOST_OUTPUT { Err(Gone) } else { Ok(()) };
        }
        self.output.clear();
        self.written = 0;
        if self.output.capacity() > LARGE_OUTPUT {
            self.output.shrink_to(SMALL_OUTPUT);
        }
        if self.is_closing() {
            let _ = self.stream.shutdown(Shutdown::Write);
            return Err(Gone);
        }
        Ok(())
    }

    fn close(&mut self, code: u16) {
        put_close(&mut self.output, code);
        self.phase = Phase::Closing;
    }

    /// Closes a connection that has been silent for too long. Whether it did.
    pub fn close_idle(&mut self) -> bool {
        let is_idle = !self.is_closing() && self.last_heard.elapsed() > IDLE;
        if is_idle {
            self.close(1000);
        }
        is_idle
    }

    /// Serves the handshake or the frame at the front of the input. Whether one was there.
    pub fn serve(&mut self, pool: &Pool, woken: &mut Vec<Owner>) -> Result<bool, Gone> {
        match self.phase {
            Phase::Closing => Ok(false),
            Phase::Handshake => self.shake_hands(),
            Phase::Open if !self.has_input() => Ok(false),
            Phase::Open => {
                match next_frame(&mut self.input[self.served..], Writer::Client, LONGEST) {
                    Ok(None) => return Ok(false),
                    Ok(Some(frame)) => self.take(frame, pool, woken),
                    Err(BadFrame::Protocol) => self.close(1002),
                    Err(BadFrame::TooBig) => self.close(1009),
                }
                Ok(true)
            }
        }
    }

    fn shake_hands(&mut self) -> Result<bool, Gone> {
        let end = match head_end(&self.input) {
            Some(end) => end,
            None if self.input.len() > LONGEST_HEAD => return Err(Gone),
            None => return Ok(false),
        };
        self.served = end;
        match response(&String::from_utf8_lossy(&self.input[..end - 4])) {
            Some(answer) => {
                self.output.extend_from_slice(answer.as_bytes());
                self.phase = Phase::Open;
                self.last_heard = Instant::now();
            }
            None => {
                self.output.extend_from_slice(BAD_REQUEST);
                self.phase = Phase::Closing;
            }
        }
        Ok(true)
    }

    /// Serves a frame, whose place is counted from what was served.
    fn take(&mut self, frame: Frame, pool: &Pool, woken: &mut Vec<Owner>) {
        let payload = self.served + frame.payload.start..self.served + frame.payload.end;
        self.served = payload.end;
        self.last_heard = Instant::now();
        match (frame.opcode, self.fragments.take()) {
            (frame::PING, fragments) => {
                put_frame(&mut self.output, frame::PONG, &self.input[payload]);
                self.fragments = fragments;
            }
            (frame::PONG, fragments) => self.fragments = fragments,
            (frame::CLOSE, _) => self.answer_close(payload),
            (frame::TEXT, None) if frame.is_last => {
                let input = std::mem::take(&mut self.input);
                self.text(&input[payload], pool, woken);
                self.input = input;
            }
            (frame::BINARY, None) if frame.is_last => self.close(1003),
            (frame::TEXT | frame::BINARY, None) => {
                self.fragments = Some((frame.opcode, self.input[payload].to_vec()));
            }
            (frame::CONTINUATION, Some((opcode, mut bytes))) => {
                bytes.extend_from_slice(&self.input[payload]);
                match opcode {
                    _ if bytes.len() > LONGEST => self.close(1009),
                    _ if !frame.is_last => self.fragments = Some((opcode, bytes)),
                    frame::TEXT => self.text(&bytes, pool, woken),
                    _ => self.close(1003),
                }
            }
            _ => self.close(1002),
        }
    }

    /// Answers the client's close with the same code, where that may be one.
    fn answer_close(&mut self, payload: Range<usize>) {
        match self.input[payload] {
            [] => {
                put_frame(&mut self.output, frame::CLOSE, &[]);
                self.phase = Phase::Closing;
            }
            [high, low, ref reason @ ..] => {
                let code = u16::from_be_bytes([high, low]);
                let is_good = frame::is_close_code(code) && std::str::from_utf8(reason).is_ok();
                self.close(if is_good { code } else { 1002 });
            }
            [_] => self.close(1002),
        }
    }

    fn text(&mut self, bytes: &[u8], pool: &Pool, woken: &mut Vec<Owner>) {
        let text = match std::str::from_utf8(bytes) {
            Ok(text) => text,
            Err(_) => return self.close(1007),
        };
        let mut effects = Effects { output: &mut self.output, woken };
        if let Err(refusal) = self.session.serve(pool, text, &mut effects) {
            self.close(refusal.close_code());
        }
    }

    /// Writes what waits for the client, unless much is to be written already. Whether anything did.
    pub fn deliver(&mut self, pool: &Pool) -> bool {
        let is_full = self.output.len() - self.written > MUCH_OUTPUT;
        self.phase == Phase::Open && !is_full && self.session.deliver(pool, &mut self.output)
    }

    /// Leaves all topics.
    pub fn end(mut self, pool: &Pool, woken: &mut Vec<Owner>) {
        self.session.end(pool, &mut Effects { output: &mut self.output, woken });
    }
}
