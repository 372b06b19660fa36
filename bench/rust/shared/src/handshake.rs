//! The opening handshake of a WebSocket, on both sides.

use sha1::{Digest, Sha1};

/// What RFC 6455 puts behind a client's key before it is hashed.
const MAGIC: &[u8] = b"258EAFA5-E914-47DA-95CA-C5AB0DC85B11";

/// Where the HTTP head ends, if all of it is there.
pub fn head_end(buffer: &[u8]) -> Option<usize> {
    buffer.windows(4).position(|window| window == b"\r\n\r\n").map(|at| at + 4)
}

/// A client's request for a Phoenix socket.
pub fn request(port: u16) -> String {
    format!(
        "GET /socket/websocket?vsn=2.0.0 HTTP/1.1\r\nHost: 127.0.0.1:{port}\r\nUpgrade: websocket\r\n\
         Connection: Upgrade\r\nSec-WebSocket-Key: dGhlIHNhbXBsZSBub25jZQ==\r\nSec-WebSocket-Version: 13\r\n\r\n"
    )
}

/// A server's answer to the head of a request, where that asks for a WebSocket.
pub fn response(head: &str) -> Option<String> {
    let first = head.split("\r\n").next()?;
    let has = |name: &str, word: &str| {
        header(head, name).map_or(false, |value| value.split(',').any(|it| it.trim().eq_ignore_ascii_case(word)))
    };
    let is_asked = first.starts_with("GET ")
        && first.ends_with("HTTP/1.1")
        && has("upgrade", "websocket")
        && has("connection", "upgrade")
        && header(head, "sec-websocket-version") == Some("13");
    let key = header(head, "sec-websocket-key").filter(|_| is_asked)?;
    Some(format!(
        "HTTP/1.1 101 Switching Protocols\r\nUpgrade: websocket\r\nConnection: Upgrade\r\n\
         Sec-WebSocket-Accept: {}\r\n\r\n",
        accepted(key)
    ))
}

fn header<'a>(head: &'a str, name: &str) -> Option<&'a str> {
    head.split("\r\n").skip(1).find_map(|line| {
        let (found, value) = line.split_once(':')?;
        found.trim().eq_ignore_ascii_case(name).then(|| value.trim())
    })
}

fn accepted(key: &str) -> String {
    let mut hash = Sha1::new();
    hash.update(key.as_bytes());
    hash.update(MAGIC);
    base64::encode(hash.finalize())
}

#[cfg(test)]
mod tests {
    use super::*;

    #[test]
    fn a_request_is_answered() {
        let answer = response(request(4000).trim_end()).unwrap();
        assert!(answer.contains("Sec-WebSocket-Accept: s3pPLMBiTxaQ9kYGzzhZRbK+xOo=\r\n"));
    }

    #[test]
    fn another_one_is_not() {
        assert_eq!(response("GET / HTTP/1.1\r\nHost: here"), None);
        assert_eq!(response(&request(4000).replace("GET", "POST")), None);
    }
}
