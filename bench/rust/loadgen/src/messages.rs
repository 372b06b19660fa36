//! What clients say to a server, and what they read from it: Phoenix Channels, version 2.0.0 of the serializer.
//!
//! The reference of a message tells its kind: 1 a join, 2 a leave, `p` and `l` in front of a number a call.

use crate::fold::Fold;

/// What a message that came told.
pub enum Event {
    Joined,
    Left,
    State,
    Diff,
    /// The number in a shout.
    Shout(u64),
    /// A ping was answered, the number being that in its reference.
    Pong(u64),
    /// A list was answered, with so many bytes.
    Listed(usize),
    Other,
    /// A refusal, or what is no message at all.
    Error,
}

/// A join, tracked under the number where there is one.
pub fn join(room: usize, number: Option<u64>) -> String {
    match number {
        Some(it) => format!(
            "[\"1\",\"1\",\"room:r{room}\",\"phx_join\",{{\"key\":\"u{it}\",\"meta\":{{\"n\":{it},\"s\":\"online\"}}}}]"
        ),
        None => format!("[\"1\",\"1\",\"room:r{room}\",\"phx_join\",{{}}]"),
    }
}

pub fn leave(room: usize) -> String {
    format!("[\"1\",\"2\",\"room:r{room}\",\"phx_leave\",{{}}]")
}

pub fn shout(room: usize, number: u64, padding: &str) -> String {
    format!("[\"1\",\"3\",\"room:r{room}\",\"shout\",{{\"s\":{number},\"b\":\"{padding}\"}}]")
}

pub fn ping(room: usize, number: u64) -> String {
    format!("[\"1\",\"p{number}\",\"room:r{room}\",\"ping\",{{\"t\":{number}}}]")
}

pub fn list(room: usize, number: u64) -> String {
    format!("[\"1\",\"l{number}\",\"room:r{room}\",\"list\",{{}}]")
}

/// Reads one message, and folds what it tells of presences.
pub fn read(text: &[u8], fold: &mut Fold) -> Event {
    let [_, reference, _, event, payload] = match parts(text) {
        Some(parts) => parts,
        None => return Event::Error,
    };
    match event {
        b"\"presence_diff\"" => fold.diff(payload).map_or(Event::Error, |()| Event::Diff),
        b"\"presence_state\"" => fold.state(payload).map_or(Event::Error, |()| Event::State),
        b"\"shout\"" => Event::Shout(number_behind(payload, b"\"s\":").unwrap_or(u64::MAX)),
        b"\"phx_reply\"" => reply(reference, payload),
        _ => Event::Other,
    }
}

fn reply(reference: &[u8], payload: &[u8]) -> Event {
    let is_ok = payload.ends_with(b"\"status\":\"ok\"}") || payload.starts_with(b"{\"status\":\"ok\"");
    match reference {
        _ if !is_ok => Event::Error,
        [b'"', b'1', ..] => Event::Joined,
        [b'"', b'2', ..] => Event::Left,
        [b'"', b'p', ..] => Event::Pong(number_behind(reference, b"p").unwrap_or(u64::MAX)),
        [b'"', b'l', ..] => Event::Listed(payload.len()),
        _ => Event::Other,
    }
}

/// Splits `[join_ref,ref,"topic","event",payload]` into its five texts, as they are written.
fn parts(text: &[u8]) -> Option<[&[u8]; 5]> {
    let mut rest = text.strip_prefix(b"[")?.strip_suffix(b"]")?;
    let mut found = [&b""[..]; 5];
    for part in found.iter_mut().take(4) {
        let end = part_end(rest)?;
        *part = &rest[..end];
        rest = rest[end..].strip_prefix(b",")?;
    }
    found[4] = rest;
    Some(found)
}

/// Where the string, number or null at the front ends.
fn part_end(text: &[u8]) -> Option<usize> {
    if text.first() != Some(&b'"') {
        return text.iter().position(|byte| *byte == b',');
    }
    let mut at = 1;
    while *text.get(at)? != b'"' {
        at += if text[at] == b'\\' { 2 } else { 1 };
    }
    Some(at + 1)
}

fn number_behind(text: &[u8], words: &[u8]) -> Option<u64> {
    let at = text.windows(words.len()).position(|window| window == words)? + words.len();
    let digits = text[at..].iter().take_while(|byte| byte.is_ascii_digit()).count();
    std::str::from_utf8(&text[at..at + digits]).ok()?.parse().ok()
}

#[cfg(test)]
mod tests {
    use super::*;

    fn told(text: &str) -> Event {
        read(text.as_bytes(), &mut Fold::default())
    }

    #[test]
    fn messages_are_told_apart() {
        let reply = |reference: &str, status: &str| {
            told(&format!(
                "[\"1\",\"{reference}\",\"room:r0\",\"phx_reply\",{{\"response\":{{}},\"status\":\"{status}\"}}]"
            ))
        };
        assert!(matches!(reply("1", "ok"), Event::Joined));
        assert!(matches!(reply("2", "ok"), Event::Left));
        assert!(matches!(reply("p17", "ok"), Event::Pong(17)));
        assert!(matches!(reply("l3", "ok"), Event::Listed(29)));
        assert!(matches!(reply("p17", "error"), Event::Error));
        assert!(matches!(told("[null,null,\"a\\\"b\",\"shout\",{\"b\":\"x\",\"s\":40}]"), Event::Shout(40)));
        assert!(matches!(told("[null,null,\"t\",\"presence_diff\",{}]"), Event::Error));
        assert!(matches!(told("[1,2"), Event::Error));
    }
}
