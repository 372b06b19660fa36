//! Messages of clients, checked as presence_node checks them, and the texts that answer them.

use serde_json::{json, Map, Value};

/// Bytes of a message.
pub const LONGEST: usize = 65536;
const LONGEST_NAME: usize = 255;
const LONGEST_EVENT: usize = 64;
/// Arrays and objects in one another: in a payload, and in a meta.
const DEEPEST: usize = 64;
const DEEPEST_META: usize = 32;
/// Bytes of a meta, as it is written.
const LONGEST_META: usize = 16384;

/// A message that ends the connection.
pub enum Refusal {
    TooLong,
    Malformed,
}

impl Refusal {
    pub fn close_code(&self) -> u16 {
        match self {
            Refusal::TooLong => 1009,
            Refusal::Malformed => 1008,
        }
    }
}

pub struct Message {
    pub join_ref: Value,
    pub reference: Value,
    pub topic: String,
    pub event: String,
    pub payload: Value,
}

pub fn decode(text: &str) -> Result<Message, Refusal> {
    if text.len() > LONGEST {
        return Err(Refusal::TooLong);
    }
    let parts: Vec<Value> = serde_json::from_str(text).map_err(|_| Refusal::Malformed)?;
    let [join_ref, reference, topic, event, payload] = <[Value; 5]>::try_from(parts).map_err(|_| Refusal::Malformed)?;
    let topic = name(topic, LONGEST_NAME)?;
    let event = name(event, LONGEST_EVENT)?;
    if is_reference(&join_ref) && is_reference(&reference) && !is_deeper(&payload, DEEPEST) && !has_fraction(&payload) {
        Ok(Message { join_ref, reference, topic, event, payload })
    } else {
        Err(Refusal::Malformed)
    }
}

fn name(value: Value, longest: usize) -> Result<String, Refusal> {
    match value {
        Value::String(name) if (1..=longest).contains(&name.len()) => Ok(name),
        _ => Err(Refusal::Malformed),
    }
}

fn is_reference(value: &Value) -> bool {
    value.is_null() || value.is_string() || value.is_u64()
}

fn is_deeper(value: &Value, most: usize) -> bool {
    match value {
        Value::Array(items) => most == 0 || items.iter().any(|it| is_deeper(it, most - 1)),
        Value::Object(members) => most == 0 || members.values().any(|it| is_deeper(it, most - 1)),
        _ => false,
    }
}

fn has_fraction(value: &Value) -> bool {
    match value {
        Value::Array(items) => items.iter().any(has_fraction),
        Value::Object(members) => members.values().any(has_fraction),
        Value::Number(number) => !(number.is_i64() || number.is_u64()),
        _ => false,
    }
}

impl Message {
    /// The reply to it, of a topic that was joined under `join_ref`.
    pub fn answered(&self, join_ref: &Value, outcome: Result<Value, &str>) -> String {
        let (response, status) = match outcome {
            Ok(response) => (response, "ok"),
            Err(reason) => (json!({ "reason": reason }), "error"),
        };
        json!([join_ref, self.reference, self.topic, "phx_reply", {"response": response, "status": status}]).to_string()
    }

    pub fn key(&self) -> Option<&str> {
        let key = self.payload.get("key").and_then(Value::as_str);
        key.filter(|key| (1..=LONGEST_NAME).contains(&key.len()))
    }

    /// The meta that a presence is to have, without what the server puts into it.
    pub fn meta(&self) -> Option<Map<String, Value>> {
        let mut meta = match self.payload.get("meta") {
            None => return Some(Map::new()),
            Some(given) => given.as_object()?.clone(),
        };
        meta.remove("phx_ref");
        meta.remove("phx_ref_prev");
        let whole = Value::Object(meta);
        match whole {
            _ if is_deeper(&whole, DEEPEST_META) || whole.to_string().len() > LONGEST_META => None,
            Value::Object(meta) => Some(meta),
            _ => None,
        }
    }
}

/// What a client is told of a topic that it is no longer in.
pub fn closed(join_ref: &Value, topic: &str) -> String {
    json!([join_ref, join_ref, topic, "phx_close", {}]).to_string()
}

/// A text in quotes.
pub fn quoted(text: &str) -> String {
    serde_json::to_string(text).expect("each text can be written")
}
