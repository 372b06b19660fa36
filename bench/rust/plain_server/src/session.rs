//! One client's session: the rules of the channel, and what the topics that it is in have for it.

use crate::message::{closed, decode, quoted, Message, Refusal};
use crate::rows::{state_text, state_value, Row};
use crate::shard::{Item, Owner, Shard, Subscription, Taken};
use serde_json::{json, Value};
use shared::frame::{put_frame, TEXT};
use std::sync::{Arc, Mutex, MutexGuard};

/// Topics that a client is in at most.
const MOST_TOPICS: usize = 64;
/// Items of a topic that a client takes at once.
const AT_ONCE: usize = 256;
/// Topics that clients may join begin so.
const ROUTE: &str = "room:";
const BAD_PAYLOAD: &str = "bad payload";
const UNMATCHED: &str = "unmatched topic";

/// The shards, over which topics are spread.
pub struct Pool {
    shards: Vec<Mutex<Shard>>,
    renders_once: bool,
}

impl Pool {
    pub fn new(shards: usize, renders_once: bool) -> Pool {
        Pool { shards: (0..shards).map(|_| Mutex::new(Shard::new("a.1.", renders_once))).collect(), renders_once }
    }

    fn shard(&self, topic: &str) -> MutexGuard<'_, Shard> {
        let sum: usize = topic.bytes().map(usize::from).sum();
        self.shards[sum % self.shards.len()].lock().expect("no thread ends with a shard in its hands")
    }
}

/// What a step leaves behind: frames for the client itself, and the connections that have something new.
pub struct Effects<'a> {
    pub output: &'a mut Vec<u8>,
    pub woken: &'a mut Vec<Owner>,
}

impl Effects<'_> {
    fn text(&mut self, text: &str) {
        put_text(self.output, text);
    }
}

/// A topic that the client is in.
struct Joined {
    topic: String,
    join_ref: Value,
    subscription: Subscription,
}

pub struct Session {
    number: u64,
    owner: Owner,
    joined: Vec<Joined>,
}

impl Session {
    pub fn new(number: u64, owner: Owner) -> Session {
        Session { number, owner, joined: vec![] }
    }

    /// Serves one message.
    pub fn serve(&mut self, pool: &Pool, text: &str, effects: &mut Effects) -> Result<(), Refusal> {
        let message = decode(text)?;
        let place = self.joined.iter().position(|it| it.topic == message.topic);
        match (message.event.as_str(), place) {
            ("heartbeat", _) if message.topic == "phoenix" => {
                effects.text(&message.answered(&Value::Null, Ok(json!({}))));
            }
            ("phx_join", _) => self.join(pool, message, place, effects),
            ("phx_leave", None) => effects.text(&message.answered(&message.join_ref, Ok(json!({})))),
            ("phx_leave", Some(place)) => {
                let left = self.leave(pool, place, effects);
                effects.text(&message.answered(&left.join_ref, Ok(json!({}))));
                effects.text(&closed(&left.join_ref, &left.topic));
            }
            (_, None) => effects.text(&message.answered(&message.join_ref, Err(UNMATCHED))),
            (_, Some(place)) => self.event(pool, message, place, effects),
        }
        Ok(())
    }

    fn join(&mut self, pool: &Pool, mut message: Message, place: Option<usize>, effects: &mut Effects) {
        if !message.topic.starts_with(ROUTE) {
            return effects.text(&message.answered(&message.join_ref, Err(UNMATCHED)));
        }
        if let Some(place) = place {
            let left = self.leave(pool, place, effects);
            effects.text(&closed(&left.join_ref, &left.topic));
        }
        let join_ref = match message.join_ref.take() {
            Value::Null => message.reference.clone(),
            given => given,
        };
        match self.subscribed(pool, &message, effects) {
            Ok((response, subscription)) => {
                effects.text(&message.answered(&join_ref, Ok(response)));
                self.joined.push(Joined { topic: message.topic, join_ref, subscription });
            }
            Err(reason) => effects.text(&message.answered(&join_ref, Err(reason))),
        }
    }

    /// Tracks the client, where it says a key, and subscribes it: the response, or why not.
    fn subscribed(
        &self,
        pool: &Pool,
        message: &Message,
        effects: &mut Effects,
    ) -> Result<(Value, Subscription), &'static str> {
        let presence = match message.payload.get("key") {
            None => None,
            Some(_) => Some(message.key().zip(message.meta()).ok_or(BAD_PAYLOAD)?),
        };
        if self.joined.len() == MOST_TOPICS {
            return Err("too many topics");
        }
        let mut shard = pool.shard(&message.topic);
        let response = match presence {
            None => json!({}),
            Some((key, meta)) => {
                let count = shard.track(self.number, &message.topic, key, meta)?;
                referred(&shard, count)
            }
        };
        let subscription = shard.subscribe(&message.topic, self.owner);
        effects.woken.append(&mut shard.woken);
        Ok((response, subscription))
    }

    fn leave(&mut self, pool: &Pool, place: usize, effects: &mut Effects) -> Joined {
        let left = self.joined.remove(place);
        let mut shard = pool.shard(&left.topic);
        shard.unsubscribe(&left.topic, left.subscription);
        shard.untrack_all(self.number, &left.topic);
        effects.woken.append(&mut shard.woken);
        left
    }

    /// Leaves all topics.
    pub fn end(&mut self, pool: &Pool, effects: &mut Effects) {
        while !self.joined.is_empty() {
            self.leave(pool, 0, effects);
        }
    }

    /// Serves an event of a topic that the client is in.
    fn event(&mut self, pool: &Pool, mut message: Message, place: usize, effects: &mut Effects) {
        let join_ref = &self.joined[place].join_ref;
        let outcome = match message.event.as_str() {
            "ping" => Ok(message.payload.take()),
            "shout" => {
                let mut shard = pool.shard(&message.topic);
                shard.shout(&message.topic, message.payload.take());
                return effects.woken.append(&mut shard.woken);
            }
            "track" | "update" | "untrack" => self.change(pool, &message, effects),
            "list" => {
                let shard = pool.shard(&message.topic);
                let (rows, origin) = (shard.list(&message.topic), shard.origin.clone());
                drop(shard);
                return effects.text(&shown(pool, join_ref, &message, &rows, &origin));
            }
            "get" => match message.key() {
                Some(key) => {
                    let shard = pool.shard(&message.topic);
                    let (rows, origin) = (shard.get(&message.topic, key), shard.origin.clone());
                    drop(shard);
                    return effects.text(&shown(pool, join_ref, &message, &rows, &origin));
                }
                None => Err(BAD_PAYLOAD),
            },
            _ => Err("unknown event"),
        };
        effects.text(&message.answered(join_ref, outcome));
    }

    /// Changes the client's own presences.
    fn change(&self, pool: &Pool, message: &Message, effects: &mut Effects) -> Result<Value, &'static str> {
        let key = message.key().ok_or(BAD_PAYLOAD)?;
        let mut shard = pool.shard(&message.topic);
        let count = match message.event.as_str() {
            "track" => shard.track(self.number, &message.topic, key, message.meta().ok_or(BAD_PAYLOAD)?),
            "update" => shard.update(self.number, &message.topic, key, message.meta().ok_or(BAD_PAYLOAD)?),
            _ => {
                shard.untrack(self.number, &message.topic, key);
                effects.woken.append(&mut shard.woken);
                return Ok(json!({}));
            }
        };
        effects.woken.append(&mut shard.woken);
        Ok(referred(&shard, count?))
    }

    /// Writes what waits in each topic that the client is in. Whether that was anything.
    pub fn deliver(&self, pool: &Pool, output: &mut Vec<u8>) -> bool {
        let mut has_any = false;
        for joined in &self.joined {
            let mut shard = pool.shard(&joined.topic);
            let taken = match shard.take(&joined.topic, joined.subscription, AT_ONCE) {
                Taken::Nothing => continue,
                taken => taken,
            };
            let origin = shard.origin.clone();
            drop(shard);
            has_any = true;
            joined.put(pool, taken, &origin, output);
        }
        has_any
    }
}

impl Joined {
    /// Writes what was taken, rendering it for this client alone where it isn't rendered once for all.
    fn put(&self, pool: &Pool, taken: Taken, origin: &str, output: &mut Vec<u8>) {
        let topic = &self.topic;
        match taken {
            Taken::Nothing => {}
            Taken::State(rows) if pool.renders_once => {
                let (join_ref, topic, state) = (&self.join_ref, quoted(topic), state_text(&rows));
                put_text(output, &format!("[{join_ref},null,{topic},\"presence_state\",{state}]"));
            }
            Taken::State(rows) => {
                put_value(output, &json!([self.join_ref, null, topic, "presence_state", state_value(origin, &rows)]));
            }
            Taken::Items(items) => {
                for item in items {
                    match item {
                        Item::Frame(frame) => output.extend_from_slice(&frame),
                        Item::Shout(payload) => put_value(output, &json!([null, null, topic, "shout", *payload])),
                        Item::Diff(diff) => {
                            let (joins, leaves) = (&diff.joins, &diff.leaves);
                            put_value(
                                output,
                                &json!([null, null, topic, "presence_diff",
                                {"joins": state_value(origin, joins), "leaves": state_value(origin, leaves)}]),
                            );
                        }
                    }
                }
            }
        }
    }
}

fn put_text(output: &mut Vec<u8>, text: &str) {
    put_frame(output, TEXT, text.as_bytes());
}

fn put_value(output: &mut Vec<u8>, message: &Value) {
    put_text(output, &message.to_string());
}

/// The reply that shows rows.
fn shown(pool: &Pool, join_ref: &Value, message: &Message, rows: &[Arc<Row>], origin: &str) -> String {
    if !pool.renders_once {
        return message.answered(join_ref, Ok(state_value(origin, rows)));
    }
    format!(
        "[{join_ref},{},{},\"phx_reply\",{{\"response\":{},\"status\":\"ok\"}}]",
        message.reference,
        quoted(&message.topic),
        state_text(rows)
    )
}

/// The reference of a row, as its client is told it.
fn referred(shard: &Shard, count: u64) -> Value {
    json!({ "phx_ref": format!("{}{count}", shard.origin) })
}
