//! One shard: its rows by topics, the subscribers of these, and what waits for each of them.

use crate::message::quoted;
use crate::rows::{Diff, Row};
use serde_json::{Map, Value};
use shared::frame::{put_frame, TEXT};
use std::collections::{BTreeMap, HashMap, VecDeque};
use std::sync::Arc;

/// Items that wait for a subscriber at most: with one more it gets the state anew.
const MOST_WAITING: usize = 256;

/// A connection, by its worker and its number there.
#[derive(Clone, Copy, Default)]
pub struct Owner {
    pub worker: usize,
    pub connection: u64,
}

/// What a subscriber is told of.
#[derive(Clone)]
pub enum Item {
    Diff(Arc<Diff>),
    Shout(Arc<Value>),
    /// A whole WebSocket frame, rendered once for all of them.
    Frame(Arc<[u8]>),
}

/// What a subscriber takes at once.
pub enum Taken {
    Nothing,
    State(Vec<Arc<Row>>),
    Items(Vec<Item>),
}

struct Subscriber {
    number: u64,
    owner: Owner,
    /// Whether it wants the whole state, and no items until then.
    is_behind: bool,
    /// Whether its owner knows that something waits.
    is_woken: bool,
    waiting: VecDeque<Item>,
}

/// A subscriber's place, and its number, which no later one there has.
#[derive(Clone, Copy)]
pub struct Subscription {
    place: usize,
    number: u64,
}

#[derive(Default)]
struct Topic {
    keys: BTreeMap<Arc<str>, Vec<Arc<Row>>>,
    by_session: HashMap<u64, Vec<Arc<str>>>,
    subscribers: Vec<usize>,
}

pub struct Shard {
    /// What references begin with: the node's name and incarnation.
    pub origin: Arc<str>,
    renders_once: bool,
    count: u64,
    next_number: u64,
    topics: HashMap<Arc<str>, Topic>,
    subscribers: Vec<Option<Subscriber>>,
    free: Vec<usize>,
    /// Owners who have something new; the caller takes them behind each step.
    pub woken: Vec<Owner>,
}

impl Shard {
    pub fn new(origin: &str, renders_once: bool) -> Shard {
        Shard {
            origin: origin.into(),
            renders_once,
            count: 0,
            next_number: 0,
            topics: HashMap::new(),
            subscribers: vec![],
            free: vec![],
            woken: vec![],
        }
    }

    fn topic(&mut self, topic: &str) -> &mut Topic {
        if !self.topics.contains_key(topic) {
            self.topics.insert(topic.into(), Topic::default());
        }
        self.topics.get_mut(topic).expect("the topic was put there")
    }

    /// A new row.
    fn row(&mut self, key: Arc<str>, session: u64, meta: Map<String, Value>, previous: Option<u64>) -> Arc<Row> {
        self.count += 1;
        let mut row = Row { count: self.count, key, session, meta, previous, text: String::new() };
        if self.renders_once {
            row.text = row.written(&self.origin).to_string();
        }
        Arc::new(row)
    }

    /// Lets an item wait for each subscriber of the topic.
    fn queue(&mut self, topic: &str, item: Item) {
        let places = self.topics.get(topic).map_or(&[][..], |topic| &topic.subscribers);
        for &place in places {
            let subscriber = match self.subscribers[place].as_mut() {
                Some(subscriber) if !subscriber.is_behind => subscriber,
                _ => continue,
            };
            if subscriber.waiting.len() == MOST_WAITING {
                subscriber.waiting.clear();
                subscriber.is_behind = true;
            } else {
                subscriber.waiting.push_back(item.clone());
            }
            if !subscriber.is_woken {
                subscriber.is_woken = true;
                self.woken.push(subscriber.owner);
            }
        }
    }

    fn queue_diff(&mut self, topic: &str, joins: Vec<Arc<Row>>, leaves: Vec<Arc<Row>>) {
        let diff = Diff { joins, leaves };
        let item = match self.renders_once {
            true => framed(topic, "presence_diff", &diff.text()),
            false => Item::Diff(Arc::new(diff)),
        };
        self.queue(topic, item)
    }

    pub fn shout(&mut self, topic: &str, payload: Value) {
        let item = match self.renders_once {
            true => framed(topic, "shout", &payload.to_string()),
            false => Item::Shout(Arc::new(payload)),
        };
        self.queue(topic, item)
    }

    /// Tracks a session under a key; the count of its row is given back.
    pub fn track(
        &mut self,
        session: u64,
        topic: &str,
        key: &str,
        meta: Map<String, Value>,
    ) -> Result<u64, &'static str> {
        if self.place_of(session, topic, key).is_some() {
            return Err("already tracked");
        }
        let row = self.row(key.into(), session, meta, None);
        let rows = self.topic(topic);
        rows.keys.entry(row.key.clone()).or_default().push(row.clone());
        rows.by_session.entry(session).or_default().push(row.key.clone());
        let count = row.count;
        self.queue_diff(topic, vec![row], vec![]);
        Ok(count)
    }

    /// Gives the session's row of a key another meta; the count of its new row is given back.
    pub fn update(
        &mut self,
        session: u64,
        topic: &str,
        key: &str,
        meta: Map<String, Value>,
    ) -> Result<u64, &'static str> {
        let (old, at) = self.place_of(session, topic, key).ok_or("no presence")?;
        let row = self.row(old.key.clone(), session, meta, Some(old.count));
        let rows = self.topic(topic).keys.entry(old.key.clone()).or_default();
        rows.remove(at);
        rows.push(row.clone());
        let count = row.count;
        self.queue_diff(topic, vec![row], vec![old]);
        Ok(count)
    }

    /// The session's row of a key, and where among those of the key it is.
    fn place_of(&self, session: u64, topic: &str, key: &str) -> Option<(Arc<Row>, usize)> {
        let rows = self.topics.get(topic)?.keys.get(key)?;
        let at = rows.iter().position(|row| row.session == session)?;
        Some((rows[at].clone(), at))
    }

    pub fn untrack(&mut self, session: u64, topic: &str, key: &str) {
        let gone = self.taken_out(session, topic, &[key.into()]);
        if gone.is_empty() {
            return;
        }
        self.count += 1;
        let by_session = &mut self.topic(topic).by_session;
        if let Some(keys) = by_session.get_mut(&session) {
            keys.retain(|it| &**it != key);
            if keys.is_empty() {
                by_session.remove(&session);
            }
        }
        self.queue_diff(topic, vec![], gone);
        self.tidy(topic);
    }

    /// All rows of a session in a topic go, by one diff.
    pub fn untrack_all(&mut self, session: u64, topic: &str) {
        let keys = self.topics.get_mut(topic).and_then(|rows| rows.by_session.remove(&session));
        if let Some(mut keys) = keys {
            keys.sort();
            let gone = self.taken_out(session, topic, &keys);
            if !gone.is_empty() {
                self.count += 1;
                self.queue_diff(topic, vec![], gone);
            }
        }
        self.tidy(topic)
    }

    fn taken_out(&mut self, session: u64, topic: &str, keys: &[Arc<str>]) -> Vec<Arc<Row>> {
        let mut gone = vec![];
        for key in keys {
            if let Some((row, at)) = self.place_of(session, topic, key) {
                let rows = &mut self.topic(topic).keys;
                if let Some(of_key) = rows.get_mut(key) {
                    of_key.remove(at);
                    if of_key.is_empty() {
                        rows.remove(key);
                    }
                }
                gone.push(row);
            }
        }
        gone
    }

    /// Forgets a topic that nobody is in.
    fn tidy(&mut self, topic: &str) {
        if self.topics.get(topic).map_or(false, |it| it.keys.is_empty() && it.subscribers.is_empty()) {
            self.topics.remove(topic);
        }
    }

    /// The rows of a topic, in order of keys.
    pub fn list(&self, topic: &str) -> Vec<Arc<Row>> {
        self.topics.get(topic).map_or(vec![], |it| it.keys.values().flatten().cloned().collect())
    }

    pub fn get(&self, topic: &str, key: &str) -> Vec<Arc<Row>> {
        self.topics.get(topic).and_then(|it| it.keys.get(key)).cloned().unwrap_or_default()
    }

    /// A new subscriber, which the state waits for.
    pub fn subscribe(&mut self, topic: &str, owner: Owner) -> Subscription {
        self.next_number += 1;
        let number = self.next_number;
        let subscriber = Subscriber { number, owner, is_behind: true, is_woken: true, waiting: VecDeque::new() };
        let place = self.free.pop().unwrap_or_else(|| {
            self.subscribers.push(None);
            self.subscribers.len() - 1
        });
        self.subscribers[place] = Some(subscriber);
        self.topic(topic).subscribers.push(place);
        Subscription { place, number }
    }

    pub fn unsubscribe(&mut self, topic: &str, subscription: Subscription) {
        if self.subscriber(subscription).is_none() {
            return;
        }
        self.subscribers[subscription.place] = None;
        self.free.push(subscription.place);
        let places = &mut self.topic(topic).subscribers;
        if let Some(at) = places.iter().position(|place| *place == subscription.place) {
            places.swap_remove(at);
        }
    }

    fn subscriber(&mut self, subscription: Subscription) -> Option<&mut Subscriber> {
        let found = self.subscribers[subscription.place].as_mut();
        found.filter(|it| it.number == subscription.number)
    }

    /// What waits, of items so many at most.
    pub fn take(&mut self, topic: &str, subscription: Subscription, most: usize) -> Taken {
        let subscriber = match self.subscriber(subscription) {
            Some(subscriber) => subscriber,
            None => return Taken::Nothing,
        };
        if subscriber.is_behind {
            subscriber.is_behind = false;
            subscriber.is_woken = false;
            return Taken::State(self.list(topic));
        }
        let count = subscriber.waiting.len().min(most);
        subscriber.is_woken = count < subscriber.waiting.len();
        match count {
            0 => Taken::Nothing,
            _ => Taken::Items(subscriber.waiting.drain(..count).collect()),
        }
    }
}

/// A message of the server's own to all in a topic.
fn framed(topic: &str, event: &str, payload: &str) -> Item {
    let text = format!("[null,null,{},\"{event}\",{payload}]", quoted(topic));
    let mut frame = Vec::with_capacity(text.len() + 10);
    put_frame(&mut frame, TEXT, text.as_bytes());
    Item::Frame(frame.into())
}
