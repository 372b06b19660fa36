//! Rows of presences, and how they are written: as a JSON value made anew, or as a text made of the rows' own texts.

use serde_json::{json, Map, Value};
use std::sync::Arc;

/// One presence.
pub struct Row {
    pub count: u64,
    pub key: Arc<str>,
    pub session: u64,
    pub meta: Map<String, Value>,
    /// The count of the row that it replaced.
    pub previous: Option<u64>,
    /// The meta as it is written, where each text is rendered once.
    pub text: String,
}

/// What came and went by one step, of one topic.
pub struct Diff {
    pub joins: Vec<Arc<Row>>,
    pub leaves: Vec<Arc<Row>>,
}

impl Row {
    /// The meta with its references, which begin with the shard's origin.
    pub fn written(&self, origin: &str) -> Value {
        let mut meta = self.meta.clone();
        meta.insert("phx_ref".into(), Value::String(format!("{origin}{}", self.count)));
        if let Some(previous) = self.previous {
            meta.insert("phx_ref_prev".into(), Value::String(format!("{origin}{previous}")));
        }
        Value::Object(meta)
    }
}

impl Diff {
    /// The payload that tells it, of rows that have their texts.
    pub fn text(&self) -> String {
        format!("{{\"joins\":{},\"leaves\":{}}}", state_text(&self.joins), state_text(&self.leaves))
    }
}

/// The metas of rows under their keys; the rows are in order of keys.
pub fn state_value(origin: &str, rows: &[Arc<Row>]) -> Value {
    let mut state = Map::new();
    for row in rows {
        let entry = state.entry(row.key.to_string()).or_insert_with(|| json!({"metas": []}));
        if let Some(metas) = entry["metas"].as_array_mut() {
            metas.push(row.written(origin));
        }
    }
    Value::Object(state)
}

/// The same, put together from the rows' own texts.
pub fn state_text(rows: &[Arc<Row>]) -> String {
    let mut text =
        String::with_capacity(16 + rows.iter().map(|row| row.text.len() + row.key.len() + 20).sum::<usize>());
    text.push('{');
    for (at, row) in rows.iter().enumerate() {
        if at > 0 && rows[at - 1].key == row.key {
            text.push(',');
        } else {
            text.push_str(if at > 0 { "]}," } else { "" });
            text.push_str(&crate::message::quoted(&row.key));
            text.push_str(":{\"metas\":[");
        }
        text.push_str(&row.text);
    }
    text.push_str(if rows.is_empty() { "}" } else { "]}}" });
    text
}

#[cfg(test)]
mod tests {
    use super::*;

    #[test]
    fn both_ways_write_the_same() {
        let row = |key: &str, count| {
            let meta = Map::from_iter([("n".to_string(), Value::from(count))]);
            let mut row = Row { count, key: key.into(), session: 1, meta, previous: None, text: String::new() };
            row.text = row.written("a.1.").to_string();
            Arc::new(row)
        };
        for rows in [vec![], vec![row("b\"", 1)], vec![row("a", 2), row("a", 3), row("c", 1)]] {
            assert_eq!(state_value("a.1.", &rows).to_string(), state_text(&rows));
        }
    }
}
