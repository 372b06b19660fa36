//! The worker of `spec`: it looks at all its connections in turn, at one message of each and at what waits for it.

use crate::connection::{Connection, Gone};
use crate::server::{Server, MOST_CONNECTIONS, SCRATCH};
use crate::shard::Owner;
use std::thread::sleep;
use std::time::Duration;

/// It sleeps so long where a whole round had nothing to do.
const REST: Duration = Duration::from_micros(500);

pub fn work(server: &Server) {
    let mut connections: Vec<Connection> = vec![];
    let mut scratch = vec![0; SCRATCH];
    // nobody is woken, since everybody is looked at anyhow
    let mut woken: Vec<Owner> = vec![];
    loop {
        let mut is_busy = false;
        if connections.len() < MOST_CONNECTIONS {
            if let Some(stream) = server.queue.pop() {
                connections.extend(server.connection(stream, Owner::default()));
                is_busy = true;
            }
        }
        let mut at = 0;
        while at < connections.len() {
            match turn(&mut connections[at], server, &mut scratch, &mut woken) {
                Ok(had_work) => {
                    is_busy |= had_work;
                    at += 1;
                }
                Err(Gone) => {
                    connections.swap_remove(at).end(&server.pool, &mut woken);
                    is_busy = true;
                }
            }
            woken.clear();
        }
        if !is_busy {
            sleep(REST);
        }
    }
}

/// One message, and then what waits. Whether there was anything.
fn turn(
    connection: &mut Connection,
    server: &Server,
    scratch: &mut [u8],
    woken: &mut Vec<Owner>,
) -> Result<bool, Gone> {
    let mut had_work = connection.has_input() && connection.serve(&server.pool, woken)?;
    if !had_work && connection.fill(scratch)? {
        connection.serve(&server.pool, woken)?;
        had_work = true;
    }
    had_work |= connection.deliver(&server.pool);
    let is_closed = connection.close_idle();
    if is_closed || connection.has_output() {
        connection.flush()?;
    }
    Ok(had_work)
}
