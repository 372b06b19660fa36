//! The words that the program is started with.

use std::str::FromStr;

pub const USAGE: &str = "loadgen storm|probe|shout|ping|pingmax|list|churn|mem --port PORT
  --pid PID          the server's process, of which memory and processor seconds are told
  --name NAME        what the line calls the server
  --clients N --rooms N --threads N --seconds SECONDS --timeout SECONDS
  --window N         shouts of a room that are on their way at once
  --rate N           pings a second
  --callers N        clients that call, each with one call on its way";

const MOST_CLIENTS: usize = 4096;
const MOST_SECONDS: f64 = 60.0;

pub struct Options {
    pub scenario: String,
    pub port: u16,
    pub pid: u32,
    pub name: String,
    pub clients: usize,
    pub rooms: usize,
    pub threads: usize,
    pub seconds: f64,
    /// Seconds until a list that isn't whole is given up.
    pub timeout: f64,
    pub window: u64,
    pub rate: f64,
    pub callers: usize,
}

impl Options {
    /// The options that the words give, or what is wrong with these.
    pub fn of(mut words: impl Iterator<Item = String>) -> Result<Options, String> {
        let mut options = Options {
            scenario: words.next().ok_or("a scenario is wanted")?,
            port: 4000,
            pid: 0,
            name: String::new(),
            clients: 200,
            rooms: 1,
            threads: 2,
            seconds: 2.0,
            timeout: 30.0,
            window: 16,
            rate: 2000.0,
            callers: 16,
        };
        while let Some(option) = words.next() {
            let value = words.next().ok_or_else(|| format!("{option} wants a value"))?;
            options.set(&option, value)?;
        }
        options.bounded()
    }

    fn set(&mut self, option: &str, value: String) -> Result<(), String> {
        match option {
            "--port" => self.port = number(option, &value)?,
            "--pid" => self.pid = number(option, &value)?,
            "--name" => self.name = value,
            "--clients" => self.clients = number(option, &value)?,
            "--rooms" => self.rooms = number(option, &value)?,
            "--threads" => self.threads = number(option, &value)?,
            "--seconds" => self.seconds = number(option, &value)?,
            "--timeout" => self.timeout = number(option, &value)?,
            "--window" => self.window = number(option, &value)?,
            "--rate" => self.rate = number(option, &value)?,
            "--callers" => self.callers = number(option, &value)?,
            _ => return Err(format!("{option} is no option")),
        }
        Ok(())
    }

    fn bounded(self) -> Result<Options, String> {
        if self.clients > MOST_CLIENTS || self.seconds > MOST_SECONDS {
            return Err(format!("at most {MOST_CLIENTS} clients and {MOST_SECONDS} seconds"));
        }
        let per_client = [self.rooms, self.threads];
        if per_client.iter().any(|count| !(1..=self.clients).contains(count)) {
            return Err("rooms and threads: at least one, and no more than clients".into());
        }
        Ok(self)
    }

    /// How many clients a room has: they are dealt out in turn.
    pub fn members(&self, room: usize) -> usize {
        self.clients / self.rooms + usize::from(room < self.clients % self.rooms)
    }
}

fn number<T: FromStr>(option: &str, value: &str) -> Result<T, String> {
    value.parse().map_err(|_| format!("{option} {value}: a number is wanted"))
}
