//! The options on the command line.

use std::collections::HashMap;

/// Those without a value.
const FLAGS: [&str; 2] = ["audit", "wait"];

pub struct Args(HashMap<String, String>);

impl Args {
    pub fn parse() -> Args {
        let mut values = HashMap::new();
        let mut words = std::env::args().skip(1);
        while let Some(word) = words.next() {
            let Some(name) = word.strip_prefix("--") else { die(&format!("unknown word {word}")) };
            let value = if FLAGS.contains(&name) { Some("1".into()) } else { words.next() };
            match value {
                Some(value) => values.insert(name.to_string(), value),
                None => die(&format!("{word} needs a value")),
            };
        }
        Args(values)
    }
    pub fn number(&self, name: &str, default: u64) -> u64 {
        match self.0.get(name) {
            None => default,
            Some(v) => v.parse().unwrap_or_else(|_| die(&format!("--{name} {v}: not a number"))),
        }
    }
    pub fn flag(&self, name: &str) -> bool {
        self.0.contains_key(name)
    }
    /// Refuses any option that isn't in the list.
    pub fn only(&self, known: &[&str]) {
        if let Some(name) = self.0.keys().find(|name| !known.contains(&name.as_str())) {
            die(&format!("unknown option --{name}"));
        }
    }
    /// The number of stripes a table, a power of two.
    pub fn stripes(&self, default: u64) -> usize {
        let n = self.number("stripes", default);
        if !(1..=65536).contains(&n) || !n.is_power_of_two() {
            die("--stripes is a power of two, 1 to 65536");
        }
        n as usize
    }
}

pub fn die(text: &str) -> ! {
    eprintln!("{text}");
    std::process::exit(1)
}

/// What each program of sessions takes.
const COMMON: [&str; 9] = [
    "clients", "transactions", "relations", "queries", "percent-queried", "percent-user", "seed",
    "repeat", "audit",
];

#[derive(Clone, Copy)]
pub struct Options {
    pub clients: u64,
    pub transactions: u64,
    pub relations: u64,
    pub queries: u64,
    pub percent_queried: u64,
    pub percent_user: u64,
    pub seed: u64,
    pub repeat: u64,
    pub audit: bool,
}

impl Options {
    /// `own` are the options that this program alone takes.
    pub fn read(a: &Args, own: &[&str]) -> Options {
        a.only(&[&COMMON, own].concat());
        let o = Options {
            clients: a.number("clients", 2),
            transactions: a.number("transactions", 1000),
            relations: a.number("relations", 100),
            queries: a.number("queries", 10),
            percent_queried: a.number("percent-queried", 60),
            percent_user: a.number("percent-user", 90),
            seed: a.number("seed", 1),
            repeat: a.number("repeat", 1),
            audit: a.flag("audit"),
        };
        let ok = (1..=64).contains(&o.clients)
            && (1..=100).contains(&o.queries)
            && (1..=100).contains(&o.percent_queried)
            && (1..=1_000_000).contains(&o.relations)
            && (1..=100_000_000).contains(&o.transactions)
            && o.percent_user <= 100
            && o.repeat >= 1;
        if !ok {
            die("an option is outside its range");
        }
        o
    }
    /// The greatest id that sessions name.
    pub fn last_id(&self) -> u64 {
        (self.relations * self.percent_queried / 100).max(1)
    }
}
