//! The text of runs; docs/BESIDE-TOWER.md has the format.

use std::fmt;
use std::str::SplitWhitespace;

#[derive(Clone, Copy, PartialEq, Debug)]
pub enum Load {
    Count,
    Halving { default: u64, period: u64 },
    Squaring { default: u64, period: u64 },
}

#[derive(Clone, Debug)]
pub enum Words {
    List(Vec<u64>),
    Hash,
}

/// A worker as it is made: a pattern of the letters r, p and f, or none for a paced one.
#[derive(Clone, Debug)]
pub enum Making {
    Patterned(String),
    Paced,
}

#[derive(Clone, Debug)]
pub enum Item {
    Insert(String, Making),
    Remove(String),
    Pending,
    End,
    Fault(u32),
}

#[derive(Clone, Debug)]
pub enum Pick {
    Poll(u64),
    Call(u64, u64),
    Done(u64, u64),
    Push(u64, String, Making),
    Evict(String),
    Pending(u64),
    Check(u64, u64),
    CheckKey(u64, String),
    Send(u64, u64, u64),
    SendKey(u64, String, u64),
}

#[derive(Clone, Debug)]
pub struct Run {
    pub load: Load,
    pub paced: bool,
    pub words: Words,
    pub budget: u32,
    pub places: u64,
    pub records: u64,
    pub serial: u64,
    pub ticket: u64,
    pub feed: Vec<Item>,
    pub picks: Vec<Pick>,
}

// ---- reading

/// The words of a text of runs.
pub struct Reader<'a> {
    words: SplitWhitespace<'a>,
}

impl<'a> Reader<'a> {
    pub fn new(text: &'a str) -> Self {
        Reader { words: text.split_whitespace() }
    }

    fn word(&mut self) -> &'a str {
        self.words.next().expect("a word")
    }

    fn number(&mut self) -> u64 {
        let word = self.word();
        word.parse().unwrap_or_else(|_| panic!("a number and not {word}"))
    }

    fn expect(&mut self, word: &str) {
        assert_eq!(self.word(), word);
    }

    fn making(&mut self, paced: bool) -> Making {
        if paced {
            return Making::Paced;
        }
        match self.word() {
            "none" => Making::Patterned(String::new()),
            pattern => Making::Patterned(pattern.to_string()),
        }
    }

    fn load(&mut self) -> Load {
        match self.word() {
            "count" => Load::Count,
            "halving" => Load::Halving { default: self.number(), period: self.number() },
            "squaring" => Load::Squaring { default: self.number(), period: self.number() },
            other => panic!("a load and not {other}"),
        }
    }

    fn source(&mut self) -> Words {
        match self.word() {
            "hash" => Words::Hash,
            "list" => {
                let n = self.number();
                Words::List((0..n).map(|_| self.number()).collect())
            }
            other => panic!("words and not {other}"),
        }
    }

    fn item(&mut self, paced: bool) -> Item {
        match self.word() {
            "insert" => Item::Insert(self.word().to_string(), self.making(paced)),
            "remove" => Item::Remove(self.word().to_string()),
            "pending" => Item::Pending,
            "end" => Item::End,
            "fault" => Item::Fault(self.number() as u32),
            other => panic!("an answer of a feed and not {other}"),
        }
    }

    fn pick(&mut self, paced: bool) -> Pick {
        match self.word() {
            "poll" => Pick::Poll(self.number()),
            "call" => Pick::Call(self.number(), self.number()),
            "done" => Pick::Done(self.number(), self.number()),
            "push" => Pick::Push(self.number(), self.word().to_string(), self.making(paced)),
            "evict" => Pick::Evict(self.word().to_string()),
            "pass" => Pick::Pending(self.number()),
            "check" => Pick::Check(self.number(), self.number()),
            "checkkey" => Pick::CheckKey(self.number(), self.word().to_string()),
            "send" => Pick::Send(self.number(), self.number(), self.number()),
            "sendkey" => {
                let at = self.number();
                Pick::SendKey(at, self.word().to_string(), self.number())
            }
            other => panic!("a pick and not {other}"),
        }
    }

    /// The next run, if there is one.
    pub fn run(&mut self) -> Option<Run> {
        assert_eq!(self.words.next()?, "run");
        self.expect("load");
        let load = self.load();
        self.expect("workers");
        let paced = match self.word() {
            "paced" => true,
            "patterned" => false,
            other => panic!("workers and not {other}"),
        };
        self.expect("words");
        let words = self.source();
        self.expect("sizes");
        let (places, records, budget) = (self.number(), self.number(), self.number() as u32);
        self.expect("first");
        let (serial, ticket) = (self.number(), self.number());
        self.expect("feed");
        let n = self.number();
        let feed = (0..n).map(|_| self.item(paced)).collect();
        self.expect("picks");
        let n = self.number();
        let picks = (0..n).map(|_| self.pick(paced)).collect();
        Some(Run { load, paced, words, budget, places, records, serial, ticket, feed, picks })
    }
}

// ---- writing

impl fmt::Display for Making {
    fn fmt(&self, f: &mut fmt::Formatter<'_>) -> fmt::Result {
        match self {
            Making::Patterned(p) if p.is_empty() => write!(f, " none"),
            Making::Patterned(p) => write!(f, " {p}"),
            Making::Paced => Ok(()),
        }
    }
}

impl fmt::Display for Item {
    fn fmt(&self, f: &mut fmt::Formatter<'_>) -> fmt::Result {
        match self {
            Item::Insert(name, making) => writeln!(f, "insert {name}{making}"),
            Item::Remove(name) => writeln!(f, "remove {name}"),
            Item::Pending => writeln!(f, "pending"),
            Item::End => writeln!(f, "end"),
            Item::Fault(error) => writeln!(f, "fault {error}"),
        }
    }
}

impl fmt::Display for Pick {
    fn fmt(&self, f: &mut fmt::Formatter<'_>) -> fmt::Result {
        match self {
            Pick::Poll(at) => writeln!(f, "poll {at}"),
            Pick::Call(at, request) => writeln!(f, "call {at} {request}"),
            Pick::Done(at, ticket) => writeln!(f, "done {at} {ticket}"),
            Pick::Push(at, name, making) => writeln!(f, "push {at} {name}{making}"),
            Pick::Evict(name) => writeln!(f, "evict {name}"),
            Pick::Pending(at) => writeln!(f, "pass {at}"),
            Pick::Check(at, i) => writeln!(f, "check {at} {i}"),
            Pick::CheckKey(at, name) => writeln!(f, "checkkey {at} {name}"),
            Pick::Send(at, i, request) => writeln!(f, "send {at} {i} {request}"),
            Pick::SendKey(at, name, request) => writeln!(f, "sendkey {at} {name} {request}"),
        }
    }
}

impl fmt::Display for Run {
    fn fmt(&self, f: &mut fmt::Formatter<'_>) -> fmt::Result {
        writeln!(f, "run")?;
        match self.load {
            Load::Count => writeln!(f, "load count")?,
            Load::Halving { default, period } => writeln!(f, "load halving {default} {period}")?,
            Load::Squaring { default, period } => writeln!(f, "load squaring {default} {period}")?,
        }
        writeln!(f, "workers {}", if self.paced { "paced" } else { "patterned" })?;
        match &self.words {
            Words::Hash => writeln!(f, "words hash")?,
            Words::List(words) => {
                write!(f, "words list {}", words.len())?;
                words.iter().try_for_each(|w| write!(f, " {w}"))?;
                writeln!(f)?;
            }
        }
        writeln!(f, "sizes {} {} {}", self.places, self.records, self.budget)?;
        writeln!(f, "first {} {}", self.serial, self.ticket)?;
        writeln!(f, "feed {}", self.feed.len())?;
        self.feed.iter().try_for_each(|item| write!(f, "{item}"))?;
        writeln!(f, "picks {}", self.picks.len())?;
        self.picks.iter().try_for_each(|pick| write!(f, "{pick}"))
    }
}
