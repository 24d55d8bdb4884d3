//! A matcher of grammars by sets of states, which has nothing in common with the parsers: it says
//! where a text stops matching.

/// A grammar of bytes.
#[derive(Clone)]
pub enum Grammar {
    /// One byte of these.
    Byte(&'static [u8]),
    /// One after the other.
    All(Vec<Grammar>),
    /// One of them.
    Any(Vec<Grammar>),
    /// As many times as is in this range.
    Times(usize, Option<usize>, Box<Grammar>),
}
use Grammar::{All, Any, Byte, Times};

/// Digits.
pub const DIGIT: Grammar = Byte(b"0123456789");

/// `count` times the same.
pub fn times(count: usize, grammar: Grammar) -> Grammar {
    Times(count, Some(count), Box::new(grammar))
}

/// The same or nothing.
pub fn maybe(grammar: Grammar) -> Grammar {
    Times(0, Some(1), Box::new(grammar))
}

/// A step of a matcher: a byte to the next state, or a choice of states without a byte.
enum Step {
    Byte(&'static [u8], usize),
    Go(Vec<usize>),
    Accept,
}

/// A matcher of one grammar.
pub struct Matcher {
    steps: Vec<Step>,
    start: usize,
}

impl Matcher {
    /// Makes the matcher of a grammar.
    pub fn new(grammar: &Grammar) -> Self {
        let mut matcher = Matcher { steps: vec![Step::Accept], start: 0 };
        matcher.start = matcher.add(grammar, 0);
        matcher
    }

    fn push(&mut self, step: Step) -> usize {
        self.steps.push(step);
        self.steps.len() - 1
    }

    fn add(&mut self, grammar: &Grammar, next: usize) -> usize {
        match grammar {
            Byte(bytes) => self.push(Step::Byte(bytes, next)),
            All(parts) => parts.iter().rev().fold(next, |next, part| self.add(part, next)),
            Any(parts) => {
                let starts = parts.iter().map(|part| self.add(part, next)).collect();
                self.push(Step::Go(starts))
            }
            Times(least, most, part) => {
                let mut next = next;
                match most {
                    Some(most) => {
                        let end = next;
                        for _ in *least..*most {
                            let start = self.add(part, next);
                            next = self.push(Step::Go(vec![start, end]));
                        }
                    }
                    None => {
                        let again = self.push(Step::Go(Vec::new()));
                        let start = self.add(part, again);
                        self.steps[again] = Step::Go(vec![start, next]);
                        next = again;
                    }
                }
                (0..*least).fold(next, |next, _| self.add(part, next))
            }
        }
    }

    fn reach(&self, state: usize, into: &mut Vec<usize>) {
        if into.contains(&state) {
            return;
        }
        into.push(state);
        if let Step::Go(states) = &self.steps[state] {
            states.iter().for_each(|next| self.reach(*next, into));
        }
    }

    /// Returns the position at which a text stops matching, or `None` if it is in the grammar.
    pub fn stop(&self, text: &[u8]) -> Option<usize> {
        let mut states = Vec::new();
        self.reach(self.start, &mut states);
        for (at, byte) in text.iter().enumerate() {
            let mut next = Vec::new();
            for state in &states {
                if let Step::Byte(bytes, to) = &self.steps[*state] {
                    if bytes.contains(byte) {
                        self.reach(*to, &mut next);
                    }
                }
            }
            if next.is_empty() {
                return Some(at);
            }
            states = next;
        }
        let accepts = states.iter().any(|state| matches!(self.steps[*state], Step::Accept));
        (!accepts).then_some(text.len())
    }
}
