//! Orders: lines on a frame, trials, issue, and runs of calls.

use crate::card::Card;
use crate::frame::{Level, GREATEST_WEIGHT};
use crate::sheet::{self, Axes, Sheet};
use crate::Denial;

pub const MOST_LINES: usize = 64;
pub const GREATEST_LOAD: i64 = 5_000;

/// A line of an order: a level and the load on it.
#[derive(Clone, Copy, Debug, PartialEq, Eq)]
pub struct Load {
    pub level: i64,
    pub load: i64,
}

#[derive(Clone, Debug, PartialEq, Eq)]
pub enum Call {
    Load(Load),
    Strike,
    Standing(i64),
    Trial,
    Keep,
    Abandon,
    Issue,
    Reopen,
    Release,
    Sheet(Card),
    Axes {
        card: Card,
        storey: i64,
        stiffnesses: Vec<i64>,
    },
}

#[derive(Clone, Debug, PartialEq, Eq)]
pub enum Answer {
    Loaded(Load),
    Struck(Load),
    Standing {
        level: i64,
        sum: i64,
    },
    OnTrial,
    Kept,
    Abandoned,
    Issued,
    Reopened,
    Released {
        levels: i64,
        lines: i64,
        weight: i64,
    },
    Sheet(Sheet),
    Axes(Axes),
    Denied(Denial),
    OutOfState,
}

#[derive(Clone, Copy, Debug, PartialEq, Eq)]
enum State {
    Open,
    /// On trial, with how many lines stood when it began.
    Trial(usize),
    Issued,
}

/// An order over a frame's list, with each weight already raised by the loads on its level.
#[derive(Clone, Debug)]
pub struct Order {
    levels: Vec<Level>,
    lines: Vec<Load>,
    state: State,
}

impl Order {
    /// A new order over the list of a frame, which is a good one.
    pub fn over(levels: Vec<Level>) -> Self {
        Order {
            levels,
            lines: Vec::with_capacity(MOST_LINES),
            state: State::Open,
        }
    }

    /// The order's list.
    pub fn levels(&self) -> &[Level] {
        &self.levels
    }

    /// Makes a call; one that the state does not have changes nothing.
    pub fn call(&mut self, call: &Call) -> Answer {
        match (call, self.state) {
            (Call::Load(load), State::Open | State::Trial(_)) => match self.load(*load) {
                Ok(()) => Answer::Loaded(*load),
                Err(denial) => Answer::Denied(denial),
            },
            (Call::Strike, State::Open) => self.strike(0),
            (Call::Strike, State::Trial(bound)) => self.strike(bound),
            (Call::Standing(level), _) => self.standing(*level),
            (Call::Trial, State::Open) => {
                self.turn(State::Trial(self.lines.len()), Answer::OnTrial)
            }
            (Call::Keep, State::Trial(_)) => self.turn(State::Open, Answer::Kept),
            (Call::Abandon, State::Trial(bound)) => {
                while self.lines.len() > bound {
                    self.strike(bound);
                }
                self.turn(State::Open, Answer::Abandoned)
            }
            (Call::Issue, State::Open) => self.turn(State::Issued, Answer::Issued),
            (Call::Reopen, State::Issued) => self.turn(State::Open, Answer::Reopened),
            (Call::Release, State::Issued) => self.release(),
            (Call::Sheet(card), _) => match sheet::sheet(&self.levels, card) {
                Ok(sheet) => Answer::Sheet(sheet),
                Err(denial) => Answer::Denied(denial),
            },
            (
                Call::Axes {
                    card,
                    storey,
                    stiffnesses,
                },
                _,
            ) => self.axes(card, *storey, stiffnesses),
            _ => Answer::OutOfState,
        }
    }

    /// Books a line, or tells why not.
    pub fn load(&mut self, line: Load) -> Result<(), Denial> {
        let Load { level, load } = line;
        let Some(index) = self.index(level) else {
            return Err(Denial::new(21, level));
        };
        if load == 0 || load.abs() > GREATEST_LOAD {
            return Err(Denial::new(22, level));
        }
        let weight = self.levels[index].weight + load;
        if !(1..=GREATEST_WEIGHT).contains(&weight) {
            return Err(Denial::new(23, level));
        }
        if self.lines.len() == MOST_LINES {
            return Err(Denial::new(24, level));
        }
        self.levels[index].weight = weight;
        self.lines.push(line);
        Ok(())
    }

    /// Where level `level` stands in the list.
    fn index(&self, level: i64) -> Option<usize> {
        (1..=self.levels.len() as i64)
            .contains(&level)
            .then(|| level as usize - 1)
    }

    /// Takes off the newest line where more than `bound` stand.
    fn strike(&mut self, bound: usize) -> Answer {
        if self.lines.len() <= bound {
            return Answer::Denied(Denial::new(25, 0));
        }
        match self.lines.pop() {
            None => Answer::Denied(Denial::new(25, 0)),
            Some(line) => {
                self.levels[line.level as usize - 1].weight -= line.load;
                Answer::Struck(line)
            }
        }
    }

    fn standing(&self, level: i64) -> Answer {
        if self.index(level).is_none() {
            return Answer::Denied(Denial::new(21, level));
        }
        let on_level = self.lines.iter().filter(|line| line.level == level);
        let sum = on_level.map(|line| line.load).sum();
        Answer::Standing { level, sum }
    }

    fn release(&self) -> Answer {
        Answer::Released {
            levels: self.levels.len() as i64,
            lines: self.lines.len() as i64,
            weight: self.levels.iter().map(|level| level.weight).sum(),
        }
    }

    fn axes(&self, card: &Card, storey: i64, stiffnesses: &[i64]) -> Answer {
        match sheet::axes(&self.levels, card, storey, stiffnesses) {
            Ok(axes) => Answer::Axes(axes),
            Err(denial) => Answer::Denied(denial),
        }
    }

    fn turn(&mut self, state: State, answer: Answer) -> Answer {
        self.state = state;
        answer
    }
}

/// What a new order over `frame`, the list of a good frame, answers to `calls`.
pub fn run(frame: &[Level], calls: &[Call]) -> Vec<Answer> {
    let mut order = Order::over(frame.to_vec());
    calls.iter().map(|call| order.call(call)).collect()
}
