//! What a line says.

use crate::codes;
use crate::json::{NotJson, Read, Reader};
use crate::kinds::Method;
use crate::names::{parts_of_grain, tenant_of_caller};
use crate::value::{Value, MAX_DEPTH, MAX_MESSAGE, MAX_STATE};
use std::borrow::Cow;
use std::sync::Arc;

pub const MAX_LINE: usize = 65_536;

pub type Text<'a> = Cow<'a, str>;

/// What somebody asks, or a step on a grain. Callers and grains are well formed.
pub enum Said<'a> {
    Refuse { from: Text<'a>, id: i64, code: u8 },
    Call { from: Text<'a>, id: i64, grain: Text<'a>, method: Method, args: Arc<Value> },
    Poke { from: Text<'a>, id: i64, grain: Text<'a>, state: Arc<Value> },
    Status { from: Text<'a>, id: i64 },
    Tick(i64),
    Sweep,
    At(At, Text<'a>),
}

#[derive(Clone, Copy)]
pub enum At {
    Deliver,
    Activate,
    Begin,
    Load { failed: bool },
    End { turn: i64 },
    Store { turn: i64, failed: bool },
    Abandon { turn: i64 },
}

impl Said<'_> {
    /// Who asks it, if somebody does.
    pub fn caller(&self) -> Option<&str> {
        match self {
            Said::Refuse { from, .. }
            | Said::Call { from, .. }
            | Said::Poke { from, .. }
            | Said::Status { from, .. } => Some(from),
            _ => None,
        }
    }
}

/// What a line says, or with which code it is refused. It isn't empty.
pub fn read_line(line: &[u8]) -> Result<Said<'_>, u8> {
    if line.len() > MAX_LINE {
        return Err(codes::TOO_LONG);
    }
    let text = std::str::from_utf8(line).map_err(|_| codes::NOT_A_REQUEST)?;
    let members = Members::read(text).map_err(|_| codes::NOT_A_REQUEST)?;
    members.said().ok_or(codes::NOT_A_REQUEST)
}

enum Member<'a> {
    Missing,
    Text(Text<'a>),
    Other(Value),
}

impl<'a> Member<'a> {
    fn text(self) -> Option<Text<'a>> {
        match self {
            Member::Text(text) => Some(text),
            _ => None,
        }
    }

    fn natural(&self) -> Option<i64> {
        match self {
            Member::Other(Value::Whole(number)) if *number >= 0 => Some(*number),
            _ => None,
        }
    }

    /// A truth value, false if it is left out.
    fn flag(&self) -> Option<bool> {
        match self {
            Member::Missing => Some(false),
            Member::Other(Value::Bool(flag)) => Some(*flag),
            _ => None,
        }
    }

    fn caller(self) -> Option<Text<'a>> {
        self.text().filter(|text| tenant_of_caller(text).is_some())
    }

    fn grain(self) -> Option<Text<'a>> {
        self.text().filter(|text| parts_of_grain(text).is_some())
    }
}

const NAMES: [&str; 10] = ["op", "from", "id", "grain", "method", "args", "state", "failed", "turn", "now"];
const OP: usize = 0;
const FROM: usize = 1;
const ID: usize = 2;
const GRAIN: usize = 3;
const METHOD: usize = 4;
const ARGS: usize = 5;
const STATE: usize = 6;
const FAILED: usize = 7;
const TURN: usize = 8;
const NOW: usize = 9;

/// The members of a line's object, by their place in `NAMES`.
struct Members<'a> {
    found: [Member<'a>; NAMES.len()],
    is_suspect: bool,
}

impl<'a> Members<'a> {
    fn read(line: &'a str) -> Read<Members<'a>> {
        let mut reader = Reader::new(line);
        let mut found = [const { Member::Missing }; NAMES.len()];
        let mut has_others = false;
        reader.expect(b'{')?;
        reader.enter()?;
        if !reader.next_is(b'}') {
            loop {
                let name = reader.name()?;
                let place = NAMES.iter().position(|known| *known == name);
                let is_value = matches!(place, Some(ARGS | STATE));
                let member = if reader.is_at_text() && !is_value {
                    Member::Text(reader.text()?)
                } else {
                    Member::Other(reader.value()?)
                };
                match place {
                    Some(place) => found[place] = member,
                    None => has_others = true,
                }
                if reader.next_is(b'}') {
                    break;
                }
                reader.expect(b',')?;
            }
        }
        reader.expect_end()?;
        if has_others {
            return Err(NotJson);
        }
        Ok(Members { found, is_suspect: reader.is_suspect })
    }

    fn take(&mut self, place: usize) -> Member<'a> {
        std::mem::replace(&mut self.found[place], Member::Missing)
    }

    /// Whether these members are there, and no others but the one that may be left out.
    fn are(&self, needed: &[usize], left_out: usize) -> bool {
        self.found.iter().enumerate().all(|(place, member)| {
            let is_there = !matches!(member, Member::Missing);
            place == OP || place == left_out || is_there == needed.contains(&place)
        })
    }

    fn said(mut self) -> Option<Said<'a>> {
        let op = self.take(OP).text()?;
        let is_of_form = match &*op {
            "call" => self.are(&[FROM, ID, GRAIN, METHOD], ARGS),
            "poke" => self.are(&[FROM, ID, GRAIN, STATE], OP),
            "status" => self.are(&[FROM, ID], OP),
            "deliver" | "activate" | "begin" => self.are(&[GRAIN], OP),
            "load" => self.are(&[GRAIN], FAILED),
            "store" => self.are(&[GRAIN, TURN], FAILED),
            "end" | "abandon" => self.are(&[GRAIN, TURN], OP),
            "tick" => self.are(&[NOW], OP),
            _ => op == "sweep" && self.are(&[], OP),
        };
        if !is_of_form {
            return None;
        }
        match &*op {
            "call" => self.call(),
            "poke" => self.poke(),
            "status" => Some(Said::Status { from: self.take(FROM).caller()?, id: self.found[ID].natural()? }),
            "tick" => Some(Said::Tick(self.found[NOW].natural()?)),
            "sweep" => Some(Said::Sweep),
            _ => Some(Said::At(self.at(&op)?, self.take(GRAIN).grain()?)),
        }
    }

    fn at(&self, op: &str) -> Option<At> {
        let turn = self.found[TURN].natural();
        Some(match op {
            "deliver" => At::Deliver,
            "activate" => At::Activate,
            "begin" => At::Begin,
            "load" => At::Load { failed: self.found[FAILED].flag()? },
            "end" => At::End { turn: turn? },
            "abandon" => At::Abandon { turn: turn? },
            _ => At::Store { turn: turn?, failed: self.found[FAILED].flag()? },
        })
    }

    fn call(mut self) -> Option<Said<'a>> {
        let (from, id) = (self.take(FROM).caller()?, self.found[ID].natural()?);
        let (grain, method) = (self.take(GRAIN).text()?, self.take(METHOD).text()?);
        let args = match self.take(ARGS) {
            Member::Other(args) => args,
            _ => Value::Null,
        };
        let code = self.fault(&args).or_else(|| {
            // the message's form, and the method as a text
            let length = 5 + method.len() + args.length();
            (length > MAX_MESSAGE).then_some(codes::TOO_LONG)
        });
        Some(match code.or_else(|| fault_of_grain(&grain)) {
            Some(code) => Said::Refuse { from, id, code },
            None => Said::Call { from, id, grain, method: Method::of(&method), args: Arc::new(args) },
        })
    }

    fn poke(mut self) -> Option<Said<'a>> {
        let (from, id) = (self.take(FROM).caller()?, self.found[ID].natural()?);
        let grain = self.take(GRAIN).text()?;
        let Member::Other(state) = self.take(STATE) else { return None };
        let code = self.fault(&state).or_else(|| (state.length() > MAX_STATE).then_some(codes::STATE_TOO_LARGE));
        Some(match code.or_else(|| fault_of_grain(&grain)) {
            Some(code) => Said::Refuse { from, id, code },
            None => Said::Poke { from, id, grain, state: Arc::new(state) },
        })
    }

    /// What is wrong with a value of the line, as no value is.
    fn fault(&self, value: &Value) -> Option<u8> {
        if !self.is_suspect {
            None
        } else if value.depth() > MAX_DEPTH {
            Some(codes::TOO_DEEP)
        } else if value.holds(&Value::NotWhole) {
            Some(codes::NOT_WHOLE)
        } else {
            value.holds(&Value::NotBytes).then_some(codes::NOT_BYTES)
        }
    }
}

fn fault_of_grain(text: &str) -> Option<u8> {
    parts_of_grain(text).is_none().then_some(codes::BAD_GRAIN)
}
