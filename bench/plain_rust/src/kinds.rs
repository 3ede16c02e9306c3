//! The kinds of grain, and what their methods do.

use crate::codes;
use crate::names::parts_of_grain;
use crate::value::{field_length, place_of, Map, Value, MAX_STATE};

const MAX_MEMBERS: usize = 4;
const MAX_STAY: i64 = 86_400_000;
/// How many bytes spell an empty list or map.
const EMPTY_LENGTH: usize = 5;

#[derive(Clone, Copy, PartialEq)]
pub enum Kind {
    Counter,
    Sheet,
    Relay,
}

impl Kind {
    pub fn of(text: &str) -> Option<Kind> {
        match text {
            "counter" => Some(Kind::Counter),
            "sheet" => Some(Kind::Sheet),
            "relay" => Some(Kind::Relay),
            _ => None,
        }
    }

    fn empty(self) -> Value {
        match self {
            Kind::Counter => Value::Whole(0),
            Kind::Sheet => Value::Map(Map::new()),
            Kind::Relay => Value::List(Vec::new()),
        }
    }
}

/// A method by its name; one that no kind has keeps its text.
#[derive(Clone)]
pub enum Method {
    Add,
    Get,
    Put,
    Drop,
    List,
    Join,
    Leave,
    Send,
    Save,
    Reload,
    Clear,
    Rest,
    Stay,
    Other(Box<str>),
}

impl Method {
    pub fn of(text: &str) -> Method {
        match text {
            "add" => Method::Add,
            "get" => Method::Get,
            "put" => Method::Put,
            "drop" => Method::Drop,
            "list" => Method::List,
            "join" => Method::Join,
            "leave" => Method::Leave,
            "send" => Method::Send,
            "save" => Method::Save,
            "reload" => Method::Reload,
            "clear" => Method::Clear,
            "rest" => Method::Rest,
            "stay" => Method::Stay,
            other => Method::Other(other.into()),
        }
    }

    /// How many bytes its name has.
    pub fn length(&self) -> usize {
        match self {
            Method::Add | Method::Get | Method::Put => 3,
            Method::Drop | Method::List | Method::Join | Method::Send | Method::Save | Method::Rest | Method::Stay => 4,
            Method::Leave | Method::Clear => 5,
            Method::Reload => 6,
            Method::Other(name) => name.len(),
        }
    }

    pub fn is_read(&self, kind: Kind) -> bool {
        match self {
            Method::Get => kind != Kind::Relay,
            Method::List => kind == Kind::Sheet,
            _ => false,
        }
    }

    /// Whether its turn asks something of the storage.
    pub fn is_storing(&self, args: &Value) -> bool {
        matches!(self, Method::Save | Method::Reload | Method::Clear) && *args == Value::Null
    }
}

/// A grain's state, with how many bytes spell it if it is a map.
pub struct State {
    pub value: Value,
    length: usize,
}

impl State {
    pub fn empty(kind: Kind) -> State {
        State { value: kind.empty(), length: EMPTY_LENGTH }
    }

    pub fn of(value: &Value) -> State {
        let length = if matches!(value, Value::Map(_)) { value.length() } else { EMPTY_LENGTH };
        State { value: value.clone(), length }
    }

    fn number(&self) -> i64 {
        match self.value {
            Value::Whole(number) => number,
            _ => 0,
        }
    }

    fn field(&self, name: &str) -> Option<&Value> {
        match &self.value {
            Value::Map(map) => place_of(map, name).ok().map(|place| &map[place].1),
            _ => None,
        }
    }

    /// Its map; a state of another shape becomes the empty one.
    fn map(&mut self) -> &mut Map {
        if !matches!(self.value, Value::Map(_)) {
            *self = State::empty(Kind::Sheet);
        }
        match &mut self.value {
            Value::Map(map) => map,
            _ => unreachable!("it was made a map"),
        }
    }

    /// The texts of a relay's members.
    fn members(&self) -> Vec<&str> {
        let Value::List(list) = &self.value else { return Vec::new() };
        if list.len() > MAX_MEMBERS {
            return Vec::new();
        }
        let mut members: Vec<&str> = Vec::with_capacity(MAX_MEMBERS);
        for member in list {
            match member.as_text() {
                Some(text) if parts_of_grain(text).is_some() && !members.contains(&text) => members.push(text),
                _ => return Vec::new(),
            }
        }
        members
    }

    fn set_members<'a>(&mut self, members: impl Iterator<Item = &'a str>) {
        self.value = Value::List(members.map(Value::text).collect());
    }
}

/// What a turn says of its activation.
pub enum Keep {
    Same,
    Rest,
    Stay(i64),
}

/// What a turn's call sends to each of a relay's members.
pub struct Sent {
    pub members: Vec<Box<str>>,
    pub method: Method,
    pub args: Value,
}

/// What a turn comes to, beside the state.
pub struct Outcome {
    pub answer: Result<Value, u8>,
    pub keep: Keep,
    pub sent: Option<Sent>,
}

/// Runs a method that asks nothing of the storage. If it is refused the state stays.
pub fn run(kind: Kind, method: &Method, state: &mut State, args: &Value) -> Outcome {
    let mut outcome = Outcome { answer: Ok(Value::Null), keep: Keep::Same, sent: None };
    outcome.answer = match (kind, method) {
        (Kind::Counter, Method::Add) => add(state, args),
        (Kind::Counter, Method::Get) => if_null(args, || Value::Whole(state.number())),
        (Kind::Sheet, Method::Put) => put(state, args),
        (Kind::Sheet, Method::Get) => {
            text_field(args, "name").map(|name| state.field(name).cloned().unwrap_or(Value::Null))
        }
        (Kind::Sheet, Method::Drop) => drop_field(state, args),
        (Kind::Sheet, Method::List) => if_null(args, || names(state)),
        (Kind::Relay, Method::Join) => join(state, args),
        (Kind::Relay, Method::Leave) => leave(state, args),
        (Kind::Relay, Method::Send) => send(state, args).map(|sent| {
            let count = sent.members.len();
            outcome.sent = Some(sent);
            Value::Whole(count as i64)
        }),
        (_, Method::Rest) => if_null(args, || {
            outcome.keep = Keep::Rest;
            Value::Null
        }),
        (_, Method::Stay) => match args.only_field("for") {
            Some(Value::Whole(time)) if (1..=MAX_STAY).contains(time) => {
                outcome.keep = Keep::Stay(*time);
                Ok(Value::Null)
            }
            _ => Err(codes::MISFIT),
        },
        // with an argument that isn't null; without one they ask the storage
        (_, Method::Save | Method::Reload | Method::Clear) => Err(codes::MISFIT),
        _ => Err(codes::UNKNOWN_METHOD),
    };
    outcome
}

fn if_null(args: &Value, answer: impl FnOnce() -> Value) -> Result<Value, u8> {
    if *args == Value::Null {
        Ok(answer())
    } else {
        Err(codes::MISFIT)
    }
}

fn text_field<'a>(args: &'a Value, name: &str) -> Result<&'a str, u8> {
    args.only_field(name).and_then(Value::as_text).ok_or(codes::MISFIT)
}

fn add(state: &mut State, args: &Value) -> Result<Value, u8> {
    let Some(Value::Whole(by)) = args.only_field("by") else { return Err(codes::MISFIT) };
    let sum = state.number().checked_add(*by).ok_or(codes::OUT_OF_RANGE)?;
    state.value = Value::Whole(sum);
    Ok(Value::Whole(sum))
}

fn put(state: &mut State, args: &Value) -> Result<Value, u8> {
    let Some((Value::Text(name), value)) = args.both_fields("name", "value") else { return Err(codes::MISFIT) };
    let before = state.field(name).map_or(0, |old| field_length(name, old));
    let base = if matches!(state.value, Value::Map(_)) { state.length } else { EMPTY_LENGTH };
    let length = base - before + field_length(name, value);
    if length > MAX_STATE {
        return Err(codes::STATE_TOO_LARGE);
    }
    let map = state.map();
    match place_of(map, name) {
        Ok(place) => map[place].1 = value.clone(),
        Err(place) => map.insert(place, (name.clone(), value.clone())),
    }
    state.length = length;
    Ok(Value::Null)
}

fn drop_field(state: &mut State, args: &Value) -> Result<Value, u8> {
    let name = text_field(args, "name")?;
    let map = state.map();
    let Ok(place) = place_of(map, name) else { return Ok(Value::Bool(false)) };
    let (_, value) = map.remove(place);
    state.length -= field_length(name, &value);
    Ok(Value::Bool(true))
}

fn names(state: &State) -> Value {
    match &state.value {
        Value::Map(map) => Value::List(map.iter().map(|(name, _)| Value::Text(name.clone())).collect()),
        _ => Value::List(Vec::new()),
    }
}

fn join(state: &mut State, args: &Value) -> Result<Value, u8> {
    let grain = text_field(args, "grain")?;
    parts_of_grain(grain).ok_or(codes::MISFIT)?;
    let members = state.members();
    if members.contains(&grain) {
        return Ok(Value::Bool(false));
    }
    if members.len() == MAX_MEMBERS {
        return Err(codes::OUT_OF_RANGE);
    }
    let joined: Vec<Box<str>> = members.into_iter().chain([grain]).map(Box::from).collect();
    state.set_members(joined.iter().map(|member| &**member));
    Ok(Value::Bool(true))
}

fn leave(state: &mut State, args: &Value) -> Result<Value, u8> {
    let grain = text_field(args, "grain")?;
    let members: Vec<Box<str>> = state.members().into_iter().map(Box::from).collect();
    state.set_members(members.iter().map(|member| &**member).filter(|member| *member != grain));
    Ok(Value::Bool(members.iter().any(|member| &**member == grain)))
}

fn send(state: &State, args: &Value) -> Result<Sent, u8> {
    let Some((args, Value::Text(method))) = args.both_fields("args", "method") else { return Err(codes::MISFIT) };
    let members = state.members().into_iter().map(Box::from).collect();
    Ok(Sent { members, method: Method::of(method), args: args.clone() })
}
