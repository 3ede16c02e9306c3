//! Values, and how many bytes their spelling would have.

pub const MAX_DEPTH: usize = 32;
pub const MAX_MESSAGE: usize = 65_536;
pub const MAX_STATE: usize = 262_144;

#[derive(Clone, PartialEq)]
pub enum Value {
    Null,
    Bool(bool),
    Whole(i64),
    Text(Box<str>),
    Bytes(Box<[u8]>),
    List(Vec<Value>),
    /// Names ascend, and none stands twice.
    Map(Map),
    /// A number of a line that is no whole number of 64 bits. No value that is kept has one.
    NotWhole,
    /// An object of a line that should be bytes, and isn't. No value that is kept has one.
    NotBytes,
}

pub type Map = Vec<(Box<str>, Value)>;

impl Value {
    pub fn text(text: &str) -> Value {
        Value::Text(text.into())
    }

    /// The value of the only field of a map, if it has this name.
    pub fn only_field(&self, name: &str) -> Option<&Value> {
        match self {
            Value::Map(map) if map.len() == 1 && &*map[0].0 == name => Some(&map[0].1),
            _ => None,
        }
    }

    /// The values of the two fields of a map, if these are their names, ascending.
    pub fn both_fields(&self, first: &str, second: &str) -> Option<(&Value, &Value)> {
        match self {
            Value::Map(map) if map.len() == 2 && &*map[0].0 == first && &*map[1].0 == second => {
                Some((&map[0].1, &map[1].1))
            }
            _ => None,
        }
    }

    pub fn as_text(&self) -> Option<&str> {
        match self {
            Value::Text(text) => Some(text),
            _ => None,
        }
    }

    pub fn depth(&self) -> usize {
        let deepest = match self {
            Value::List(list) => list.iter().map(Value::depth).max(),
            Value::Map(map) => map.iter().map(|(_, value)| value.depth()).max(),
            _ => None,
        };
        1 + deepest.unwrap_or(0)
    }

    /// Whether it is, or holds, a value that is equal to `what`, which is neither a list nor a map.
    pub fn holds(&self, what: &Value) -> bool {
        match self {
            Value::List(list) => list.iter().any(|value| value.holds(what)),
            Value::Map(map) => map.iter().any(|(_, value)| value.holds(what)),
            other => other == what,
        }
    }

    /// How many bytes spell it.
    pub fn length(&self) -> usize {
        match self {
            Value::Whole(_) => 9,
            Value::Text(text) => 5 + text.len(),
            Value::Bytes(bytes) => 5 + bytes.len(),
            Value::List(list) => 5 + list.iter().map(Value::length).sum::<usize>(),
            Value::Map(map) => 5 + map.iter().map(|(name, value)| field_length(name, value)).sum::<usize>(),
            _ => 1,
        }
    }
}

/// How many bytes spell a field of a map.
pub fn field_length(name: &str, value: &Value) -> usize {
    4 + name.len() + value.length()
}

/// The place of a name in a map, or where it would go.
pub fn place_of(map: &Map, name: &str) -> Result<usize, usize> {
    map.binary_search_by(|(other, _)| (**other).cmp(name))
}
