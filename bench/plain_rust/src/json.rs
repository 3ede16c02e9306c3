//! Reads JSON from a line, and writes it.

use crate::value::{Map, Value, MAX_DEPTH};
use std::borrow::Cow;

const MAX_LEVELS: usize = 127;

/// The line is no JSON.
pub struct NotJson;

pub type Read<T> = Result<T, NotJson>;

/// A reader of the values of one line.
pub struct Reader<'a> {
    text: &'a str,
    place: usize,
    levels: usize,
    /// What was read may be no value: a list or a map is too deep, or a number or bytes don't fit.
    pub is_suspect: bool,
}

impl<'a> Reader<'a> {
    pub fn new(text: &'a str) -> Reader<'a> {
        Reader { text, place: 0, levels: 0, is_suspect: false }
    }

    fn peek(&self) -> u8 {
        // no byte of a line's JSON outside its texts is 0
        self.text.as_bytes().get(self.place).copied().unwrap_or(0)
    }

    pub fn skip_spaces(&mut self) {
        while matches!(self.peek(), b' ' | b'\t' | b'\n' | b'\r') {
            self.place += 1;
        }
    }

    pub fn next_is(&mut self, byte: u8) -> bool {
        self.skip_spaces();
        let found = self.peek() == byte;
        self.place += usize::from(found);
        found
    }

    pub fn expect(&mut self, byte: u8) -> Read<()> {
        if self.next_is(byte) {
            Ok(())
        } else {
            Err(NotJson)
        }
    }

    pub fn expect_end(&mut self) -> Read<()> {
        self.skip_spaces();
        if self.place == self.text.len() {
            Ok(())
        } else {
            Err(NotJson)
        }
    }

    pub fn is_at_text(&mut self) -> bool {
        self.skip_spaces();
        self.peek() == b'"'
    }

    /// Enters a list or an object.
    pub fn enter(&mut self) -> Read<()> {
        if self.levels == MAX_LEVELS {
            return Err(NotJson);
        }
        self.levels += 1;
        // the line's own object is the first level
        self.is_suspect |= self.levels > MAX_DEPTH;
        Ok(())
    }

    pub fn leave(&mut self) {
        self.levels -= 1;
    }

    pub fn value(&mut self) -> Read<Value> {
        self.skip_spaces();
        match self.peek() {
            b'{' => self.object(),
            b'[' => self.list(),
            b'"' => Ok(Value::Text(self.text()?.into())),
            b'n' => self.word("null", Value::Null),
            b't' => self.word("true", Value::Bool(true)),
            b'f' => self.word("false", Value::Bool(false)),
            _ => self.number(),
        }
    }

    fn word(&mut self, word: &str, value: Value) -> Read<Value> {
        if !self.text.as_bytes()[self.place..].starts_with(word.as_bytes()) {
            return Err(NotJson);
        }
        self.place += word.len();
        Ok(value)
    }

    fn list(&mut self) -> Read<Value> {
        self.place += 1;
        self.enter()?;
        let mut list = Vec::new();
        if !self.next_is(b']') {
            loop {
                list.push(self.value()?);
                if self.next_is(b']') {
                    break;
                }
                self.expect(b',')?;
            }
        }
        self.leave();
        Ok(Value::List(list))
    }

    fn object(&mut self) -> Read<Value> {
        self.place += 1;
        self.enter()?;
        let mut map = Map::new();
        if !self.next_is(b'}') {
            map.reserve_exact(1);
            loop {
                let name: Box<str> = self.name()?.into();
                let value = self.value()?;
                map.push((name, value));
                if self.next_is(b'}') {
                    break;
                }
                self.expect(b',')?;
            }
        }
        self.leave();
        Ok(self.map_or_bytes(in_order(map)))
    }

    /// A member's name, and the colon after it.
    pub fn name(&mut self) -> Read<Cow<'a, str>> {
        if !self.is_at_text() {
            return Err(NotJson);
        }
        let name = self.text()?;
        self.expect(b':')?;
        Ok(name)
    }

    fn map_or_bytes(&mut self, map: Map) -> Value {
        if map.len() != 1 || &*map[0].0 != "$hex" {
            return Value::Map(map);
        }
        match map[0].1.as_text().and_then(bytes_of) {
            Some(bytes) => Value::Bytes(bytes),
            None => {
                self.is_suspect = true;
                Value::NotBytes
            }
        }
    }

    /// The text whose opening quote is next.
    pub fn text(&mut self) -> Read<Cow<'a, str>> {
        self.place += 1;
        let start = self.place;
        let end = self.plain_end();
        self.place = end + 1;
        match self.text.as_bytes().get(end) {
            Some(b'"') => Ok(Cow::Borrowed(&self.text[start..end])),
            Some(b'\\') => self.escaped(self.text[start..end].to_string()),
            _ => Err(NotJson),
        }
    }

    /// Where the next byte of a text is that isn't plain.
    fn plain_end(&self) -> usize {
        let bytes = &self.text.as_bytes()[self.place..];
        let plain = bytes.iter().position(|&byte| byte == b'"' || byte == b'\\' || byte < b' ');
        self.place + plain.unwrap_or(bytes.len())
    }

    /// The rest of a text behind a backslash, after what it begins with.
    fn escaped(&mut self, mut found: String) -> Read<Cow<'a, str>> {
        loop {
            let letter = self.peek();
            self.place += 1;
            found.push(match letter {
                b'"' | b'\\' | b'/' => letter as char,
                b'b' => '\u{8}',
                b'f' => '\u{c}',
                b'n' => '\n',
                b'r' => '\r',
                b't' => '\t',
                b'u' => self.escaped_char()?,
                _ => return Err(NotJson),
            });
            let end = self.plain_end();
            found.push_str(&self.text[self.place..end]);
            self.place = end + 1;
            match self.text.as_bytes().get(end) {
                Some(b'"') => return Ok(Cow::Owned(found)),
                Some(b'\\') => {}
                _ => return Err(NotJson),
            }
        }
    }

    fn escaped_char(&mut self) -> Read<char> {
        let unit = self.unit()?;
        if !(0xD800..0xDC00).contains(&unit) {
            return char::from_u32(unit).ok_or(NotJson);
        }
        if !self.text.as_bytes()[self.place..].starts_with(b"\\u") {
            return Err(NotJson);
        }
        self.place += 2;
        let low = self.unit()?;
        if !(0xDC00..0xE000).contains(&low) {
            return Err(NotJson);
        }
        char::from_u32(0x10000 + ((unit - 0xD800) << 10) + (low - 0xDC00)).ok_or(NotJson)
    }

    /// Four hexadecimal digits.
    fn unit(&mut self) -> Read<u32> {
        let mut unit = 0;
        for _ in 0..4 {
            unit = unit * 16 + (self.peek() as char).to_digit(16).ok_or(NotJson)?;
            self.place += 1;
        }
        Ok(unit)
    }

    fn number(&mut self) -> Read<Value> {
        let start = self.place;
        self.place += usize::from(self.peek() == b'-');
        if self.peek() == b'0' {
            self.place += 1;
        } else {
            self.digits()?;
        }
        let whole_end = self.place;
        if self.peek() == b'.' {
            self.place += 1;
            self.digits()?;
        }
        if matches!(self.peek(), b'e' | b'E') {
            self.place += 1;
            self.place += usize::from(matches!(self.peek(), b'+' | b'-'));
            self.digits()?;
        }
        let text = &self.text[start..self.place];
        if self.place == whole_end && text != "-0" {
            if let Ok(number) = text.parse() {
                return Ok(Value::Whole(number));
            }
        }
        self.is_suspect = true;
        match text.parse::<f64>() {
            Ok(number) if number.is_finite() => Ok(Value::NotWhole),
            _ => Err(NotJson),
        }
    }

    /// One digit or more.
    fn digits(&mut self) -> Read<()> {
        let start = self.place;
        while self.peek().is_ascii_digit() {
            self.place += 1;
        }
        if self.place == start {
            return Err(NotJson);
        }
        Ok(())
    }
}

/// The map of these members, of which the last of a name counts.
fn in_order(mut map: Map) -> Map {
    if map.windows(2).all(|pair| pair[0].0 < pair[1].0) {
        return map;
    }
    map.reverse();
    map.sort_by(|one, other| one.0.cmp(&other.0));
    map.dedup_by(|one, other| one.0 == other.0);
    map
}

/// The bytes of these digits, which are pairs in lower case.
fn bytes_of(digits: &str) -> Option<Box<[u8]>> {
    fn digit(byte: u8) -> Option<u8> {
        match byte {
            b'0'..=b'9' => Some(byte - b'0'),
            b'a'..=b'f' => Some(byte - b'a' + 10),
            _ => None,
        }
    }
    if digits.len() % 2 != 0 {
        return None;
    }
    digits.as_bytes().chunks(2).map(|pair| Some(digit(pair[0])? * 16 + digit(pair[1])?)).collect()
}

// ---- writing

const HEX: &[u8; 16] = b"0123456789abcdef";

pub fn write_value(value: &Value, out: &mut Vec<u8>) {
    match value {
        Value::Bool(true) => out.extend_from_slice(b"true"),
        Value::Bool(false) => out.extend_from_slice(b"false"),
        Value::Whole(number) => write_whole(*number, out),
        Value::Text(text) => write_text(text, out),
        Value::Bytes(bytes) => {
            out.extend_from_slice(b"{\"$hex\":\"");
            out.extend(bytes.iter().flat_map(|&byte| [HEX[(byte >> 4) as usize], HEX[(byte & 15) as usize]]));
            out.extend_from_slice(b"\"}");
        }
        Value::List(list) => {
            out.push(b'[');
            for (place, member) in list.iter().enumerate() {
                if place > 0 {
                    out.push(b',');
                }
                write_value(member, out);
            }
            out.push(b']');
        }
        Value::Map(map) => {
            out.push(b'{');
            for (place, (name, member)) in map.iter().enumerate() {
                if place > 0 {
                    out.push(b',');
                }
                write_text(name, out);
                out.push(b':');
                write_value(member, out);
            }
            out.push(b'}');
        }
        _ => out.extend_from_slice(b"null"),
    }
}

pub fn write_whole(number: i64, out: &mut Vec<u8>) {
    let mut digits = [0; 20];
    let mut place = digits.len();
    let mut left = number.unsigned_abs();
    loop {
        place -= 1;
        digits[place] = b'0' + (left % 10) as u8;
        left /= 10;
        if left == 0 {
            break;
        }
    }
    if number < 0 {
        out.push(b'-');
    }
    out.extend_from_slice(&digits[place..]);
}

pub fn write_text(text: &str, out: &mut Vec<u8>) {
    out.push(b'"');
    let bytes = text.as_bytes();
    let mut start = 0;
    for (place, &byte) in bytes.iter().enumerate() {
        if byte >= b' ' && byte != b'"' && byte != b'\\' {
            continue;
        }
        out.extend_from_slice(&bytes[start..place]);
        start = place + 1;
        match byte {
            b'"' | b'\\' => out.extend_from_slice(&[b'\\', byte]),
            8 => out.extend_from_slice(b"\\b"),
            b'\t' => out.extend_from_slice(b"\\t"),
            b'\n' => out.extend_from_slice(b"\\n"),
            12 => out.extend_from_slice(b"\\f"),
            b'\r' => out.extend_from_slice(b"\\r"),
            _ => {
                out.extend_from_slice(b"\\u00");
                out.extend_from_slice(&[HEX[(byte >> 4) as usize], HEX[(byte & 15) as usize]]);
            }
        }
    }
    out.extend_from_slice(&bytes[start..]);
    out.push(b'"');
}
