//! Names of kinds, tenants, clients and grains, and tables that give each a place.

use std::collections::HashMap;
use std::sync::Arc;

const MAX_WORD: usize = 32;
const MAX_NAME: usize = 128;

pub fn is_word(text: &str) -> bool {
    let bytes = text.as_bytes();
    (1..=MAX_WORD).contains(&bytes.len())
        && bytes[0].is_ascii_lowercase()
        && bytes.iter().all(|byte| byte.is_ascii_lowercase() || byte.is_ascii_digit() || *byte == b'-')
}

fn is_name(text: &str) -> bool {
    (1..=MAX_NAME).contains(&text.len()) && text.bytes().all(|byte| byte.is_ascii_graphic())
}

/// A caller's tenant, if the text names a caller.
pub fn tenant_of_caller(text: &str) -> Option<&str> {
    let (tenant, client) = text.split_once('/')?;
    (is_word(tenant) && is_word(client)).then_some(tenant)
}

/// The parts of a grain's text: its kind, its tenant and its name.
pub fn parts_of_grain(text: &str) -> Option<(&str, &str, &str)> {
    let (kind, rest) = text.split_once('/')?;
    let (tenant, name) = rest.split_once(':')?;
    (is_word(kind) && is_word(tenant) && is_name(name)).then_some((kind, tenant, name))
}

/// What is known by text. Each text has a place from when it first comes.
pub struct Table<T> {
    places: HashMap<Arc<str>, u32>,
    pub items: Vec<(Arc<str>, T)>,
}

impl<T> Table<T> {
    pub fn new() -> Table<T> {
        Table { places: HashMap::new(), items: Vec::new() }
    }

    pub fn find(&self, text: &str) -> Option<u32> {
        self.places.get(text).copied()
    }

    /// A new text's place, with what is there.
    pub fn add(&mut self, text: &str, item: T) -> u32 {
        let (text, place): (Arc<str>, u32) = (text.into(), self.items.len() as u32);
        self.places.insert(text.clone(), place);
        self.items.push((text, item));
        place
    }

    pub fn text(&self, place: u32) -> &str {
        &self.items[place as usize].0
    }

    pub fn at(&self, place: u32) -> &T {
        &self.items[place as usize].1
    }

    pub fn at_mut(&mut self, place: u32) -> &mut T {
        &mut self.items[place as usize].1
    }
}
