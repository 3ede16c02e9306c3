//! The words of the command line.

use crate::names::is_word;
use crate::silo::{Limits, Setup};
use std::collections::HashMap;

const USAGE: &str = "usage: plain_rust steps|answer|serve [--age MS] [--ages KIND=MS,..] [--sends N] [--workers N] [--forget] TENANT:ACT:MAIL..";
const MAX_TENANTS: usize = 1_000;
const MAX_ACTIVATIONS: u32 = 10_000;
const MAX_MAILBOX: u32 = 1_000;
const MAX_AGE: u32 = 86_400_000;
const MAX_AGES: usize = 64;
const MAX_SENDS: u32 = 1_000_000;
const MAX_WORKERS: u32 = 64;

pub enum Command {
    Steps,
    Answer { sends: u32 },
    Serve { workers: usize },
}

pub struct Words {
    pub command: Command,
    pub setup: Setup,
}

/// Digits without a sign or a leading zero.
fn number(text: &str, least: u32, most: u32) -> Option<u32> {
    let is_plain = text.bytes().all(|byte| byte.is_ascii_digit()) && (text == "0" || !text.starts_with('0'));
    let found = text.parse().ok()?;
    (is_plain && (least..=most).contains(&found)).then_some(found)
}

fn tenant_of(word: &str) -> Option<(String, Limits)> {
    let mut parts = word.split(':');
    let (name, activations, mailbox) = (parts.next()?, parts.next()?, parts.next()?);
    if parts.next().is_some() || !is_word(name) {
        return None;
    }
    let (activations, mailbox) = (number(activations, 1, MAX_ACTIVATIONS)?, number(mailbox, 1, MAX_MAILBOX)?);
    Some((name.to_string(), Limits { activations, mailbox: mailbox as usize }))
}

fn ages_of(text: &str) -> Option<HashMap<String, i64>> {
    let mut ages = HashMap::new();
    for part in text.split(',') {
        let (kind, age) = part.split_once('=')?;
        let age = number(age, 1, MAX_AGE)?;
        if !is_word(kind) || ages.len() == MAX_AGES || ages.insert(kind.to_string(), age.into()).is_some() {
            return None;
        }
    }
    Some(ages)
}

impl Words {
    pub fn read(mut words: impl Iterator<Item = String>) -> Result<Words, String> {
        let command = words.next().unwrap_or_default();
        let (mut age, mut ages, mut sends, mut workers, mut keeps) = (900_000, None, 1_000, 4, true);
        let mut names = Vec::new();
        while let Some(word) = words.next() {
            if word == "--" {
                names.extend(words);
                break;
            }
            if word == "--forget" {
                keeps = false;
                continue;
            }
            if !word.starts_with('-') {
                names.push(word);
                continue;
            }
            let (name, given) = match word.split_once('=') {
                Some((name, given)) => (name, given.to_string()),
                None => (word.as_str(), words.next().ok_or(USAGE)?),
            };
            match name {
                "--age" => age = number(&given, 1, MAX_AGE).ok_or(USAGE)?,
                "--ages" => ages = Some(given),
                "--sends" if command == "answer" => sends = number(&given, 0, MAX_SENDS).ok_or(USAGE)?,
                "--workers" if command == "serve" => workers = number(&given, 1, MAX_WORKERS).ok_or(USAGE)?,
                _ => return Err(USAGE.to_string()),
            }
        }
        let command = match command.as_str() {
            "steps" => Command::Steps,
            "answer" => Command::Answer { sends },
            "serve" => Command::Serve { workers: workers as usize },
            _ => return Err(USAGE.to_string()),
        };
        let setup = Setup { tenants: tenants_of(&names)?, age: age.into(), ages: HashMap::new(), keeps };
        let ages = match ages {
            Some(text) => ages_of(&text).ok_or("silo: ages are refused")?,
            None => HashMap::new(),
        };
        Ok(Words { command, setup: Setup { ages, ..setup } })
    }
}

fn tenants_of(names: &[String]) -> Result<Vec<(String, Limits)>, String> {
    if names.is_empty() {
        return Err(USAGE.to_string());
    }
    let mut found: Vec<(String, Limits)> = Vec::new();
    for (place, word) in names.iter().enumerate() {
        let tenant =
            tenant_of(word).filter(|(name, _)| place < MAX_TENANTS && found.iter().all(|(other, _)| other != name));
        found.push(tenant.ok_or_else(|| format!("silo: tenant argument {} is refused", place + 1))?);
    }
    Ok(found)
}
