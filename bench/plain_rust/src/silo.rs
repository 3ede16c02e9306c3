//! The silo: tenants, their grains, and what each step does.

use crate::codes;
use crate::kinds::{run, Keep, Kind, Method, Sent, State};
use crate::line::{At, Said};
use crate::names::{parts_of_grain, tenant_of_caller, Table};
use crate::reply::{Fault, Reply, To};
use crate::value::Value;
use std::cmp::Reverse;
use std::collections::{BTreeMap, BinaryHeap, HashMap, VecDeque};
use std::sync::Arc;

/// While more of a tenant's sends wait, or their messages have more bytes, the turn of each that is delivered is given up.
const WAITING_CALLS: usize = 10_000;
const WAITING_BYTES: usize = 1_048_576;

#[derive(Clone, Copy)]
pub struct Limits {
    pub activations: u32,
    pub mailbox: usize,
}

/// What a silo is set up with.
#[derive(Clone)]
pub struct Setup {
    pub tenants: Vec<(String, Limits)>,
    pub age: i64,
    pub ages: HashMap<String, i64>,
    /// Whether it keeps the steps that were done and the replies.
    pub keeps: bool,
}

pub struct Tenant {
    limits: Option<Limits>,
    /// How many requests were accepted, and how many entries there are.
    requests: i64,
    entries: u32,
    /// The grains that sent something that isn't delivered, by when they sent it.
    sources: BTreeMap<u64, u32>,
    /// How many bytes their messages have.
    waiting: usize,
}

pub struct Grain {
    tenant: u32,
    kind: Option<Kind>,
    entry: Option<Box<Entry>>,
    row: Option<Row>,
    sends: VecDeque<Send>,
}

/// A row's version, and what it holds unless it was cleared.
struct Row {
    version: u64,
    content: Option<Arc<Value>>,
}

struct Send {
    moment: u64,
    target: u32,
    method: Method,
    args: Arc<Value>,
    /// How many bytes its message has.
    length: usize,
}

/// What is delivered next.
pub struct Oldest {
    pub source: u32,
    pub target: u32,
    pub length: usize,
}

struct Request {
    number: i64,
    sender: To,
    method: Method,
    args: Arc<Value>,
}

#[derive(PartialEq)]
enum Phase {
    Waiting,
    Loading,
    Ready,
}

struct Entry {
    phase: Phase,
    state: State,
    version: Option<u64>,
    mailbox: VecDeque<Request>,
    /// Open turns, by their numbers, which ascend.
    turns: VecDeque<Request>,
    last: i64,
    until: i64,
    rests: bool,
    /// The moment of the entry's place among those that may be due.
    noted: Option<i64>,
}

impl Entry {
    fn is_idle(&self) -> bool {
        self.phase == Phase::Ready && self.mailbox.is_empty() && self.turns.is_empty()
    }

    fn turn(&self, number: i64) -> Option<usize> {
        self.turns.binary_search_by_key(&number, |turn| turn.number).ok()
    }
}

/// A step that was done. The steps are kept for a journal, which this program doesn't write.
#[allow(dead_code)]
pub enum Step {
    Refuse { caller: u32, id: i64, code: u8 },
    Call { caller: u32, id: i64, grain: u32, method: Method, args: Arc<Value> },
    Poke { caller: u32, id: i64, grain: u32, state: Arc<Value> },
    Status { caller: u32, id: i64 },
    At(At, u32),
    Tick(i64),
    Sweep,
}

pub struct Silo {
    pub callers: Table<u32>,
    pub grains: Table<Grain>,
    pub tenants: Table<Tenant>,
    clock: i64,
    age: i64,
    ages: HashMap<String, i64>,
    /// Entries that may be due, each by its moment.
    due: BinaryHeap<Reverse<(i64, u32)>>,
    sent: u64,
    keeps: bool,
    steps: Vec<Step>,
    pub replies: Vec<Reply>,
}

impl Silo {
    pub fn new(setup: &Setup) -> Silo {
        let mut tenants = Table::new();
        for (name, limits) in &setup.tenants {
            tenants.add(name, Tenant { limits: Some(*limits), requests: 0, entries: 0, sources: BTreeMap::new(), waiting: 0 });
        }
        Silo {
            callers: Table::new(),
            grains: Table::new(),
            tenants,
            clock: 0,
            age: setup.age,
            ages: setup.ages.clone(),
            due: BinaryHeap::new(),
            sent: 0,
            keeps: setup.keeps,
            steps: Vec::new(),
            replies: Vec::new(),
        }
    }

    // ---- places of names

    fn place_of_tenant(&mut self, name: &str) -> u32 {
        let found = self.tenants.find(name);
        found.unwrap_or_else(|| {
            self.tenants.add(name, Tenant { limits: None, requests: 0, entries: 0, sources: BTreeMap::new(), waiting: 0 })
        })
    }

    pub fn place_of_caller(&mut self, text: &str) -> u32 {
        if let Some(place) = self.callers.find(text) {
            return place;
        }
        let tenant = self.place_of_tenant(tenant_of_caller(text).expect("a caller"));
        self.callers.add(text, tenant)
    }

    pub fn place_of_grain(&mut self, text: &str) -> u32 {
        if let Some(place) = self.grains.find(text) {
            return place;
        }
        let (kind, tenant, _) = parts_of_grain(text).expect("a grain");
        let tenant = self.place_of_tenant(tenant);
        let grain = Grain { tenant, kind: Kind::of(kind), entry: None, row: None, sends: VecDeque::new() };
        self.grains.add(text, grain)
    }

    fn entry(&mut self, grain: u32) -> Option<&mut Entry> {
        self.grains.at_mut(grain).entry.as_deref_mut()
    }

    // ---- steps

    /// Takes a step, and says whether it was possible. Its replies are the last ones.
    pub fn take(&mut self, said: Said) -> bool {
        match said {
            Said::Refuse { from, id, code } => {
                let caller = self.place_of_caller(&from);
                self.keep(|| Step::Refuse { caller, id, code });
                self.refuse(To::Client { caller, id }, Fault::bare(code));
            }
            Said::Call { from, id, grain, method, args } => {
                let (caller, grain) = (self.place_of_caller(&from), self.place_of_grain(&grain));
                self.call(caller, id, grain, method, args);
            }
            Said::Poke { from, id, grain, state } => {
                let (caller, grain) = (self.place_of_caller(&from), self.place_of_grain(&grain));
                self.keep(|| Step::Poke { caller, id, grain, state: state.clone() });
                let what = self.poke(*self.callers.at(caller), grain, state);
                self.replies.push(Reply { to: To::Client { caller, id }, what });
            }
            Said::Status { from, id } => {
                let caller = self.place_of_caller(&from);
                self.keep(|| Step::Status { caller, id });
                let what = self.status(*self.callers.at(caller));
                self.replies.push(Reply { to: To::Client { caller, id }, what });
            }
            Said::Tick(now) => {
                if now < self.clock {
                    return false;
                }
                self.clock = now;
                self.keep(|| Step::Tick(now));
            }
            Said::Sweep => {
                self.sweep();
                self.keep(|| Step::Sweep);
            }
            Said::At(at, grain) => return self.grains.find(&grain).is_some_and(|grain| self.take_at(at, grain)),
        }
        true
    }

    /// Takes a step on a grain, and says whether it was possible.
    pub fn take_at(&mut self, at: At, grain: u32) -> bool {
        let is_done = match at {
            At::Deliver => self.deliver(grain),
            At::Activate => self.activate(grain),
            At::Begin => self.begin(grain),
            At::Load { failed } => self.load(grain, failed),
            At::End { turn } => self.end(grain, turn),
            At::Store { turn, failed } => self.store(grain, turn, failed),
            At::Abandon { turn } => self.abandon(grain, turn),
        };
        if is_done {
            self.keep(|| Step::At(at, grain));
        }
        is_done
    }

    fn keep(&mut self, step: impl FnOnce() -> Step) {
        if self.keeps {
            self.steps.push(step());
        }
    }

    fn refuse(&mut self, to: To, fault: Fault) {
        self.replies.push(Reply { to, what: Err(fault) });
    }

    /// A client hears what its request came to. A grain doesn't.
    fn answer(&mut self, to: To, what: Result<Value, Fault>) {
        if matches!(to, To::Client { .. }) {
            self.replies.push(Reply { to, what });
        }
    }

    pub fn call(&mut self, caller: u32, id: i64, grain: u32, method: Method, args: Arc<Value>) {
        self.keep(|| Step::Call { caller, id, grain, method: method.clone(), args: args.clone() });
        self.request(*self.callers.at(caller), To::Client { caller, id }, grain, method, args);
    }

    /// Why a tenant may ask nothing of a grain.
    fn check(&self, tenant: u32, grain: u32) -> Result<Limits, Fault> {
        let limits = self.tenants.at(tenant).limits.ok_or(Fault { code: codes::UNKNOWN_TENANT, tenant, grain })?;
        let found = self.grains.at(grain);
        if found.tenant != tenant {
            return Err(Fault { code: codes::ACROSS_TENANTS, tenant, grain });
        }
        found.kind.map(|_| limits).ok_or(Fault { code: codes::UNKNOWN_KIND, tenant, grain })
    }

    fn request(&mut self, tenant: u32, sender: To, grain: u32, method: Method, args: Arc<Value>) {
        if let Err(fault) = self.accept(tenant, sender, grain, method, args) {
            self.refuse(sender, fault);
        }
    }

    fn accept(&mut self, tenant: u32, sender: To, grain: u32, method: Method, args: Arc<Value>) -> Result<(), Fault> {
        let limits = self.check(tenant, grain)?;
        let fault = |code| Fault { code, tenant, grain };
        let whose = self.tenants.at_mut(tenant);
        let number = whose.requests.checked_add(1).ok_or(fault(codes::NO_NUMBER))?;
        let found = self.grains.at_mut(grain);
        let entry = match &mut found.entry {
            Some(entry) if entry.mailbox.len() >= limits.mailbox => return Err(fault(codes::MAILBOX_FULL)),
            Some(entry) => entry,
            None if whose.entries >= limits.activations => return Err(fault(codes::NO_ACTIVATION)),
            none => {
                whose.entries += 1;
                none.insert(Box::new(Entry {
                    phase: Phase::Waiting,
                    state: State::empty(Kind::Counter),
                    version: None,
                    mailbox: VecDeque::with_capacity(1),
                    turns: VecDeque::with_capacity(1),
                    last: 0,
                    until: 0,
                    rests: false,
                    noted: None,
                }))
            }
        };
        whose.requests = number;
        entry.mailbox.push_back(Request { number, sender, method, args });
        entry.last = self.clock;
        Ok(())
    }

    fn poke(&mut self, tenant: u32, grain: u32, state: Arc<Value>) -> Result<Value, Fault> {
        self.check(tenant, grain)?;
        let version = match &self.grains.at(grain).row {
            Some(row) => row.version.checked_add(1).ok_or(Fault { code: codes::VERSIONS_SPENT, tenant, grain })?,
            None => 1,
        };
        self.grains.at_mut(grain).row = Some(Row { version, content: Some(state) });
        Ok(version_value(Some(version)))
    }

    fn status(&self, tenant: u32) -> Result<Value, Fault> {
        let found = self.tenants.at(tenant);
        if found.limits.is_none() {
            return Err(Fault { code: codes::UNKNOWN_TENANT, tenant, grain: 0 });
        }
        Ok(Value::Map(vec![
            ("activations".into(), Value::Whole(found.entries.into())),
            ("clock".into(), Value::Whole(self.clock)),
            ("requests".into(), Value::Whole(found.requests)),
        ]))
    }

    fn deliver(&mut self, source: u32) -> bool {
        let found = self.grains.at_mut(source);
        let Some(send) = found.sends.pop_front() else { return false };
        let tenant = found.tenant;
        let owner = self.tenants.at_mut(tenant);
        owner.sources.remove(&send.moment);
        owner.waiting -= send.length;
        self.request(tenant, To::Grain(source), send.target, send.method, send.args);
        true
    }

    /// The oldest of a tenant's sends.
    pub fn oldest_send(&self, tenant: u32) -> Option<Oldest> {
        let (_, source) = self.tenants.at(tenant).sources.first_key_value()?;
        let send = self.grains.at(*source).sends.front()?;
        Some(Oldest { source: *source, target: send.target, length: send.length })
    }

    /// Whether more of a tenant's sends wait than may.
    pub fn too_many_wait(&self, tenant: u32) -> bool {
        let found = self.tenants.at(tenant);
        found.sources.len() > WAITING_CALLS || found.waiting > WAITING_BYTES
    }

    fn activate(&mut self, grain: u32) -> bool {
        match self.entry(grain) {
            Some(entry) if entry.phase == Phase::Waiting => {
                entry.phase = Phase::Loading;
                true
            }
            _ => false,
        }
    }

    fn load(&mut self, grain: u32, failed: bool) -> bool {
        let Grain { entry: Some(entry), row, kind: Some(kind), .. } = self.grains.at_mut(grain) else { return false };
        if entry.phase != Phase::Loading {
            return false;
        }
        if !failed {
            take_row(*kind, entry, row.as_ref());
            entry.phase = Phase::Ready;
            entry.until = 0;
            entry.rests = false;
            return true;
        }
        let waiting = std::mem::take(&mut entry.mailbox);
        self.remove(grain);
        for request in waiting {
            self.answer(request.sender, Err(Fault::bare(codes::STORAGE_FAILED)));
        }
        true
    }

    fn remove(&mut self, grain: u32) {
        let found = self.grains.at_mut(grain);
        found.entry = None;
        let tenant = found.tenant;
        self.tenants.at_mut(tenant).entries -= 1;
    }

    fn begin(&mut self, grain: u32) -> bool {
        let Grain { entry: Some(entry), kind: Some(kind), .. } = self.grains.at_mut(grain) else { return false };
        let Some(request) = entry.mailbox.front() else { return false };
        // the open turns all read, or there is one
        let may_open = match entry.turns.front() {
            None => true,
            Some(turn) => request.method.is_read(*kind) && turn.method.is_read(*kind),
        };
        if entry.phase != Phase::Ready || !may_open {
            return false;
        }
        entry.turns.extend(entry.mailbox.pop_front());
        true
    }

    /// The number of the grain's first open turn, and whether it asks something of the storage.
    pub fn first_turn(&mut self, grain: u32) -> Option<(i64, bool)> {
        let turn = self.entry(grain)?.turns.front()?;
        Some((turn.number, turn.method.is_storing(&turn.args)))
    }

    fn end(&mut self, grain: u32, number: i64) -> bool {
        let Grain { entry: Some(entry), kind: Some(kind), tenant, .. } = self.grains.at_mut(grain) else {
            return false;
        };
        let Some(place) = entry.turn(number) else { return false };
        let turn = &entry.turns[place];
        if turn.method.is_storing(&turn.args) {
            return false;
        }
        let outcome = run(*kind, &turn.method, &mut entry.state, &turn.args);
        let (tenant, sender) = (*tenant, turn.sender);
        self.close(grain, place, outcome.keep);
        if let Some(sent) = outcome.sent {
            self.send(tenant, grain, sent);
        }
        self.answer(sender, outcome.answer.map_err(Fault::bare));
        true
    }

    fn send(&mut self, tenant: u32, source: u32, sent: Sent) {
        let args = Arc::new(sent.args);
        let length = message_length(&sent.method, &args);
        for member in sent.members {
            let target = self.place_of_grain(&member);
            self.sent += 1;
            let send = Send { moment: self.sent, target, method: sent.method.clone(), args: args.clone(), length };
            self.grains.at_mut(source).sends.push_back(send);
            let owner = self.tenants.at_mut(tenant);
            owner.sources.insert(self.sent, source);
            owner.waiting += length;
        }
    }

    /// Closes a turn, by its place among the open ones.
    fn close(&mut self, grain: u32, place: usize, keep: Keep) {
        let clock = self.clock;
        let kind = self.grains.at(grain).kind;
        let Some(entry) = self.entry(grain) else { return };
        entry.turns.remove(place);
        entry.last = clock;
        match keep {
            Keep::Same => {}
            Keep::Rest => (entry.until, entry.rests) = (0, true),
            Keep::Stay(time) => (entry.until, entry.rests) = (clock.saturating_add(time), false),
        }
        if !entry.is_idle() {
            return;
        }
        if entry.rests {
            self.remove(grain);
        } else if let Some(kind) = kind {
            self.note(grain, kind);
        }
    }

    // ---- the storage

    fn store(&mut self, grain: u32, number: i64, failed: bool) -> bool {
        let Grain { entry: Some(entry), kind: Some(kind), row, tenant, .. } = self.grains.at_mut(grain) else {
            return false;
        };
        let Some(place) = entry.turn(number) else { return false };
        let turn = &entry.turns[place];
        if !turn.method.is_storing(&turn.args) {
            return false;
        }
        let (method, sender) = (turn.method.clone(), turn.sender);
        let what = if failed { Err(codes::STORAGE_FAILED) } else { ask_storage(*kind, &method, entry, row) };
        let tenant = *tenant;
        let is_stale = matches!(what, Err(codes::STATE_CHANGED));
        if is_stale {
            entry.turns.remove(place);
            entry.phase = Phase::Waiting;
            if entry.mailbox.is_empty() {
                self.remove(grain);
            }
        } else {
            self.close(grain, place, Keep::Same);
        }
        self.answer(sender, what.map(version_value).map_err(|code| Fault { code, tenant, grain }));
        true
    }

    fn abandon(&mut self, grain: u32, number: i64) -> bool {
        let Some(entry) = self.entry(grain) else { return false };
        let Some(place) = entry.turn(number) else { return false };
        let sender = entry.turns[place].sender;
        self.close(grain, place, Keep::Same);
        self.answer(sender, Err(Fault::bare(codes::NO_MEMORY)));
        true
    }

    // ---- collection

    fn age_of(&self, kind: Kind) -> i64 {
        if self.ages.is_empty() {
            return self.age;
        }
        let name = match kind {
            Kind::Counter => "counter",
            Kind::Sheet => "sheet",
            Kind::Relay => "relay",
        };
        *self.ages.get(name).unwrap_or(&self.age)
    }

    /// Notes when an idle entry is due, unless an earlier moment is noted, at which it is looked at again.
    fn note(&mut self, grain: u32, kind: Kind) {
        let age = self.age_of(kind);
        let Some(entry) = self.entry(grain) else { return };
        let due = entry.last.saturating_add(age).max(entry.until);
        if entry.noted.is_some_and(|noted| noted <= due) {
            return;
        }
        entry.noted = Some(due);
        self.due.push(Reverse((due, grain)));
    }

    fn sweep(&mut self) {
        while let Some(Reverse((noted, grain))) = self.due.peek().copied() {
            if noted > self.clock {
                break;
            }
            self.due.pop();
            let clock = self.clock;
            let Some(kind) = self.grains.at(grain).kind else { continue };
            let age = self.age_of(kind);
            let Some(entry) = self.entry(grain).filter(|entry| entry.noted == Some(noted)) else { continue };
            entry.noted = None;
            if !entry.is_idle() {
                continue;
            }
            // without overflow: `last` isn't above the clock
            if clock - entry.last >= age && entry.until <= clock {
                self.remove(grain);
            } else {
                self.note(grain, kind);
            }
        }
    }
}

/// How many bytes spell it: its form, the method as a text, and the argument.
fn message_length(method: &Method, args: &Value) -> usize {
    5 + method.length() + args.length()
}

fn version_value(version: Option<u64>) -> Value {
    version.map_or(Value::Null, |version| Value::text(&version.to_string()))
}

fn take_row(kind: Kind, entry: &mut Entry, row: Option<&Row>) {
    entry.version = row.map(|row| row.version);
    entry.state = match row.and_then(|row| row.content.as_deref()) {
        Some(content) => State::of(content),
        None => State::empty(kind),
    };
}

/// Reads, writes or clears an entry's row, and gives the version that the entry then stands on.
fn ask_storage(kind: Kind, method: &Method, entry: &mut Entry, row: &mut Option<Row>) -> Result<Option<u64>, u8> {
    if matches!(method, Method::Reload) {
        take_row(kind, entry, row.as_ref());
        return Ok(entry.version);
    }
    let found = row.as_ref().map(|row| row.version);
    if found != entry.version {
        return Err(codes::STATE_CHANGED);
    }
    let next = found.unwrap_or(0).checked_add(1).ok_or(codes::VERSIONS_SPENT)?;
    if matches!(method, Method::Save) {
        *row = Some(Row { version: next, content: Some(Arc::new(entry.state.value.clone())) });
        entry.version = Some(next);
    } else {
        if row.is_some() {
            *row = Some(Row { version: next, content: None });
            entry.version = Some(next);
        }
        entry.state = State::empty(kind);
    }
    Ok(entry.version)
}
