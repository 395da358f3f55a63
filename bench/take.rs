//! A client in plain Rust that takes the replies that `bench_libraries take` takes: `take ITEMS TURNS`. It prints what `bench_libraries` prints.
//! It checks a reply as the proved client does, evaluates each item on the values below its position, can take back what it
//! put, keeps each reply in its trace, and drops what the commit told makes old. No client here has an action of its own.
use std::collections::VecDeque;
use std::env;
use std::hint::black_box;
use std::time::Instant;

const OBJECTS: u16 = 1000;

type Value = Vec<i64>;

#[allow(dead_code)]
enum Expr {
    Lit(i64),
    Attr { slot: u8, attr: u8 },
    Add(Box<Expr>, Box<Expr>),
    Mul(Box<Expr>, Box<Expr>),
}

struct Set {
    slot: u8,
    attr: u8,
    expr: Expr,
}

struct Action {
    reads: Vec<u16>,
    mask: u16,
    body: Vec<Set>,
}

#[allow(dead_code)]
struct Item {
    pos: u32,
    client: u16,
    seq: u32,
    action: Action,
}

enum Reply {
    Welcome { commit: u32, head: Vec<(u16, Value)> },
    Relay { seq: u32, commit: u32, head: Vec<(u16, Value)>, items: Vec<Item> },
    Noted { commit: u32 },
}

#[derive(Clone, Copy, PartialEq)]
enum Awaited {
    Join,
    Done,
    Poll,
}

#[derive(Debug)]
enum Fault {
    Unasked,
    WrongKind,
    BadOrder,
    BadItem,
    Missing,
}

#[allow(dead_code)]
enum Event {
    Join(u16),
    Poll,
    Got(u16, Reply),
}

/// What a put changed.
struct Change {
    object: u16,
    pos: u32,
    was: Option<Value>,
}

#[derive(Default)]
struct Versions {
    /// By object, in the order of their positions.
    held: Vec<Vec<(u32, Value)>>,
    /// The objects that may have more than one.
    crowded: Vec<u16>,
}

impl Versions {
    fn below(&self, object: u16, pos: u32) -> Option<&Value> {
        self.held[object as usize].iter().rev().find(|version| version.0 < pos).map(|version| &version.1)
    }

    fn put(&mut self, object: u16, pos: u32, value: Value) -> Change {
        let versions = &mut self.held[object as usize];
        if versions.len() == 1 {
            self.crowded.push(object);
        }
        let mut count = versions.len();
        while count > 0 && versions[count - 1].0 > pos {
            count -= 1;
        }
        if count > 0 && versions[count - 1].0 == pos {
            let was = std::mem::replace(&mut versions[count - 1].1, value);
            return Change { object, pos, was: Some(was) };
        }
        versions.insert(count, (pos, value));
        Change { object, pos, was: None }
    }

    fn take_back(&mut self, change: Change) {
        let versions = &mut self.held[change.object as usize];
        if let Some(index) = versions.iter().position(|version| version.0 == change.pos) {
            match change.was {
                Some(value) => versions[index].1 = value,
                None => {
                    versions.remove(index);
                }
            }
        }
    }

    fn prune(&mut self, commit: u32) {
        let held = &mut self.held;
        for object in &self.crowded {
            let versions = &mut held[*object as usize];
            let old = versions.iter().rev().skip_while(|version| version.0 > commit).count();
            if old > 1 {
                versions.drain(..old - 1);
            }
        }
        self.crowded.retain(|object| held[*object as usize].len() > 1);
    }
}

struct Client {
    versions: Versions,
    awaited: VecDeque<Awaited>,
    events: Vec<Event>,
    told: u32,
}

fn evaluate(expr: &Expr, values: &[Value]) -> Option<i64> {
    match expr {
        Expr::Lit(number) => Some(*number),
        Expr::Attr { slot, attr } => Some(values[*slot as usize][*attr as usize]),
        Expr::Add(left, right) => evaluate(left, values)?.checked_add(evaluate(right, values)?),
        Expr::Mul(left, right) => evaluate(left, values)?.checked_mul(evaluate(right, values)?),
    }
}

/// The new values of the written objects, which are the old ones where the action is void.
fn run(action: &Action, mut values: Vec<Value>) -> Vec<Value> {
    let before = values.clone();
    for set in &action.body {
        match evaluate(&set.expr, &values) {
            Some(number) => values[set.slot as usize][set.attr as usize] = number,
            None => {
                values = before;
                break;
            }
        }
    }
    values.into_iter().enumerate().filter(|(slot, _)| action.mask >> slot & 1 == 1).map(|(_, value)| value).collect()
}

fn ascend<T: PartialOrd>(mut items: impl Iterator<Item = T>) -> bool {
    let Some(mut last) = items.next() else {
        return true;
    };
    for item in items {
        if item <= last {
            return false;
        }
        last = item;
    }
    true
}

fn is_good_expr(expr: &Expr, reads: usize) -> bool {
    match expr {
        Expr::Lit(_) => true,
        Expr::Attr { slot, attr } => (*slot as usize) < reads && *attr < 1,
        Expr::Add(left, right) | Expr::Mul(left, right) => is_good_expr(left, reads) && is_good_expr(right, reads),
    }
}

fn is_good(action: &Action) -> bool {
    let reads = action.reads.len();
    (1..=16).contains(&reads)
        && ascend(action.reads.iter())
        && action.reads.iter().all(|object| *object < OBJECTS)
        && u32::from(action.mask) >> reads == 0
        && action.body.len() <= 64
        && action.body.iter().all(|set| action.mask >> set.slot & 1 == 1 && set.attr < 1 && is_good_expr(&set.expr, reads))
}

type Results = Vec<(u32, Vec<Value>)>;

impl Client {
    fn look_at(&self, reply: &Reply) -> Result<(), Fault> {
        let awaited = *self.awaited.front().ok_or(Fault::Unasked)?;
        let is_allowed = match reply {
            Reply::Welcome { .. } => awaited == Awaited::Join,
            Reply::Relay { .. } => awaited == Awaited::Poll,
            Reply::Noted { .. } => awaited == Awaited::Done,
        };
        if !is_allowed {
            return Err(Fault::WrongKind);
        }
        let (commit, head, items) = match reply {
            Reply::Welcome { commit, head } => (*commit, head.as_slice(), [].as_slice()),
            Reply::Relay { commit, head, items, .. } => (*commit, head.as_slice(), items.as_slice()),
            Reply::Noted { commit } => (*commit, [].as_slice(), [].as_slice()),
        };
        let is_behind = items.first().is_some_and(|item| item.pos <= commit);
        if commit < self.told || is_behind || !ascend(head.iter().map(|held| held.0)) || !ascend(items.iter().map(|item| item.pos)) {
            return Err(Fault::BadOrder);
        }
        if head.iter().any(|held| held.0 >= OBJECTS || held.1.len() != 1) || items.iter().any(|item| !is_good(&item.action)) {
            return Err(Fault::BadItem);
        }
        if let Reply::Relay { seq, .. } = reply {
            if *seq != 0 {
                return Err(Fault::BadItem);
            }
        }
        Ok(())
    }

    fn evaluate_items(&mut self, undo: &mut Vec<Change>, items: &[Item]) -> Result<Results, Fault> {
        let mut results = Vec::with_capacity(items.len());
        for item in items {
            let mut values = Vec::with_capacity(item.action.reads.len());
            for object in &item.action.reads {
                values.push(self.versions.below(*object, item.pos).ok_or(Fault::Missing)?.clone());
            }
            let writes = run(&item.action, values);
            let written = item.action.reads.iter().enumerate().filter(|(slot, _)| item.action.mask >> slot & 1 == 1);
            for ((_, object), value) in written.zip(&writes) {
                undo.push(self.versions.put(*object, item.pos, value.clone()));
            }
            results.push((item.pos, writes));
        }
        Ok(results)
    }

    fn apply(&mut self, undo: &mut Vec<Change>, reply: &Reply) -> Result<Option<Results>, Fault> {
        match reply {
            Reply::Welcome { commit, head } => {
                for (object, value) in head {
                    undo.push(self.versions.put(*object, *commit, value.clone()));
                }
                Ok(None)
            }
            Reply::Relay { commit, head, items, .. } => {
                for (object, value) in head {
                    undo.push(self.versions.put(*object, *commit, value.clone()));
                }
                self.evaluate_items(undo, items).map(Some)
            }
            Reply::Noted { .. } => Ok(None),
        }
    }

    fn take(&mut self, reply: Reply) -> Result<Option<Results>, Fault> {
        self.look_at(&reply)?;
        let mut undo = Vec::new();
        let results = match self.apply(&mut undo, &reply) {
            Ok(results) => results,
            Err(fault) => {
                while let Some(change) = undo.pop() {
                    self.versions.take_back(change);
                }
                return Err(fault);
            }
        };
        self.awaited.pop_front();
        if results.is_some() {
            self.awaited.push_back(Awaited::Done);
        }
        let (Reply::Welcome { commit, .. } | Reply::Relay { commit, .. } | Reply::Noted { commit }) = &reply;
        self.told = self.told.max(*commit);
        self.versions.prune(self.told);
        self.events.push(Event::Got(0, reply));
        Ok(results)
    }

    fn ask(&mut self, awaited: Awaited, event: Event) {
        self.events.push(event);
        self.awaited.push_back(awaited);
    }
}

fn increment(pos: u32) -> Item {
    let present = Box::new(Expr::Attr { slot: 0, attr: 0 });
    let expr = Expr::Add(present, Box::new(Expr::Lit(1)));
    let action = Action { reads: vec![(pos % u32::from(OBJECTS)) as u16], mask: 1, body: vec![Set { slot: 0, attr: 0, expr }] };
    Item { pos, client: 1, seq: pos, action }
}

fn relay(commit: u32, items: u32, head: Vec<(u16, Value)>) -> Reply {
    Reply::Relay { seq: 0, commit, head, items: (commit + 1..=commit + items).map(increment).collect() }
}

fn main() {
    let words: Vec<u32> = env::args().skip(1).map(|word| word.parse().expect("a number")).collect();
    let (items, turns) = (words[0], words[1]);
    let held = (0..OBJECTS).map(|_| Vec::new()).collect();
    let mut client = Client { versions: Versions { held, crowded: Vec::new() }, awaited: VecDeque::new(), events: Vec::new(), told: 0 };
    client.ask(Awaited::Join, Event::Join(0));
    client.take(Reply::Welcome { commit: 0, head: Vec::new() }).expect("no fault");
    client.ask(Awaited::Poll, Event::Poll);
    client.take(relay(0, 1, (0..OBJECTS).map(|object| (object, vec![0])).collect())).expect("no fault");
    client.take(Reply::Noted { commit: 1 }).expect("no fault");
    let turns: Vec<(Reply, Reply)> = (0..turns)
        .map(|turn| (relay(1 + turn * items, items, Vec::new()), Reply::Noted { commit: 1 + (turn + 1) * items }))
        .collect();
    let mut sum = 0;
    let count = turns.len();
    let start = Instant::now();
    for (relay, noted) in turns {
        client.ask(Awaited::Poll, Event::Poll);
        sum += black_box(client.take(relay).expect("no fault")).map_or(0, |results| results.len());
        black_box(client.take(noted).expect("no fault"));
    }
    let nanos = start.elapsed().as_nanos();
    println!("take {count} {sum} {nanos}");
}
