//! The peer's core through a long life: `lasting REQUESTS SAMPLE`. The program `bench_lasting` of bench/programs asks its core the same requests.
//!
//! 1,000 clients, 256 sessions open at once, 100 requests each. A session joins, then makes increments and reports them, and polls now and
//! then; every third one ends with an action that it did not report. Results are made up: a server looks at their form alone.
use peer::corpus::increment;
use peer::sequencer::Sequencer;
use peer::wire::{Done, Item, Reply, Request};
use peer::world::{Shape, Value, World};
use std::sync::Arc;
use std::time::Instant;

const OBJECTS: u16 = 4000;
const CLIENTS: usize = 1000;
const OPEN: usize = 256;
const LENGTH: u32 = 100;

#[derive(Clone, Copy, Default)]
struct Client {
    life: u32,
    made: u32,
}

#[derive(Default)]
struct Seat {
    session: u16,
    client: usize,
    asked: u32,
    /// What it was sent and has to report.
    owed: Vec<u32>,
}

struct Run {
    core: Sequencer<16>,
    clients: Vec<Client>,
    seats: Vec<Seat>,
    sessions: u64,
    sum: u64,
}

fn value(pos: u32) -> Value {
    Value::new(&[i64::from(pos)])
}

impl Run {
    fn new() -> Run {
        let values = (0..OBJECTS).map(|_| Value::new(&[1000])).collect();
        let world = World { shape: Shape { objects: OBJECTS, attrs: 1 }, values };
        let mut run = Run {
            core: Sequencer::lasting(world, 32, None),
            clients: vec![Client::default(); CLIENTS],
            seats: (0..OPEN).map(|_| Seat::default()).collect(),
            sessions: 0,
            sum: 0,
        };
        for seat in 0..OPEN {
            run.sit(seat);
        }
        run
    }

    /// A new session takes the seat.
    fn sit(&mut self, seat: usize) {
        let session = self.core.open().expect("fewer than 1,024 are open");
        let client = (self.sessions % CLIENTS as u64) as usize;
        self.seats[seat] = Seat { session, client, asked: 0, owed: Vec::new() };
        self.sessions += 1;
    }

    fn object(&self, seat: usize) -> u16 {
        let seat = &self.seats[seat];
        ((seat.client * 4 + seat.asked as usize % 5) % OBJECTS as usize) as u16
    }

    fn request(&mut self, seat: usize) -> Request {
        let asked = self.seats[seat].asked;
        let client = self.seats[seat].client;
        if asked == 0 {
            self.clients[client].life += 1;
            let interest = vec![(client * 4) as u16];
            return Request::Join { client: client as u16, life: self.clients[client].life, interest };
        }
        if asked + 1 >= LENGTH {
            return Request::End;
        }
        let owed = std::mem::take(&mut self.seats[seat].owed);
        if !owed.is_empty() {
            let results = owed.into_iter().map(|pos| Done { pos, values: vec![value(pos)] }).collect();
            return Request::Done { results };
        }
        if asked % 16 == 15 {
            return Request::Poll;
        }
        self.clients[client].made += 1;
        Request::Submit { seq: self.clients[client].made, action: Arc::new(increment(self.object(seat))) }
    }

    fn took(&mut self, seat: usize, items: &[Item], seq: u32) {
        self.sum = self.sum.wrapping_add(u64::from(seq) + items.iter().map(|item| u64::from(item.pos)).sum::<u64>());
        let is_last = self.seats[seat].asked + 2 >= LENGTH;
        if !(is_last && seat % 3 == 0) {
            self.seats[seat].owed = items.iter().map(|item| item.pos).collect();
        }
    }

    /// One request of a seat.
    fn turn(&mut self, seat: usize) {
        let request = self.request(seat);
        let is_end = matches!(request, Request::End);
        let session = self.seats[seat].session;
        match self.core.step(session, request) {
            Reply::Relay { seq, items, .. } => self.took(seat, &items, seq),
            Reply::Refused { code, detail } => panic!("refused {code} {detail}"),
            Reply::Dropped { chain, .. } => self.sum = self.sum.wrapping_add(u64::from(chain)),
            _ => {}
        }
        self.seats[seat].asked += 1;
        if is_end {
            self.sit(seat);
        }
    }
}

fn resident() -> u64 {
    let text = std::fs::read_to_string("/proc/self/statm").expect("Linux");
    text.split(' ').nth(1).and_then(|pages| pages.parse::<u64>().ok()).expect("a number") * 4
}

fn main() {
    let words: Vec<u64> = std::env::args().skip(1).map(|word| word.parse().expect("a number")).collect();
    let [requests, sample] = words[..] else { panic!("words: REQUESTS SAMPLE") };
    let mut run = Run::new();
    let mut start = Instant::now();
    for n in 0..requests {
        run.turn((n % OPEN as u64) as usize);
        if (n + 1) % sample == 0 {
            println!("{} {} ns, {} KB, commit {}, sum {}", n + 1, start.elapsed().as_nanos() as u64, resident(), run.core.commit(), run.sum);
            start = Instant::now();
        }
    }
    println!("sessions {}, accepted {}, dropped {}", run.sessions, run.core.accepted(), run.core.dropped());
}
