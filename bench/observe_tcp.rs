//! What an Observe that finds nothing takes over TCP, beside a bare ping-pong of the same sizes: `observe_tcp PORT TURNS`.
//!
//! It plays client 0 of a `serve` with one session whose world has at least four objects, and takes turns with a thread that answers as many
//! bytes as the server does. TURNS is at most 1,000, since a session has 1,024 requests.
use std::io::{Read, Write};
use std::net::{TcpListener, TcpStream};
use std::thread;
use std::time::{Duration, Instant};

fn framed(payload: &[u8]) -> Vec<u8> {
    let mut frame = (payload.len() as u32).to_be_bytes().to_vec();
    frame.extend_from_slice(payload);
    frame
}

fn reply(stream: &mut TcpStream) -> Vec<u8> {
    let mut length = [0; 4];
    stream.read_exact(&mut length).expect("a reply");
    let mut payload = vec![0; u32::from_be_bytes(length) as usize];
    stream.read_exact(&mut payload).expect("a whole reply");
    payload
}

fn connect(port: u16) -> TcpStream {
    let stream = TcpStream::connect(("127.0.0.1", port)).expect("a server");
    stream.set_nodelay(true).expect("a socket");
    stream
}

/// Answers `back` bytes to each `size` bytes.
fn answer(listener: TcpListener, size: usize, back: usize) {
    let (mut stream, _) = listener.accept().expect("a connection");
    stream.set_nodelay(true).expect("a socket");
    let (mut asked, answered) = (vec![0; size], vec![0; back]);
    while stream.read_exact(&mut asked).is_ok() {
        stream.write_all(&answered).expect("a reader");
    }
}

fn told(name: &str, times: &mut [Duration]) {
    times.sort();
    let at = |percent: usize| times[times.len() * percent / 100].as_nanos() as f64 / 1000.0;
    println!("{name}_p50 {:.1} us", at(50));
    println!("{name}_p99 {:.1} us", at(99));
}

fn main() {
    let words: Vec<usize> = std::env::args().skip(1).map(|word| word.parse().expect("a number")).collect();
    let [port, turns] = words[..] else { panic!("words: PORT TURNS") };
    let mut server = connect(port as u16);
    let join = framed(&[1, 0, 0, 0, 0, 0, 1, 4, 0, 0, 0, 1, 0, 2, 0, 3]);
    server.write_all(&join).expect("a server");
    assert_eq!(reply(&mut server)[0], 0x81, "a Welcome");
    let observe = framed(&[7, 4, 0, 0, 0, 1, 0, 2, 0, 3, 0, 0]);
    server.write_all(&observe).expect("a server");
    let seen = reply(&mut server);
    assert_eq!(seen[0], 0x8b, "a Seen");
    let listener = TcpListener::bind(("127.0.0.1", 0)).expect("a port");
    let bare_port = listener.local_addr().expect("bound").port();
    let (size, back) = (observe.len(), seen.len() + 4);
    thread::spawn(move || answer(listener, size, back));
    let mut bare = connect(bare_port);
    let mut answered = vec![0; back];
    let (mut observes, mut pings) = (Vec::new(), Vec::new());
    for _ in 0..turns {
        let start = Instant::now();
        server.write_all(&observe).expect("a server");
        server.read_exact(&mut answered).expect("a reply");
        assert_eq!(&answered[4..], &seen[..], "nothing new");
        observes.push(start.elapsed());
        let start = Instant::now();
        bare.write_all(&observe).expect("a thread");
        bare.read_exact(&mut answered).expect("an answer");
        pings.push(start.elapsed());
    }
    server.write_all(&framed(&[5])).expect("a server");
    assert_eq!(reply(&mut server)[0], 0x88, "a Bye");
    println!("sizes {size} {back}");
    told("observe", &mut observes);
    told("pingpong", &mut pings);
}
