// A sender of one stream to a served archive, for bench/serving.py. It sends as fast as what is recorded keeps up, at most 768 KiB
// ahead of it. With --flow-control it follows the receiver's status messages, as an Aeron media driver does (examples/sender.py).
// rustc -O sender.rs; sender CONTROL-PORT RECEIVE-PORT FRAMES FRAME-LENGTH [--flow-control] [--term-length BYTES], or sender alone
// FRAMES FRAME-LENGTH for its own rate into a socket that nobody reads. Terms have 16,777,216 bytes if nothing else is asked. Prints
// microseconds, NAK frames that came, frames that were sent again, where the stream ends, and status messages that came.
use std::io::{BufRead, BufReader, Write};
use std::net::{TcpStream, UdpSocket};
use std::sync::OnceLock;
use std::time::{Duration, Instant};

const SESSION: i32 = 7;
const STREAM: i32 = 1_001;
const INITIAL_TERM: i32 = 42;
const SHORTEST_SEGMENT: i64 = 134_217_728;
const IN_FLIGHT: i64 = 786_432;
const MTU: i32 = 1_408;
const SETUP_EVERY: Duration = Duration::from_millis(100);
const HEARTBEAT_EVERY: Duration = Duration::from_millis(100);
const RECEIVER_TIMEOUT: Duration = Duration::from_secs(5);
const RETRANSMIT_LINGER: Duration = Duration::from_millis(60);
const IDLE: Duration = Duration::from_millis(10);

static TERM_LENGTH: OnceLock<i64> = OnceLock::new();

/// Bytes of a term.
fn term_length() -> i64 {
    *TERM_LENGTH.get_or_init(|| 16_777_216)
}

fn put(out: &mut [u8], at: usize, value: i32) {
    out[at..at + 4].copy_from_slice(&value.to_le_bytes());
}

/// A header at a position; a frame's length of 0 is a heartbeat.
fn header(out: &mut [u8], position: i64, length: i32, kind: u8) {
    put(out, 0, length);
    out[4..8].copy_from_slice(&[0, 0xC0, kind, 0]);
    put(out, 8, (position % term_length()) as i32);
    put(out, 12, SESSION);
    put(out, 16, STREAM);
    put(out, 20, INITIAL_TERM + (position / term_length()) as i32);
    out[24..32].fill(0);
}

fn setup(position: i64) -> [u8; 40] {
    let mut out = [0; 40];
    put(&mut out, 0, 40);
    out[6] = 5;
    let active_term = INITIAL_TERM + (position / term_length()) as i32;
    put(&mut out, 8, (position % term_length()) as i32);
    for (at, value) in [(12, SESSION), (16, STREAM), (20, INITIAL_TERM), (24, active_term), (28, term_length() as i32), (32, MTU)] {
        put(&mut out, at, value);
    }
    out
}

/// The frame at a position: a message of the usual length, or a pad where the term has no room for it.
fn frame(out: &mut [u8], position: i64, length: i64) -> (usize, i64) {
    let room = term_length() - position % term_length();
    if length > room {
        header(out, position, room as i32, 0);
        return (32, room);
    }
    header(out, position, length as i32, 1);
    out[32..40].copy_from_slice(&position.to_le_bytes());
    (length as usize, length)
}

struct Asked {
    stream: TcpStream,
    replies: BufReader<TcpStream>,
}

impl Asked {
    fn ask(&mut self, line: &str) -> String {
        self.stream.write_all(line.as_bytes()).unwrap();
        let mut reply = String::new();
        self.replies.read_line(&mut reply).unwrap();
        reply
    }

    fn recorded(&mut self) -> i64 {
        let reply = self.ask("positions 0\n");
        reply.split_whitespace().nth(2).and_then(|word| word.parse().ok()).unwrap_or_else(|| panic!("{reply}"))
    }
}

fn number(bytes: &[u8], at: usize) -> i32 {
    i32::from_le_bytes(bytes[at..at + 4].try_into().unwrap())
}

fn position_of(term: i32, offset: i32) -> i64 {
    i64::from(term - INITIAL_TERM) * term_length() + i64::from(offset)
}

/// A stream's sender, and what came from its receiver.
struct Sender {
    socket: UdpSocket,
    length: i64,
    position: i64,
    naks: u64,
    repeats: u64,
    status_messages: u64,
    flow: Option<Flow>,
}

/// What status messages say, and when what went out.
#[derive(Default)]
struct Flow {
    consumed: i64,
    limit: i64,
    owes_setup: bool,
    status_came: Option<Instant>,
    setup_sent: Option<Instant>,
    last_sent: Option<Instant>,
    answered: Vec<(Instant, i64, i64)>,
}

/// Whether so long has passed since a moment; it has if there was none.
fn is_over(since: Option<Instant>, pause: Duration) -> bool {
    since.map_or(true, |at| at.elapsed() >= pause)
}

impl Flow {
    fn follow(&mut self, status: &[u8]) {
        if status[5] & 0x80 != 0 {
            self.owes_setup = true;
            return;
        }
        self.status_came = Some(Instant::now());
        let consumed = position_of(number(status, 16), number(status, 20));
        self.consumed = self.consumed.max(consumed);
        self.limit = self.limit.max(consumed + i64::from(number(status, 24)));
    }

    /// Whether a range was sent again lately. If not, it is noted as sent now.
    fn is_answered(&mut self, begin: i64, end: i64) -> bool {
        self.answered.retain(|(at, _, _)| at.elapsed() < RETRANSMIT_LINGER);
        if self.answered.iter().any(|(_, from, to)| *from <= begin && end <= *to) {
            return true;
        }
        self.answered.push((Instant::now(), begin, end));
        false
    }
}

impl Sender {
    fn new(receive: u16, length: i64, follows: bool) -> Self {
        let socket = UdpSocket::bind("127.0.0.1:0").unwrap();
        socket.connect(("127.0.0.1", receive)).unwrap();
        socket.set_nonblocking(true).unwrap();
        socket.set_read_timeout(Some(IDLE)).unwrap();
        let flow = follows.then(Flow::default);
        Self { socket, length, position: 0, naks: 0, repeats: 0, status_messages: 0, flow }
    }

    fn send_next(&mut self, out: &mut [u8]) {
        let (bytes, covers) = frame(out, self.position, self.length);
        while self.socket.send(&out[..bytes]).is_err() {}
        self.position += covers;
        if let Some(flow) = &mut self.flow {
            flow.last_sent = Some(Instant::now());
        }
    }

    fn heartbeat(&mut self) {
        let mut out = [0; 32];
        header(&mut out, self.position, 0, 1);
        let _ = self.socket.send(&out);
    }

    fn take(&mut self, datagram: &[u8]) {
        let is_ours = |at: usize| (number(datagram, at), number(datagram, at + 4)) == (SESSION, STREAM);
        match (datagram.len(), datagram.get(6)) {
            (28, Some(2)) if is_ours(8) => {
                self.naks += 1;
                let begin = position_of(number(datagram, 16), number(datagram, 20));
                self.send_again(begin, begin + i64::from(number(datagram, 24)));
            }
            (36, Some(3)) if is_ours(8) => {
                self.status_messages += 1;
                if let Some(flow) = &mut self.flow {
                    flow.follow(datagram);
                }
            }
            _ => {}
        }
    }

    fn send_again(&mut self, mut position: i64, end: i64) {
        if self.flow.as_mut().is_some_and(|flow| flow.is_answered(position, end)) {
            return;
        }
        let mut out = [0u8; 2_048];
        while position < end {
            let (bytes, covers) = frame(&mut out, position, self.length);
            let _ = self.socket.send(&out[..bytes]);
            self.repeats += 1;
            position += covers;
        }
    }

    /// Takes what has come.
    fn poll(&mut self) {
        let mut datagram = [0u8; 64];
        while let Ok(bytes) = self.socket.recv(&mut datagram) {
            self.take(&datagram[..bytes]);
        }
    }

    /// Sends the setup frame or heartbeat that is due, and waits for a datagram.
    fn wait(&mut self) {
        self.send_due();
        self.socket.set_nonblocking(false).unwrap();
        let mut datagram = [0u8; 64];
        let came = self.socket.recv(&mut datagram);
        self.socket.set_nonblocking(true).unwrap();
        if let Ok(bytes) = came {
            self.take(&datagram[..bytes]);
        }
        self.poll();
    }

    fn send_due(&mut self) {
        let Some(flow) = &mut self.flow else { return };
        let is_connected = flow.status_came.is_some();
        if (flow.owes_setup || !is_connected) && is_over(flow.setup_sent, SETUP_EVERY) {
            flow.owes_setup = false;
            flow.setup_sent = Some(Instant::now());
            let _ = self.socket.send(&setup(self.position));
        }
        if is_connected && is_over(flow.status_came, RECEIVER_TIMEOUT) {
            eprintln!("the receiver is gone: no status message for 5 seconds");
            std::process::exit(1);
        }
        if is_connected && is_over(flow.last_sent, HEARTBEAT_EVERY) {
            flow.last_sent = Some(Instant::now());
            self.heartbeat();
        }
    }

    /// Sends setup frames until a receiver is there.
    fn connect(&mut self) {
        if self.flow.is_none() {
            self.socket.send(&setup(self.position)).unwrap();
            std::thread::sleep(Duration::from_millis(50));
        }
        while self.flow.as_ref().is_some_and(|flow| flow.status_came.is_none()) {
            self.wait();
        }
    }

    /// Whether the receiver has room for the next frame.
    fn has_room(&self) -> bool {
        let covers = self.length.min(term_length() - self.position % term_length());
        self.flow.as_ref().is_none_or(|flow| self.position + covers <= flow.limit)
    }

    /// Sends as far as the receiver has room.
    fn follow(&mut self, frames: u64, asked: &mut Asked) {
        let mut out = [0u8; 2_048];
        for index in 0..frames {
            while !self.has_room() {
                self.wait();
            }
            self.send_next(&mut out);
            if index % 16 == 15 {
                self.poll();
                self.send_due();
            }
        }
        while self.flow.as_ref().is_some_and(|flow| flow.consumed < self.position) {
            self.wait();
        }
        while asked.recorded() < self.position {
            std::thread::sleep(Duration::from_micros(200));
        }
    }

    /// Sends as far as what is recorded keeps up.
    fn keep_near(&mut self, frames: u64, asked: &mut Asked) {
        let (mut out, mut recorded) = ([0u8; 2_048], 0);
        for index in 0..frames {
            self.send_next(&mut out);
            if index % 16 == 15 {
                self.poll();
                while self.position - recorded > IN_FLIGHT {
                    recorded = asked.recorded();
                    self.poll();
                }
            }
        }
        while recorded < self.position {
            self.heartbeat();
            std::thread::sleep(Duration::from_micros(200));
            self.poll();
            recorded = asked.recorded();
        }
    }
}

fn served(control: u16, receive: u16, frames: u64, length: i64, follows: bool) {
    let stream = TcpStream::connect(("127.0.0.1", control)).unwrap();
    stream.set_nodelay(true).unwrap();
    let mut asked = Asked { replies: BufReader::new(stream.try_clone().unwrap()), stream };
    let terms = term_length();
    let segments = SHORTEST_SEGMENT.max(terms);
    let start = format!("start {STREAM} {SESSION} {INITIAL_TERM} {terms} {MTU} {segments} 0 1000 bench\n");
    assert_eq!(asked.ask(&start), "started 0 0\n");
    let mut sender = Sender::new(receive, length, follows);
    sender.connect();
    let begun = Instant::now();
    if follows {
        sender.follow(frames, &mut asked);
    } else {
        sender.keep_near(frames, &mut asked);
    }
    let Sender { position, naks, repeats, status_messages, .. } = sender;
    println!("{} {naks} {repeats} {position} {status_messages}", begun.elapsed().as_micros());
    assert_eq!(asked.ask("quit\n"), "bye\n");
}

fn alone(frames: u64, length: i64) {
    let unread = UdpSocket::bind("127.0.0.1:0").unwrap();
    let socket = UdpSocket::bind("127.0.0.1:0").unwrap();
    socket.connect(unread.local_addr().unwrap()).unwrap();
    let mut out = [0u8; 2_048];
    let mut position = 0;
    let begun = Instant::now();
    for _ in 0..frames {
        let (bytes, covers) = frame(&mut out, position, length);
        let _ = socket.send(&out[..bytes]);
        position += covers;
    }
    println!("{} 0 0 {position} 0", begun.elapsed().as_micros());
}

fn main() {
    let words: Vec<String> = std::env::args().collect();
    let number = |at: usize| words[at].parse::<u64>().unwrap();
    if words[1] == "alone" {
        alone(number(2), number(3) as i64);
    } else {
        let follows = words.iter().any(|word| word == "--flow-control");
        if let Some(at) = words.iter().position(|word| word == "--term-length") {
            TERM_LENGTH.set(number(at + 1) as i64).unwrap();
        }
        served(number(1) as u16, number(2) as u16, number(3), number(4) as i64, follows);
    }
}
