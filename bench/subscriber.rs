// A receiver of one publication, for bench/sending.py. It joins at the setup frame, takes frames as they come in order, and sends status
// messages and NAKs as docs/PROTOCOL.md says ("Status messages and NAKs of a receiver"). What comes past a gap is dropped, and asked for.
// rustc -O subscriber.rs; subscriber PORT BYTES [CONTROL-PORT]. With a control port it answers there what sender.rs asks a server, so
// that sender.rs sends to it. Prints microseconds from the first datagram of frames to the last, NAKs, datagrams, and those past a gap.
use std::io::{BufRead, BufReader, Write};
use std::net::{TcpListener, UdpSocket};
use std::sync::Arc;
use std::sync::atomic::{AtomicI64, Ordering};
use std::time::{Duration, Instant};

const WINDOW: i32 = 131_072;
const STATUS_EVERY: Duration = Duration::from_millis(200);
const NAK_EVERY: Duration = Duration::from_millis(10);

fn number(bytes: &[u8], at: usize) -> i32 {
    i32::from_le_bytes(bytes[at..at + 4].try_into().unwrap())
}

/// What a setup frame says.
#[derive(Clone, Copy)]
struct Setup {
    session: i32,
    stream: i32,
    initial: i32,
    term_length: i64,
}

impl Setup {
    fn position(&self, term: i32, offset: i32) -> i64 {
        i64::from(term.wrapping_sub(self.initial)) * self.term_length + i64::from(offset)
    }

    /// A status message or a NAK at a position, but for what comes after the offset.
    fn answer(&self, out: &mut [u8], kind: u8, position: i64) {
        let length = out.len() as i32;
        out[..4].copy_from_slice(&length.to_le_bytes());
        out[6] = kind;
        let term = self.initial + (position / self.term_length) as i32;
        let offset = (position % self.term_length) as i32;
        for (at, value) in [(8, self.session), (12, self.stream), (16, term), (20, offset)] {
            out[at..at + 4].copy_from_slice(&value.to_le_bytes());
        }
    }

    fn status(&self, position: i64) -> [u8; 36] {
        let mut out = [0; 36];
        self.answer(&mut out, 3, position);
        let window = WINDOW.min((self.term_length / 2) as i32);
        out[24..28].copy_from_slice(&window.to_le_bytes());
        out
    }

    fn nak(&self, position: i64, end: i64) -> [u8; 28] {
        let mut out = [0; 28];
        self.answer(&mut out, 2, position);
        let left = self.term_length - position % self.term_length;
        let length = (end - position).min(left) as i32;
        out[24..28].copy_from_slice(&length.to_le_bytes());
        out
    }
}

/// What came.
struct Receiver {
    socket: UdpSocket,
    setup: Option<Setup>,
    rebuilt: i64,
    told: i64,
    told_at: Instant,
    asked_at: Instant,
    naks: u64,
    datagrams: u64,
    late: u64,
}

impl Receiver {
    /// Takes a datagram. Whether it was of frames.
    fn take(&mut self, bytes: &[u8]) -> bool {
        match (bytes[6], self.setup) {
            (5, None) => {
                let setup = Setup {
                    session: number(bytes, 12),
                    stream: number(bytes, 16),
                    initial: number(bytes, 20),
                    term_length: i64::from(number(bytes, 28)),
                };
                self.rebuilt = setup.position(number(bytes, 24), number(bytes, 8));
                self.told = self.rebuilt - i64::from(WINDOW);
                self.setup = Some(setup);
                false
            }
            (0 | 1, Some(setup)) => self.take_frames(setup, bytes),
            _ => false,
        }
    }

    fn take_frames(&mut self, setup: Setup, bytes: &[u8]) -> bool {
        let position = setup.position(number(bytes, 20), number(bytes, 8));
        if number(bytes, 0) == 0 {
            self.ask(setup, position);
            return false;
        }
        self.datagrams += 1;
        if position > self.rebuilt {
            self.late += 1;
            self.ask(setup, position);
            return true;
        }
        let (mut at, mut position) = (0, position);
        while at + 32 <= bytes.len() {
            let covers = (i64::from(number(bytes, at)) + 31) / 32 * 32;
            position += covers;
            at += if bytes[at + 6] == 0 { 32 } else { covers as usize };
        }
        self.rebuilt = self.rebuilt.max(position);
        true
    }

    /// Asks for what is missing before a position, unless it was asked for lately.
    fn ask(&mut self, setup: Setup, end: i64) {
        if self.rebuilt < end && self.asked_at.elapsed() >= NAK_EVERY {
            self.asked_at = Instant::now();
            self.naks += 1;
            let _ = self.socket.send(&setup.nak(self.rebuilt, end));
        }
    }

    /// Sends a status message, if one is due.
    fn tell(&mut self) {
        let Some(setup) = self.setup else { return };
        if self.rebuilt - self.told >= i64::from(WINDOW / 4) || self.told_at.elapsed() >= STATUS_EVERY {
            self.told = self.rebuilt;
            self.told_at = Instant::now();
            let _ = self.socket.send(&setup.status(self.rebuilt));
        }
    }
}

/// Answers what sender.rs asks, up to where all is recorded that came.
fn answer(port: u16, rebuilt: Arc<AtomicI64>) {
    let listener = TcpListener::bind(("127.0.0.1", port)).unwrap();
    let (mut stream, _) = listener.accept().unwrap();
    for line in BufReader::new(stream.try_clone().unwrap()).lines().map_while(Result::ok) {
        let reply = match line.split(' ').next() {
            Some("start") => "started 0 0\n".to_string(),
            Some("positions") => format!("positions 0 {} -1\n", rebuilt.load(Ordering::SeqCst)),
            _ => "bye\n".to_string(),
        };
        if stream.write_all(reply.as_bytes()).is_err() {
            return;
        }
    }
}

fn main() {
    let words: Vec<u64> = std::env::args().skip(1).map(|word| word.parse().unwrap()).collect();
    let end = words[1] as i64;
    let rebuilt = Arc::new(AtomicI64::new(0));
    let answering = words.get(2).map(|port| {
        let (port, rebuilt) = (*port as u16, rebuilt.clone());
        std::thread::spawn(move || answer(port, rebuilt))
    });
    let socket = UdpSocket::bind(("127.0.0.1", words[0] as u16)).unwrap();
    let mut bytes = [0u8; 65_536];
    let (_, sender) = socket.peek_from(&mut bytes).unwrap();
    socket.connect(sender).unwrap();
    socket.set_read_timeout(Some(Duration::from_millis(10))).unwrap();
    let now = Instant::now();
    let mut receiver =
        Receiver { socket, setup: None, rebuilt: 0, told: 0, told_at: now, asked_at: now, naks: 0, datagrams: 0, late: 0 };
    let mut begun: Option<Instant> = None;
    while receiver.rebuilt < end {
        if let Ok(count) = receiver.socket.recv(&mut bytes) {
            if count >= 8 && receiver.take(&bytes[..count]) {
                begun.get_or_insert_with(Instant::now);
            }
        }
        receiver.tell();
        rebuilt.store(receiver.rebuilt, Ordering::SeqCst);
    }
    let micros = begun.map_or(0, |at| at.elapsed().as_micros());
    println!("{micros} {} {} {}", receiver.naks, receiver.datagrams, receiver.late);
    let setup = receiver.setup.unwrap();
    let _ = receiver.socket.send(&setup.status(receiver.rebuilt));
    if let Some(answering) = answering {
        answering.join().unwrap();
    }
}
