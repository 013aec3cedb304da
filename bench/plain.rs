//! The work of `archive_tool run` on `start`, `block`, `list`, `replay`, `poll` and `quit`, in plain Rust over std alone
//! and with no proof: what the proved program is measured against.

use std::io::{self, BufRead, BufReader, BufWriter, Read, Write};

struct Frame {
    kind: u16,
    flags: u8,
    length: i32,
    term_offset: i32,
    session_id: i32,
    stream_id: i32,
    term_id: i32,
    reserved: i64,
    payload: Vec<u8>,
}

struct Recording {
    stream_id: i32,
    session_id: i32,
    initial_term_id: i32,
    term_length: i32,
    mtu: i32,
    segment_length: i32,
    start_position: i64,
    timestamp: i64,
    channel: String,
    recorded: i64,
    frames: Vec<Frame>,
}

struct Replay {
    recording: usize,
    next: i64,
    bound: i64,
}

#[derive(Default)]
struct Archive {
    recordings: Vec<Recording>,
    replays: Vec<Replay>,
}

enum Refusal {
    BadFrame(usize),
    Named(&'static str),
}

use Refusal::Named;

const BAD_LINE: Refusal = Named("error 22 BadLine");
const BAD_BLOCK: Refusal = Named("error 13 BadBlock");

fn aligned(length: i32) -> i64 {
    (i64::from(length) + 31) / 32 * 32
}

fn i32_at(bytes: &[u8], at: usize) -> i32 {
    i32::from_le_bytes(bytes[at..at + 4].try_into().unwrap())
}

fn front(bytes: &[u8], at: usize) -> Result<(Frame, usize), Refusal> {
    let bad = Refusal::BadFrame(at);
    let rest = &bytes[at..];
    if rest.len() < 32 || rest[4] != 0 {
        return Err(bad);
    }
    let kind = u16::from_le_bytes([rest[6], rest[7]]);
    let (length, term_offset) = (i32_at(rest, 0), i32_at(rest, 8));
    if kind > 1 || term_offset < 0 || term_offset % 32 != 0 || length < 32 {
        return Err(bad);
    }
    let mut frame = Frame {
        kind,
        flags: rest[5],
        length,
        term_offset,
        session_id: i32_at(rest, 12),
        stream_id: i32_at(rest, 16),
        term_id: i32_at(rest, 20),
        reserved: i64::from_le_bytes(rest[24..32].try_into().unwrap()),
        payload: Vec::new(),
    };
    if kind == 0 {
        return Ok((frame, rest.len()));
    }
    if length as usize > rest.len() {
        return Err(bad);
    }
    frame.payload = rest[32..length as usize].to_vec();
    Ok((frame, (aligned(length) as usize).min(rest.len())))
}

fn block(recording: &mut Recording, bytes: &[u8]) -> Result<i64, Refusal> {
    let mut frames = Vec::new();
    let mut at = 0;
    while at < bytes.len() || at == 0 {
        let (frame, used) = front(bytes, at)?;
        frames.push(frame);
        at += used;
    }
    let mut position = recording.recorded;
    for frame in &frames {
        let terms = frame.term_id.wrapping_sub(recording.initial_term_id);
        let place = i64::from(terms) * i64::from(recording.term_length) + i64::from(frame.term_offset);
        let end = i64::from(frame.term_offset) + aligned(frame.length);
        let fits = terms >= 0
            && place == position
            && end <= i64::from(recording.term_length)
            && frame.session_id == recording.session_id
            && frame.stream_id == recording.stream_id
            && (frame.kind == 0 && frames.len() == 1 || frame.kind == 1 && frame.length <= recording.mtu);
        if !fits {
            return Err(BAD_BLOCK);
        }
        position += aligned(frame.length);
    }
    if frames[0].kind == 1 && position - recording.recorded > 65_536 {
        return Err(BAD_BLOCK);
    }
    recording.frames.append(&mut frames);
    recording.recorded = position;
    Ok(position)
}

fn hex(text: &str) -> Result<Vec<u8>, Refusal> {
    let digit = |b: u8| (b as char).to_digit(16).map(|d| d as u8);
    if text.is_empty() || text.len() % 2 != 0 {
        return Err(BAD_LINE);
    }
    text.as_bytes()
        .chunks_exact(2)
        .map(|pair| Some(digit(pair[0])? << 4 | digit(pair[1])?))
        .collect::<Option<Vec<u8>>>()
        .ok_or(BAD_LINE)
}

fn put_hex(out: &mut String, bytes: &[u8]) {
    const DIGITS: &[u8; 16] = b"0123456789abcdef";
    for b in bytes {
        out.push(DIGITS[usize::from(b >> 4)] as char);
        out.push(DIGITS[usize::from(b & 15)] as char);
    }
}

fn put_frame(out: &mut String, position: i64, frame: &Frame) {
    let mut header = [0u8; 32];
    header[0..4].copy_from_slice(&frame.length.to_le_bytes());
    header[5] = frame.flags;
    header[6..8].copy_from_slice(&frame.kind.to_le_bytes());
    header[8..12].copy_from_slice(&frame.term_offset.to_le_bytes());
    header[12..16].copy_from_slice(&frame.session_id.to_le_bytes());
    header[16..20].copy_from_slice(&frame.stream_id.to_le_bytes());
    header[20..24].copy_from_slice(&frame.term_id.to_le_bytes());
    header[24..32].copy_from_slice(&frame.reserved.to_le_bytes());
    out.push_str(&format!("frame {position} "));
    put_hex(out, &header);
    put_hex(out, &frame.payload);
    out.push('\n');
}

fn number<T: std::str::FromStr + std::fmt::Display>(word: &str) -> Result<T, Refusal> {
    let value: T = word.parse().map_err(|_| BAD_LINE)?;
    if value.to_string() == word { Ok(value) } else { Err(BAD_LINE) }
}

fn start(archive: &mut Archive, rest: &str) -> Result<String, Refusal> {
    let words: Vec<&str> = rest.splitn(9, ' ').collect();
    let [stream, session, term, term_length, mtu, segment_length, position, timestamp, channel] = words[..] else {
        return Err(BAD_LINE);
    };
    let id = archive.recordings.len();
    let start_position = number(position)?;
    archive.recordings.push(Recording {
        stream_id: number(stream)?,
        session_id: number(session)?,
        initial_term_id: number(term)?,
        term_length: number(term_length)?,
        mtu: number(mtu)?,
        segment_length: number(segment_length)?,
        start_position,
        timestamp: number(timestamp)?,
        channel: channel.to_string(),
        recorded: start_position,
        frames: Vec::new(),
    });
    Ok(format!("started {id} {id}\n"))
}

fn poll(archive: &mut Archive, rest: &str) -> Result<String, Refusal> {
    let (replay, most) = rest.split_once(' ').ok_or(BAD_LINE)?;
    let (replay, most): (usize, usize) = (number(replay)?, number(most)?);
    let replay = archive.replays.get_mut(replay).ok_or(Named("error 9 UnknownReplay"))?;
    let recording = &archive.recordings[replay.recording];
    let (mut out, mut at, mut given) = (String::new(), recording.start_position, 0);
    for frame in &recording.frames {
        if given == most || at >= replay.bound {
            break;
        }
        if at >= replay.next {
            put_frame(&mut out, at, frame);
            given += 1;
            replay.next = at + aligned(frame.length);
        }
        at += aligned(frame.length);
    }
    if replay.next >= replay.bound {
        out.push_str("done\n");
    } else {
        out.push_str(&format!("more {}\n", replay.next));
    }
    Ok(out)
}

fn answer(archive: &mut Archive, line: &str) -> Result<String, Refusal> {
    let (word, rest) = line.split_once(' ').ok_or(BAD_LINE)?;
    match word {
        "start" => start(archive, rest),
        "block" => {
            let (session, text) = rest.split_once(' ').ok_or(BAD_LINE)?;
            let session: usize = number(session)?;
            let bytes = hex(text)?;
            let recording = archive.recordings.get_mut(session).ok_or(Named("error 12 StaleSession"))?;
            Ok(format!("settled {}\n", block(recording, &bytes)?))
        }
        "list" => {
            let mut out = String::new();
            for (id, r) in archive.recordings.iter().enumerate() {
                out.push_str(&format!(
                    "recording {id} {} -1 {} -1 {} {} {} {} {} {} {}\n",
                    r.timestamp, r.start_position, r.initial_term_id, r.segment_length, r.term_length, r.mtu,
                    r.session_id, r.stream_id, r.channel
                ));
            }
            Ok(out + &format!("end {}\n", archive.recordings.len()))
        }
        "replay" => {
            let words: Vec<&str> = rest.split(' ').collect();
            let [recording, position, length] = words[..] else { return Err(BAD_LINE) };
            let (next, length): (i64, i64) = (number(position)?, number(length)?);
            let bound = if length == -1 { i64::MAX } else { next.saturating_add(length) };
            archive.replays.push(Replay { recording: number(recording)?, next, bound });
            Ok(format!("replay {}\n", archive.replays.len() - 1))
        }
        "poll" => poll(archive, rest),
        _ => Err(BAD_LINE),
    }
}

fn main() -> io::Result<()> {
    let mut reader = BufReader::with_capacity(65_536, io::stdin().lock());
    let mut writer = BufWriter::new(io::stdout().lock());
    let (mut archive, mut line) = (Archive::default(), Vec::new());
    loop {
        if !reader.buffer().contains(&b'\n') {
            writer.flush()?;
        }
        line.clear();
        if reader.by_ref().take(1 << 20).read_until(b'\n', &mut line)? == 0 {
            break;
        }
        let text = line.strip_suffix(b"\n").unwrap_or(&line);
        if text == b"quit" {
            writer.write_all(b"bye\n")?;
            break;
        }
        let reply = match std::str::from_utf8(text).map_err(|_| BAD_LINE).and_then(|t| answer(&mut archive, t)) {
            Ok(reply) => reply,
            Err(Refusal::BadFrame(offset)) => format!("error 21 BadFrame {offset}\n"),
            Err(Refusal::Named(name)) => format!("{name}\n"),
        };
        writer.write_all(reply.as_bytes())?;
    }
    writer.flush()
}
