//! The writes and syncs of settling blocks, with no other work than is named: what the settles of the proved program are
//! measured against. docs/STORAGE.md, "Entries", "Recovery".
//!
//! `plain_settles FOLDER SETTLES BLOCKS SIZE` makes so many settles, each of so many blocks of a size. `plain_settles FOLDER`
//! reads lines `block 0 <hex>` from standard input, decodes the digits, settles each block and answers `settled <position>`.

use std::fs::{File, OpenOptions};
use std::io::{stdin, stdout, BufRead, Result, Write};
use std::os::unix::fs::FileExt;
use std::path::Path;

/// Bytes of a settlement's entry behind its gate, with the gate behind it.
const ENTRY: [u8; 20] = [2, 16, 0, 0, 0, 0, 0, 0, 0, 0, 0, 0, 0, 0, 0, 0, 0, 0, 0, 0];
/// Where the gate of the first settlement stands.
const FIRST_GATE: u64 = 87;

fn opened(folder: &Path, name: &str) -> Result<File> {
    OpenOptions::new().create(true).truncate(false).write(true).open(folder.join(name))
}

/// Syncs the blocks that were written, and writes the entry that says so behind the gate at an offset.
fn settle(segment: &File, bank: &File, gate: u64) -> Result<()> {
    segment.sync_data()?;
    bank.write_all_at(&ENTRY, gate + 1)?;
    bank.sync_data()?;
    bank.write_all_at(&[1], gate)?;
    bank.sync_data()
}

/// The value of a hexadecimal digit.
fn digit(text: u8) -> u8 {
    match text {
        b'0'..=b'9' => text - b'0',
        b'a'..=b'f' => text - b'a' + 10,
        _ => panic!("no digit"),
    }
}

/// Answers the lines of standard input, of which those that begin so are blocks.
fn answer_lines(segment: &File, bank: &File) -> Result<()> {
    let (mut input, mut output) = (stdin().lock(), stdout().lock());
    let (mut line, mut block, mut position, mut gate) = (Vec::new(), Vec::new(), 0u64, FIRST_GATE);
    while input.read_until(b'\n', &mut line)? > 0 {
        if let Some(digits) = line.trim_ascii_end().strip_prefix(b"block 0 ") {
            block.clear();
            block.extend(digits.chunks_exact(2).map(|pair| digit(pair[0]) << 4 | digit(pair[1])));
            block.resize(block.len().next_multiple_of(32), 0);
            segment.write_all_at(&block, position)?;
            settle(segment, bank, gate)?;
            position += block.len() as u64;
            gate += ENTRY.len() as u64;
            writeln!(output, "settled {position}")?;
        } else {
            writeln!(output, "started 0 0")?;
        }
        line.clear();
    }
    output.flush()
}

/// So many settles, each of so many blocks of a size.
fn settle_all(segment: &File, bank: &File, settles: u64, blocks: u64, size: usize) -> Result<()> {
    let block = vec![7; size];
    for index in 0..settles {
        for number in 0..blocks {
            segment.write_all_at(&block, (index * blocks + number) * block.len() as u64)?;
        }
        settle(segment, bank, FIRST_GATE + index * ENTRY.len() as u64)?;
    }
    Ok(())
}

fn main() -> Result<()> {
    let words: Vec<String> = std::env::args().collect();
    let folder = Path::new(words.get(1).expect("a folder"));
    let segment = opened(folder, "0-0.rec")?;
    let bank = opened(folder, "catalogue-a.bank")?;
    File::open(folder)?.sync_all()?;
    match &words[2..] {
        [] => answer_lines(&segment, &bank),
        [settles, blocks, size] => {
            let number = |word: &String| word.parse::<u64>().expect("a number");
            settle_all(&segment, &bank, number(settles), number(blocks), number(size) as usize)
        }
        _ => panic!("how many settles, blocks of each, and bytes of a block"),
    }
}
