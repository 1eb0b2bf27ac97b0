//! The program that tells absences (02, C-24) as one would plainly write it, for the benchmark alone: the counts are
//! kept, what a record drops stands in a ring, and bytes go through two buffers of fixed size. It shares nothing with
//! the second engine.

use std::io::{self, Read, Write};

const NODES: usize = 32;
const HELD: usize = 100;
const MOST_RECORDS: usize = 1_000_000;
const RECORD: usize = 8;
/// How many records are read at once.
const PIECE: usize = 8_192;
/// A line has 32 counts of up to three digits, each with a space or the line's end after it.
const LONGEST_LINE: usize = 4 * NODES;

struct Window {
    /// The marks of the records held, in a ring; those of an empty place miss nobody.
    marks: [u32; HELD],
    next: usize,
    /// The run number of the newest held.
    newest: Option<u32>,
    missing: [u8; NODES],
}

impl Window {
    fn add(&mut self, run: u32, marks: u32) {
        if self.newest == Some(run) {
            return;
        }
        let dropped = std::mem::replace(&mut self.marks[self.next], marks);
        self.next = if self.next + 1 == HELD { 0 } else { self.next + 1 };
        self.newest = Some(run);
        for (q, missing) in self.missing.iter_mut().enumerate() {
            *missing = *missing + u8::from(marks & (1 << q) == 0) - u8::from(dropped & (1 << q) == 0);
        }
    }

    /// Puts the line of counts at the buffer's front and gives its length.
    fn print(&self, line: &mut [u8; LONGEST_LINE]) -> usize {
        let mut length = 0;
        let mut put = |byte: u8| {
            line[length] = byte;
            length += 1;
        };
        for &count in &self.missing {
            if count >= 100 {
                put(b'1');
            }
            if count >= 10 {
                put(b'0' + count / 10 % 10);
            }
            put(b'0' + count % 10);
            put(b' ');
        }
        line[length - 1] = b'\n';
        length
    }
}

/// Fills the buffer as far as the input goes, and gives how many bytes there are.
fn fill(input: &mut impl Read, buffer: &mut [u8]) -> io::Result<usize> {
    let mut length = 0;
    while length < buffer.len() {
        match input.read(&mut buffer[length..]) {
            Ok(0) => break,
            Ok(more) => length += more,
            Err(failure) if failure.kind() == io::ErrorKind::Interrupted => (),
            Err(failure) => return Err(failure),
        }
    }
    Ok(length)
}

fn main() -> io::Result<()> {
    let (mut input, mut output) = (io::stdin().lock(), io::stdout().lock());
    let mut window = Window { marks: [u32::MAX; HELD], next: 0, newest: None, missing: [0; NODES] };
    let mut piece = vec![0; PIECE * RECORD];
    let mut lines = vec![0; PIECE * LONGEST_LINE];
    let mut left = MOST_RECORDS;
    while left > 0 {
        let length = fill(&mut input, &mut piece)?;
        let (records, _) = piece[..length].as_chunks::<RECORD>();
        let mut end = 0;
        for &[a, b, c, d, e, f, g, h] in records.iter().take(left) {
            window.add(u32::from_le_bytes([a, b, c, d]), u32::from_le_bytes([e, f, g, h]));
            let line = lines[end..].first_chunk_mut().expect("the buffer has a place for every line of a piece");
            end += window.print(line);
        }
        output.write_all(&lines[..end])?;
        left = left.saturating_sub(records.len());
        if length < piece.len() {
            break;
        }
    }
    Ok(())
}
