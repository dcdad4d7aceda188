//! The Redis protocol: sends commands, and reads the kinds of replies that they get.

use std::io::{self, BufRead, BufReader, Read, Write};
use std::net::TcpStream;

/// A reply. `receive` appends the bytes of a value to the caller's buffer.
#[derive(Debug, PartialEq, Eq)]
pub enum Reply {
    Done,
    Value,
    NoValue,
    /// The server's message for a command that it refuses.
    Error(String),
}

/// Sends a command: the number of its words, and each word with its length.
pub fn send(stream: &mut impl Write, words: &[&[u8]]) -> io::Result<()> {
    let mut head = format!("*{}\r\n", words.len()).into_bytes();
    for word in words {
        head.extend_from_slice(format!("${}\r\n", word.len()).as_bytes());
        // Does not copy a content into the buffer.
        if word.len() > 4_096 {
            stream.write_all(&head)?;
            stream.write_all(word)?;
            head.clear();
        } else {
            head.extend_from_slice(word);
        }
        head.extend_from_slice(b"\r\n");
    }
    stream.write_all(&head)
}

/// Reads a reply: a line that begins with its kind, and then a value.
pub fn receive(stream: &mut BufReader<TcpStream>, value: &mut Vec<u8>) -> io::Result<Reply> {
    let mut line = Vec::new();
    stream.take(4_096).read_until(b'\n', &mut line)?;
    let Some(line) = line.strip_suffix(b"\r\n") else {
        return Err(io::ErrorKind::UnexpectedEof.into());
    };
    match line {
        [b'+' | b':', ..] => Ok(Reply::Done),
        [b'-', message @ ..] => Ok(Reply::Error(String::from_utf8_lossy(message).into_owned())),
        b"$-1" => Ok(Reply::NoValue),
        [b'$', len @ ..] => {
            receive_value(stream, len, value)?;
            Ok(Reply::Value)
        }
        _ => Err(io::ErrorKind::InvalidData.into()),
    }
}

/// More bytes than any content has: a segment of texts has at most 16,777,216.
const MOST_BYTES: u64 = 1 << 25;

fn receive_value(
    stream: &mut BufReader<TcpStream>,
    len: &[u8],
    value: &mut Vec<u8>,
) -> io::Result<()> {
    let len = std::str::from_utf8(len)
        .ok()
        .and_then(|len| len.parse().ok());
    let len: u64 = len.ok_or(io::ErrorKind::InvalidData)?;
    if len > MOST_BYTES {
        return Err(io::ErrorKind::InvalidData.into());
    }
    let read = stream.take(len).read_to_end(value)? as u64;
    let mut end = [0; 2];
    stream.read_exact(&mut end)?;
    if read == len && end == *b"\r\n" {
        return Ok(());
    }
    Err(io::ErrorKind::InvalidData.into())
}
