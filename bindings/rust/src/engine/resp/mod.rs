use std::collections::HashSet;
use std::io::{self, BufReader};
use std::mem;
use std::net::{SocketAddr, TcpStream, ToSocketAddrs};
use std::time::Duration;

use crate::Engine;

mod protocol;

use protocol::Reply;

/// How many contents one command deletes.
const DELETED_AT_ONCE: usize = 64;

/// An engine over a server that speaks the Redis protocol, by `SET`, `GET` and `DEL`. Keys are a prefix
/// and a number.
///
/// A call that takes longer than the time-out fails, and the next one connects again: wrap the engine
/// in [`Retry`](crate::Retry). On drop it deletes its keys.
///
/// ```no_run
/// use std::time::Duration;
/// use fullercoral::{Limits, Resp, Retry, Schema, Table};
///
/// let server = Resp::connect("127.0.0.1:6379", "prices", Duration::from_secs(5))?;
/// let table = Table::open(Schema::new().int("price"), Limits::new(), Retry::new(server, 3))?;
/// # Ok::<(), Box<dyn std::error::Error>>(())
/// ```
#[derive(Debug)]
pub struct Resp {
    address: SocketAddr,
    prefix: String,
    timeout: Duration,
    stream: Option<BufReader<TcpStream>>,
    kept: HashSet<u64>,
    /// Numbers that are not needed but not deleted yet.
    forgotten: Vec<u64>,
}

impl Resp {
    /// Connects to a server. Give each engine of a server its own prefix.
    ///
    /// ```
    /// use std::time::Duration;
    ///
    /// let nobody = fullercoral::Resp::connect("127.0.0.1:1", "prices", Duration::from_secs(1));
    /// assert!(nobody.is_err());
    /// ```
    ///
    /// # Errors
    /// The error of resolving the address or of connecting to it.
    pub fn connect(
        address: impl ToSocketAddrs,
        prefix: &str,
        timeout: Duration,
    ) -> io::Result<Resp> {
        let address = address.to_socket_addrs()?.next();
        let mut resp = Resp {
            address: address.ok_or_else(|| io::Error::other("no such address"))?,
            prefix: prefix.to_owned(),
            timeout,
            stream: None,
            kept: HashSet::new(),
            forgotten: Vec::new(),
        };
        resp.stream = Some(resp.connected()?);
        Ok(resp)
    }

    fn connected(&self) -> io::Result<BufReader<TcpStream>> {
        let stream = TcpStream::connect_timeout(&self.address, self.timeout)?;
        stream.set_read_timeout(Some(self.timeout))?;
        stream.set_write_timeout(Some(self.timeout))?;
        stream.set_nodelay(true)?;
        Ok(BufReader::with_capacity(64 << 10, stream))
    }

    fn key(&self, number: u64) -> String {
        format!("{}:{number}", self.prefix)
    }

    // Sends a command and reads its reply. Closes the stream after an error, since the start of the next
    // reply is unknown then.
    fn call(&mut self, words: &[&[u8]], value: &mut Vec<u8>) -> io::Result<Reply> {
        let mut stream = match self.stream.take() {
            Some(stream) => stream,
            None => self.connected()?,
        };
        protocol::send(stream.get_mut(), words)?;
        let reply = protocol::receive(&mut stream, value)?;
        self.stream = Some(stream);
        match reply {
            Reply::Error(message) => Err(io::Error::other(message)),
            reply => Ok(reply),
        }
    }

    fn delete(&mut self, numbers: &[u64]) -> io::Result<()> {
        let keys: Vec<String> = numbers.iter().map(|number| self.key(*number)).collect();
        let mut words: Vec<&[u8]> = vec![b"DEL"];
        words.extend(keys.iter().map(String::as_bytes));
        self.call(&words, &mut Vec::new()).map(drop)
    }
}

impl Engine for Resp {
    type Error = io::Error;

    fn put(&mut self, number: u64, bytes: &[u8]) -> io::Result<()> {
        self.kept.insert(number);
        let key = self.key(number);
        self.call(&[b"SET", key.as_bytes(), bytes], &mut Vec::new())
            .map(drop)
    }

    fn get(&mut self, number: u64, buffer: &mut Vec<u8>) -> io::Result<()> {
        let key = self.key(number);
        match self.call(&[b"GET", key.as_bytes()], buffer)? {
            Reply::Value => Ok(()),
            _ => Err(io::Error::new(
                io::ErrorKind::NotFound,
                format!("the server has no key {key}"),
            )),
        }
    }

    /// Deletes contents 64 at a time. Contents that the server fails to delete stay there.
    fn forget(&mut self, number: u64) {
        self.kept.remove(&number);
        self.forgotten.push(number);
        if self.forgotten.len() >= DELETED_AT_ONCE {
            let numbers = mem::take(&mut self.forgotten);
            let _ = self.delete(&numbers);
        }
    }
}

impl Drop for Resp {
    fn drop(&mut self) {
        let mut numbers = mem::take(&mut self.forgotten);
        numbers.extend(self.kept.drain());
        for some in numbers.chunks(DELETED_AT_ONCE) {
            if self.delete(some).is_err() {
                return;
            }
        }
    }
}
