//! Tables over a server that sends invalid replies.
#![cfg(feature = "resp")]

use std::io::{Read, Write};
use std::net::{SocketAddr, TcpListener};
use std::thread;
use std::time::{Duration, Instant};

use fullercoral::{Engine, Error, Limits, Policy, Resp, Schema, Table, row, totals};

/// A server that accepts every `SET`, and replies to each `GET` with `answer`, `times` times over.
fn server(answer: &'static [u8], times: usize) -> SocketAddr {
    let listener = TcpListener::bind("127.0.0.1:0").unwrap();
    let address = listener.local_addr().unwrap();
    thread::spawn(move || {
        for stream in listener.incoming() {
            let mut stream = stream.unwrap();
            thread::spawn(move || {
                let mut words = [0; 1 << 16];
                while let Ok(1..) = stream.read(&mut words) {
                    let gets = words.windows(3).any(|word| word == b"GET");
                    words.fill(0);
                    let sent = match gets {
                        true => (0..times).try_for_each(|_| stream.write_all(answer)),
                        false => stream.write_all(b"+OK\r\n"),
                    };
                    if sent.is_err() {
                        return;
                    }
                }
            });
        }
    });
    address
}

#[test]
fn no_answer_is_taken_that_is_not_what_was_put() {
    let answers: [&[u8]; 16] = [
        b"$3\r\nabc\r\n",
        b"$0\r\n\r\n",
        b"$-1\r\n",
        b"$-2\r\n",
        b"$\r\n",
        b"$99999999999999999999999\r\n",
        b"$18446744073709551615\r\nabc",
        b"$3\r\nabcdef\r\n",
        b"-ERR no\r\n",
        b"+OK\r\n",
        b":7\r\n",
        b"*1\r\n$3\r\nabc\r\n",
        b"\r\n",
        b"\xff\xff\xff\r\n",
        b"$5\r\nabcde",
        b"HTTP/1.1 200 OK\r\n\r\n",
    ];
    for answer in answers {
        let address = server(answer, 1);
        let engine = Resp::connect(address, "hostile", Duration::from_millis(200)).unwrap();
        let mut table = Table::open(Schema::new().int("n"), Limits::new(), engine).unwrap();
        table.set_policy(Policy::Demand);
        let total = table.watch(totals("n")).unwrap();
        table.extend((0..9).map(|n| row![n])).unwrap();
        table.evict("n", 0).unwrap();
        for _ in 0..3 {
            assert!(table.row(3).is_err(), "{answer:?}");
        }
        assert_eq!(table.ask(total).unwrap().next().unwrap().sum, 36);
    }
}

#[test]
fn a_key_that_the_server_lacks_is_named() {
    let address = server(b"$-1\r\n", 1);
    let mut engine = Resp::connect(address, "sales", Duration::from_secs(5)).unwrap();
    let error = engine.get(7, &mut Vec::new()).unwrap_err();
    assert_eq!(error.to_string(), "the server has no key sales:7");
}

#[test]
fn an_answer_without_end_is_not_read() {
    // 64 KB of zeros, again and again, after a length that no content has.
    static ENDLESS: [u8; 1 << 16] = [b'0'; 1 << 16];
    static HEAD: &[u8] = b"$4000000000000\r\n";
    for (answer, times) in [(HEAD, 1), (&ENDLESS[..], usize::MAX)] {
        let address = server(answer, times);
        let mut engine = Resp::connect(address, "endless", Duration::from_secs(5)).unwrap();
        engine.put(0, b"abc").unwrap();
        let (begun, mut buffer) = (Instant::now(), Vec::new());
        assert!(engine.get(0, &mut buffer).is_err());
        assert!(begun.elapsed() < Duration::from_secs(4) && buffer.capacity() < 1 << 20);
    }
}

#[test]
fn a_server_that_goes_away_fails_a_call() {
    let listener = TcpListener::bind("127.0.0.1:0").unwrap();
    let address = listener.local_addr().unwrap();
    let engine = Resp::connect(address, "gone", Duration::from_millis(200)).unwrap();
    drop(listener);
    let mut table = Table::open(Schema::new().int("n"), Limits::new(), engine).unwrap();
    table.insert(row![5]).unwrap();
    assert!(matches!(table.evict("n", 0), Err(Error::Engine(_))));
    assert!(table.is_local("n", 0).unwrap());
}
