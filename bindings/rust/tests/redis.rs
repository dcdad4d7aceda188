//! A table over a real server. `FULLERCORAL_REDIS` says where one listens; `./with-redis` starts one.
#![cfg(feature = "resp")]

use std::env;
use std::io::{self, Write};
use std::time::Duration;

use fullercoral::{Engine, Limits, Resp, Retry, Schema, Table, TextBuffer, row, totals};

type Outcome = Result<(), Box<dyn std::error::Error>>;

/// The server to test with. If there is none, says so.
fn server(prefix: &str) -> Option<Resp> {
    let Ok(address) = env::var("FULLERCORAL_REDIS") else {
        // Not by `eprintln!`, whose output a passed test does not show.
        let _ = writeln!(io::stderr(), "skipped: FULLERCORAL_REDIS is not set");
        return None;
    };
    Some(Resp::connect(address, prefix, Duration::from_secs(5)).unwrap())
}

#[test]
fn what_was_put_is_returned() -> Outcome {
    let Some(mut server) = server("put") else {
        return Ok(());
    };
    let contents = [&b""[..], b"\r\n", b"$3\r\n", &[0; 1_000_000]];
    for (number, bytes) in (0..).zip(contents) {
        server.put(number, bytes)?;
    }
    for (number, bytes) in (0..).zip(contents) {
        let mut buffer = Vec::new();
        server.get(number, &mut buffer)?;
        assert_eq!(buffer, bytes);
    }
    (100..200).for_each(|number| server.forget(number));
    server.forget(2);
    (200..300).for_each(|number| server.forget(number));
    assert!(server.get(2, &mut Vec::new()).is_err());
    server.get(1, &mut Vec::new())?;
    Ok(())
}

#[test]
fn a_dropped_engine_leaves_no_key() -> Outcome {
    if let (Some(mut first), Some(mut second)) = (server("drop"), server("drop")) {
        first.put(7, b"bytes")?;
        second.get(7, &mut Vec::new())?;
        drop(first);
        assert!(second.get(7, &mut Vec::new()).is_err());
    }
    Ok(())
}

#[test]
fn a_table_lies_on_the_server() -> Outcome {
    let Some(server) = server("table") else {
        return Ok(());
    };
    let schema = Schema::new().text("sku").int("quantity");
    let limits = Limits::new().group(64).local_memory(64 << 10);
    let mut table = Table::open(schema, limits, Retry::new(server, 3))?;
    let sold = table.watch(totals("quantity").by("sku"))?;
    for n in 0..20_000 {
        table.insert(row![&format!("sku {}", n % 10), n])?;
    }
    let skus: TextBuffer = (0..1_000).map(|_| "sku 0").collect();
    let quantities = vec![1; 1_000];
    table.extend_columns(&[skus.column(), fullercoral::Column::ints(&quantities)])?;
    let stats = table.stats();
    assert!(stats.evictions > 100, "{stats:?}");
    let sums: Vec<i128> = table.ask(sold)?.map(|line| line.sum).collect();
    let mut due: Vec<i128> = (0..10).map(|key| (key..20_000).step_by(10).sum()).collect();
    due[0] += 1_000;
    assert_eq!(sums, due);
    let sums: Vec<i128> = table.recount(sold)?.map(|line| line.sum).collect();
    assert_eq!(sums, due);
    Ok(())
}
