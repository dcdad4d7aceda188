//! Movement in phases, over engines that fail, between threads, and in regions that are too small.

use std::sync::{Arc, Mutex};
use std::thread;

use fullercoral::{
    Error, Fault, Faulty, FaultyError, Limits, Memory, Policy, Refusal, Retry, Schema, Table,
    extrema, row, totals,
};

type Outcome = Result<(), Box<dyn std::error::Error>>;

fn numbers() -> Schema {
    Schema::new().int("n").int("m")
}

fn refusal<T: std::fmt::Debug, E: std::fmt::Debug>(result: Result<T, Error<E>>) -> Refusal {
    match result {
        Err(Error::Refused(refusal)) => refusal,
        other => panic!("{other:?} is not a refusal"),
    }
}

fn far_fault(column: &str, group: u32) -> Refusal {
    let column = column.into();
    Refusal::FarFault { column, group }
}

fn is_send<T: Send>(_: &T) {}

#[test]
fn tables_and_jobs_go_from_thread_to_thread() -> Outcome {
    let mut table = Table::open(numbers(), Limits::new(), Memory::new())?;
    is_send(&table);
    table.insert(row![1, 2])?;
    let outgoing = table.begin_evict("n", 0)?;
    is_send(&outgoing);
    let stored = outgoing.put(table.engine_mut())?;
    is_send(&stored);
    table.commit(stored)?;
    is_send(&table.begin_fetch("n", 0)?);
    Ok(())
}

#[test]
fn a_row_that_local_memory_cannot_hold_is_refused() -> Outcome {
    // Three segments of a row group each, one of which is pinned when a second row group needs all.
    for policy in [Policy::Manual, Policy::Demand, Policy::Prefetch] {
        let limits = Limits::new().group(4).local_memory(3 * 4 * 16);
        let schema = numbers().int("o");
        let mut table = Table::open(schema, limits, Memory::new())?;
        table.set_policy(policy);
        table.extend((0..4).map(|n| row![n, n, n]))?;
        table.pin("n", 0)?.keep();
        assert_eq!(refusal(table.insert(row![1, 2, 3])), Refusal::RegionFull);
        assert_eq!(table.places(), 4);
    }
    Ok(())
}

#[test]
fn a_table_with_space_for_one_row_group_works() -> Outcome {
    let limits = Limits::new().group(8).local_memory(2 * 8 * 16);
    let mut table = Table::open(numbers(), limits, Memory::new())?;
    let total = table.watch(totals("n").by("m"))?;
    table.extend((0..80).map(|n| row![n, n % 3]))?;
    for place in (0..80).step_by(7) {
        table.set("n", place, 0)?;
        assert_eq!(table.row(place)?.iter().len(), 2);
    }
    let due: i128 = (0..80).filter(|n| n % 7 != 0).sum();
    assert_eq!(table.ask(total)?.map(|line| line.sum).sum::<i128>(), due);
    assert_eq!(
        table.recount(total)?.map(|line| line.sum).sum::<i128>(),
        due
    );
    Ok(())
}

#[test]
fn an_engine_that_fails_leaves_the_table_as_it_was() -> Outcome {
    let engine = Faulty::new(Memory::new(), 1).with(Fault::Fail, 1_000);
    let mut table = Table::open(numbers(), Limits::new().group(8), engine)?;
    let total = table.watch(totals("n"))?;
    table.extend((0..8).map(|n| row![n, n]))?;
    assert_eq!(
        table.evict("n", 0),
        Err(Error::Engine(FaultyError::Injected))
    );
    assert!(table.is_local("n", 0)?);
    table.engine_mut().set(Fault::Fail, 0);
    table.evict("n", 0)?;
    table.engine_mut().set(Fault::Fail, 1_000);
    assert_eq!(
        table.fetch("n", 0),
        Err(Error::Engine(FaultyError::Injected))
    );
    assert_eq!(
        table.set("n", 0, 5),
        Err(Error::Engine(FaultyError::Injected))
    );
    assert!(!table.is_local("n", 0)?);
    assert_eq!(table.ask(total)?.next().unwrap().sum, 28);
    table.engine_mut().set(Fault::Fail, 0);
    table.set("n", 0, 5)?;
    assert_eq!(table.ask(total)?.next().unwrap().sum, 33);
    assert_eq!(table.stats().engine_errors, 3);
    Ok(())
}

#[test]
fn a_retry_hides_failures() -> Outcome {
    let engine = Faulty::new(Memory::new(), 1).with(Fault::Fail, 300);
    let engine = Retry::new(engine, 20).pause(std::time::Duration::ZERO);
    let limits = Limits::new().group(8).local_memory(4 * 8 * 16);
    let mut table = Table::open(numbers(), limits, engine)?;
    let ends = table.watch(extrema("n"))?;
    table.extend((0..1_000).map(|n| row![n, n]))?;
    (0..1_000).try_for_each(|place| table.set("n", place, 5))?;
    let line = table.ask(ends)?.next().unwrap();
    assert_eq!((line.min, line.max), (5, 5));
    Ok(())
}

#[test]
fn wrong_bytes_are_refused_and_the_right_ones_accepted_later() -> Outcome {
    let mut table = Table::open(numbers(), Limits::new().group(8), Memory::new())?;
    let total = table.watch(totals("n"))?;
    table.extend((0..8).map(|n| row![n, n]))?;
    table.evict("n", 0)?;
    let len = table.engine_mut().content_mut(0).unwrap().len();
    for bit in 0..8 * len {
        table.engine_mut().content_mut(0).unwrap()[bit / 8] ^= 1 << (bit % 8);
        assert_eq!(refusal(table.fetch("n", 0)), far_fault("n", 0));
        table.engine_mut().content_mut(0).unwrap()[bit / 8] ^= 1 << (bit % 8);
    }
    assert_eq!(table.stats().faults, 8 * len as u64);
    assert!(!table.is_local("n", 0)?);
    table.fetch("n", 0)?;
    assert_eq!(table.ask(total)?.next().unwrap().sum, 28);
    Ok(())
}

#[test]
fn a_build_of_wrong_bytes_is_refused() -> Outcome {
    let mut table = Table::open(numbers(), Limits::new().group(8), Memory::new())?;
    table.extend((0..8).map(|n| row![n, n % 2]))?;
    table.evict("n", 0)?;
    table.evict("m", 0)?;
    let total = table.watch(totals("n").by("m"))?;
    table.engine_mut().content_mut(1).unwrap()[7] ^= 1;
    assert_eq!(refusal(table.ask(total)), far_fault("m", 0));
    assert_eq!(table.pending(total)?, 1);
    table.engine_mut().content_mut(1).unwrap()[7] ^= 1;
    let sums: Vec<i128> = table.ask(total)?.map(|line| line.sum).collect();
    assert_eq!(sums, [12, 16]);
    assert!(!table.is_local("n", 0)? && table.stats().builds == 1);
    Ok(())
}

#[test]
fn a_fault_names_the_column_and_the_row_group() -> Outcome {
    let mut table = Table::open(numbers(), Limits::new().group(8), Memory::new())?;
    table.extend((0..16).map(|n| row![n, n]))?;
    table.evict("n", 1)?;
    table.evict("m", 1)?;
    let total = table.watch(totals("n").by("m"))?;
    for content in 0..2 {
        table.engine_mut().content_mut(content).unwrap()[7] ^= 1;
    }
    assert_eq!(refusal(table.migrate()), far_fault("n", 1));
    let mut incoming = table.begin_build(total, 1)?;
    incoming.get(table.engine_mut())?;
    assert_eq!(refusal(table.install(incoming)), far_fault("n", 1));
    table.engine_mut().content_mut(0).unwrap()[7] ^= 1;
    assert_eq!(refusal(table.migrate()), far_fault("m", 1));
    let error = table.int("m", 15).unwrap_err();
    let said = "the storage returned other bytes than were put for row group 1 of column `m`";
    assert_eq!(error.to_string(), said);
    Ok(())
}

#[test]
fn a_job_prints_no_bytes() -> Outcome {
    let mut table = Table::open(numbers(), Limits::new().group(8), Memory::new())?;
    table.extend((0..8).map(|n| row![n, n]))?;
    let outgoing = table.begin_evict("m", 0)?;
    let len = outgoing.content().map_or(0, |(_, bytes)| bytes.len());
    let said = format!("{{ column: 1, group: 0, number: Some(0), len: Some({len}) }}");
    assert_eq!(format!("{outgoing:?}"), format!("Outgoing {said}"));
    let stored = outgoing.put(table.engine_mut())?;
    assert_eq!(format!("{stored:?}"), format!("Stored {said}"));
    table.commit(stored)?;
    let mut incoming = table.begin_fetch("m", 0)?;
    incoming.get(table.engine_mut())?;
    let said = format!("{incoming:?}");
    assert!(
        said.ends_with(&format!("contents: [(0, {len})] }}")),
        "{said}"
    );
    Ok(())
}

#[test]
fn a_dropped_job_is_given_up() -> Outcome {
    let mut table = Table::open(numbers(), Limits::new().group(8), Memory::new())?;
    table.extend((0..8).map(|n| row![n, n]))?;
    let outgoing = table.begin_evict("n", 0)?;
    drop(outgoing.put(table.engine_mut())?);
    assert_eq!(table.engine().len(), 1);
    drop(table.begin_evict("m", 0)?);
    assert!(table.engine().is_empty());
    assert!(table.is_local("n", 0)? && table.is_local("m", 0)?);
    Ok(())
}

#[test]
fn an_eviction_whose_put_failed_is_over_and_loses_no_cell() -> Outcome {
    let engine = Faulty::new(Memory::new(), 1).with(Fault::Fail, 1_000);
    let mut table = Table::open(numbers(), Limits::new().group(8), engine)?;
    table.insert(row![5, 7])?;
    let outgoing = table.begin_evict("n", 0)?;
    assert!(outgoing.put(table.engine_mut()).is_err());
    assert!(table.is_local("n", 0)?);
    table.engine_mut().set(Fault::Fail, 0);
    let stored = table.begin_evict("n", 0)?.put(table.engine_mut())?;
    table.commit(stored)?;
    assert_eq!(table.int("n", 0)?, Some(5));
    Ok(())
}

#[test]
fn jobs_of_another_table_are_stale() -> Outcome {
    let mut tables: Vec<Table<Memory>> = Vec::new();
    for _ in 0..2 {
        let mut table = Table::open(numbers(), Limits::new().group(8), Memory::new())?;
        table.extend((0..8).map(|n| row![n, n]))?;
        tables.push(table);
    }
    let outgoing = tables[0].begin_evict("n", 0)?;
    let stored = outgoing.put(tables[0].engine_mut())?;
    assert_eq!(refusal(tables[1].commit(stored)), Refusal::StaleJob);
    assert!(tables[0].is_local("n", 0)? && tables[1].is_local("n", 0)?);
    Ok(())
}

#[test]
fn new_numbers_are_taken_when_the_old_ones_are_used_up() -> Outcome {
    let limits = Limits::new()
        .group(8)
        .contents(40)
        .local_memory(32 * 8 * 16);
    let mut table = Table::open(numbers(), limits, Memory::new())?;
    let total = table.watch(totals("n"))?;
    table.extend((0..64).map(|n| row![n, n]))?;
    for round in 0..100 {
        let group = round % 8;
        if table.is_local("n", group)? {
            table.evict("n", group)?;
        }
        if round % 3 != 0 {
            table.set("n", group * 8, i64::from(group) * 8)?;
        }
    }
    assert!(table.stats().migrations > 0);
    assert_eq!(table.ask(total)?.next().unwrap().sum, (0..64).sum());
    assert_eq!(table.recount(total)?.next().unwrap().sum, (0..64).sum());
    let away = (0..8)
        .filter(|group| !table.is_local("n", *group).unwrap())
        .count();
    assert!(table.engine().len() >= away && table.engine().len() <= 16);
    Ok(())
}

#[test]
fn new_numbers_are_refused_if_what_is_away_is_too_much() -> Outcome {
    let limits = Limits::new().group(8).contents(40).local_memory(4 * 8 * 16);
    let mut table = Table::open(numbers(), limits, Memory::new())?;
    assert_eq!(
        refusal(table.extend((0..1_000).map(|n| row![n, n]))),
        Refusal::FarFull
    );
    let places = table.places();
    assert!(places > 100);
    let sum = table.watch(totals("n"))?;
    assert_eq!(
        table.ask(sum)?.next().unwrap().sum,
        (0..i128::from(places)).sum()
    );
    Ok(())
}

#[test]
fn a_pin_keeps_an_object_local() -> Outcome {
    let limits = Limits::new().group(8).local_memory(8 * 8 * 16);
    let mut table = Table::open(numbers(), limits, Memory::new())?;
    table.insert(row![1, 2])?;
    let mut pinned = table.pin("n", 0)?;
    pinned.extend((0..500).map(|n| row![n, n]))?;
    assert!(pinned.is_local("n", 0)? && !pinned.is_local("m", 0)?);
    drop(pinned);
    table.extend((0..500).map(|n| row![n, n]))?;
    assert!(!table.is_local("n", 0)?);
    assert_eq!(refusal(table.unpin("n", 0)), Refusal::NotPinned);
    Ok(())
}

type Shared = Arc<Mutex<Memory>>;

fn evict_coldest(table: &Mutex<Table<Shared>>, mut engine: Shared) {
    for _ in 0..300 {
        let begun = table.lock().unwrap().begin_evict_coldest().unwrap();
        if let Some(outgoing) = begun {
            let stored = outgoing.put(&mut engine).unwrap();
            // Stale if the object was written meanwhile.
            let _ = table.lock().unwrap().commit(stored);
        }
    }
}

fn fetch_groups(table: &Mutex<Table<Shared>>, mut engine: Shared) {
    for round in 0..300 {
        let begun = table.lock().unwrap().begin_fetch("n", round % 20);
        if let Ok(mut incoming) = begun {
            incoming.get(&mut engine).unwrap();
            // Stale if the object was fetched meanwhile.
            let _ = table.lock().unwrap().install(incoming);
        }
    }
}

#[test]
fn a_thread_in_the_background_evicts_and_fetches() -> Outcome {
    let engine = Arc::new(Mutex::new(Memory::new()));
    let mut table = Table::open(numbers(), Limits::new().group(16), Arc::clone(&engine))?;
    let total = table.watch(totals("n").by("m"))?;
    let table = Mutex::new(table);
    thread::scope(|scope| {
        (0..2).for_each(|_| drop(scope.spawn(|| evict_coldest(&table, Arc::clone(&engine)))));
        scope.spawn(|| fetch_groups(&table, Arc::clone(&engine)));
        for n in 0..2_000 {
            table.lock().unwrap().insert(row![n, n % 7]).unwrap();
            if n % 3 == 0 {
                table.lock().unwrap().set("n", n as u32 / 2, 0).unwrap();
            }
        }
    });
    let mut table = table.into_inner()?;
    let asked: Vec<_> = table.ask(total)?.map(|l| (l.count, l.sum)).collect();
    let again: Vec<_> = table.recount(total)?.map(|l| (l.count, l.sum)).collect();
    assert_eq!(asked, again);
    assert_eq!(asked.iter().map(|(count, _)| count).sum::<u64>(), 2_000);
    Ok(())
}

#[test]
fn reads_with_a_stride_are_prefetched() -> Outcome {
    let limits = Limits::new().group(8).local_memory(64 * 8 * 16);
    let mut table = Table::open(numbers(), limits, Memory::new())?;
    table.extend((0..8_000).map(|n| row![n, n]))?;
    let mut sum = 0;
    let mut part = table.ints("n", ..)?;
    while let Some(piece) = part.next_piece()? {
        sum += piece.values.iter().sum::<i64>();
    }
    assert_eq!(sum, (0..8_000).sum());
    assert!(table.stats().prefetches > 500);
    Ok(())
}
