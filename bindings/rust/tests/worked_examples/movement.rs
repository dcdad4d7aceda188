//! Objects that go away and come back, row groups built from the store, and proposals.

use fullercoral::{Limits, Memory, Refusal, Schema, Table, row, totals};

use super::{Outcome, by_hand, refusal, sum};

#[test]
fn an_object_goes_away_and_comes_back() -> Outcome {
    let mut table = by_hand(Schema::new().int("n"));
    let total = table.watch(totals("n"))?;
    table.insert(row![5])?;
    table.evict(0, 0)?;
    assert_eq!(refusal(table.set(0, 0, 6)).number(), 16);
    assert_eq!(refusal(table.insert(row![6])).number(), 16);
    assert_eq!(refusal(table.evict(0, 0)).number(), 16);
    assert_eq!(sum(&mut table, total), (1, 5));
    table.fetch(0, 0)?;
    let (column, group) = ("n".into(), 0);
    let local = Refusal::IsLocal { column, group };
    assert_eq!(
        local.to_string(),
        "row group 0 of column `n` is local already"
    );
    assert_eq!(refusal(table.fetch(0, 0)), local);
    table.set(0, 0, 6)?;
    assert_eq!(sum(&mut table, total), (1, 6));
    Ok(())
}

#[test]
fn a_row_group_is_built_from_the_store() -> Outcome {
    let mut table = by_hand(Schema::new().int("n"));
    table.extend([row![5], row![7]])?;
    table.evict("n", 0)?;
    let total = table.watch(totals("n"))?;
    assert_eq!(refusal(table.scan(total, 0)).number(), 16);
    assert_eq!(refusal(table.recount(total)).number(), 16);
    table.build(total, 0)?;
    assert_eq!(refusal(table.build(total, 0)), Refusal::StaleJob);
    assert_eq!(sum(&mut table, total), (2, 12));
    assert!(!table.is_local("n", 0)?);
    Ok(())
}

#[test]
fn a_stride_of_reads_goes_on() -> Outcome {
    let limits = Limits::new().group(1);
    let mut table = Table::open(Schema::new().int("n"), limits, Memory::new())?;
    table.extend((1..7).map(|n| row![n]))?;
    for place in 0..4 {
        assert_eq!(table.proposals("n")?, []);
        table.ints("n", place..=place)?.next_piece()?;
    }
    assert_eq!(table.proposals("n")?, [4, 5]);
    Ok(())
}
