//! Refusals of calls on an open table: their reasons, and what they say.

use fullercoral::{
    Column, Error, Kind, Limits, Memory, Op, Policy, Refusal, Schema, Table, Totals, row, totals,
};

use super::{Outcome, refusal, sum, table};

#[test]
fn what_a_refusal_says() -> Outcome {
    let mut table = table(Schema::new().text("sku").int("quantity"));
    table.insert(row!["rye", 3])?;
    let said = |result: Result<u32, Error<_>>| refusal(result).to_string();
    assert_eq!(
        said(table.insert(row!["rye"])),
        "the row has 1 cells, but the table has 2 columns"
    );
    assert_eq!(
        said(table.insert(row![1, 3])),
        "column `sku` holds texts, not numbers"
    );
    let long = "x".repeat(4_097);
    let too_long = "the text for column `sku` has more than 4096 bytes";
    assert_eq!(said(table.insert(row![&long, 3])), too_long);
    assert_eq!(
        refusal(table.set("skew", 0, "a")).to_string(),
        "there is no column `skew`"
    );
    assert_eq!(
        refusal(table.set(2, 0, "a")).to_string(),
        "there is no column with index 2 (the table has 2)"
    );
    assert_eq!(
        refusal(table.set("sku", 1, "a")).to_string(),
        "there is no place 1 (the table has 1)"
    );
    let no_group = "there is no row group 77 (the table has 1)";
    assert_eq!(refusal(table.evict("sku", 77)).to_string(), no_group);
    assert_eq!(refusal(table.fetch("sku", 77)).to_string(), no_group);
    assert_eq!(refusal(table.is_local("sku", 77)).to_string(), no_group);
    assert_eq!(refusal(table.unpin("sku", 77)).to_string(), no_group);
    table.remove(0)?;
    assert_eq!(
        refusal(table.set("sku", 0, "a")).to_string(),
        "the row at place 0 was removed"
    );
    Ok(())
}

#[test]
fn what_a_refused_registration_says() -> Outcome {
    let mut table = table(Schema::new().text("sku").int("quantity"));
    let spec = totals("quantity").only("sku", Op::Gt, 0);
    assert_eq!(
        refusal(table.watch(spec)),
        Refusal::WrongKind {
            column: "sku".into(),
            kind: Kind::Text
        }
    );
    assert_eq!(refusal(table.watch(totals("sku"))).number(), 5);
    let five = (0..5).fold(totals("price"), |spec, n| spec.only("quantity", Op::Eq, n));
    let said = |result: Result<Totals, Error<_>>| refusal(result).to_string();
    let tests = "invalid aggregate: it has at most 4 tests";
    assert_eq!(said(table.watch(five)), tests);
    let long = totals("quantity").only("sku", Op::Is, "x".repeat(4_097));
    let constant = "invalid aggregate: a text constant has at most 4,096 bytes";
    assert_eq!(said(table.watch(long)), constant);
    let greater = totals("quantity").only("sku", Op::Gt, "a");
    let op = "`Gt` compares numbers, but column `sku` holds texts: use Eq, Is and Begins";
    assert_eq!(said(table.watch(greater)), op);
    table.set_policy(Policy::Manual);
    table.insert(row!["rye", 3])?;
    let total = table.watch(totals("quantity"))?;
    let pending = "1 row groups are pending in the aggregate: call scan or build";
    assert_eq!(refusal(table.ask(total)).to_string(), pending);
    let no_group = refusal(table.scan(total, 1)).to_string();
    assert_eq!(no_group, "there is no row group 1 (the table has 1)");
    Ok(())
}

#[test]
fn refused_columns_name_the_column_and_the_row() {
    let mut table = table(Schema::new().text("sku").int("quantity"));
    let mut said = |offsets: &[u64], bytes: &[u8], quantities: Column<'_>| {
        let columns = [Column::texts(offsets, bytes), quantities];
        refusal(table.extend_columns(&columns)).to_string()
    };
    let three = Column::ints(&[1, 2, 3]);
    assert_eq!(
        said(&[0, 1, 2], b"ab", three),
        "column `quantity` is invalid at row 2: all columns must have one length"
    );
    assert_eq!(
        said(&[], b"", Column::ints(&[])),
        "column `sku` is invalid at row 0: there must be one offset more than texts"
    );
    assert_eq!(
        said(&[0, 1, 2, 3], b"abc", three.valid(&[])),
        "column `quantity` is invalid at row 0: there must be a bit for each row"
    );
    assert_eq!(
        said(&[0, 1, 2, 9], b"abc", three),
        "column `sku` is invalid at row 2: offsets must ascend, up to the length of the bytes"
    );
    assert_eq!(
        said(&[0, 1, 2, 3], b"a\xffc", three),
        "the text for column `sku` at row 1 is not valid UTF-8"
    );
}

#[test]
fn a_table_is_full() -> Outcome {
    let limits = Limits::new().places(2).group(4);
    let mut table = Table::open(Schema::new().int("n"), limits, Memory::new())?;
    assert_eq!(
        refusal(table.extend((0..3).map(|n| row![n]))),
        Refusal::TableFull
    );
    assert_eq!(table.places(), 2);
    let limits = Limits::new().edits(2).group(4);
    let mut table = Table::open(Schema::new().int("n"), limits, Memory::new())?;
    assert_eq!(
        refusal(table.extend((0..3).map(|n| row![n]))),
        Refusal::EditsUsedUp
    );
    Ok(())
}

#[test]
fn handles_of_other_tables_and_forgotten_ones_are_refused() -> Outcome {
    let mut one = table(Schema::new().int("n"));
    let mut other = table(Schema::new().int("n"));
    let (first, second) = (one.watch(totals("n"))?, other.watch(totals("n"))?);
    assert_eq!(refusal(one.ask(second)), Refusal::NoAggregate);
    one.unwatch(first)?;
    let third = one.watch(totals("n"))?;
    assert_eq!(refusal(one.ask(first)), Refusal::NoAggregate);
    assert_eq!(sum(&mut one, third), (0, 0));
    let others = (1..32).map(|_| one.watch(totals("n")));
    let others = others.collect::<Result<Vec<Totals>, _>>()?;
    assert_eq!(others.len(), 31);
    assert_eq!(refusal(one.watch(totals("n"))), Refusal::TooManyAggregates);
    Ok(())
}
