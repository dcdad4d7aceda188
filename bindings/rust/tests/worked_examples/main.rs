//! The worked examples of the script language, through the crate. They get the replies in the
//! repository's `examples/`.

use fullercoral::{
    Engine, Error, Key, Limits, Memory, Policy, Refusal, Schema, Table, TotalsLine, extrema, row,
    totals,
};

mod answers;
mod movement;
mod openings;
mod reading;
mod refusals;

type Outcome = Result<(), Box<dyn std::error::Error>>;

fn table(schema: Schema) -> Table<Memory> {
    Table::open(schema, Limits::new().group(4), Memory::new()).unwrap()
}

fn by_hand(schema: Schema) -> Table<Memory> {
    let mut table = table(schema);
    table.set_policy(Policy::Manual);
    table
}

fn refusal<T: std::fmt::Debug, E: std::fmt::Debug>(result: Result<T, Error<E>>) -> Refusal {
    match result {
        Err(Error::Refused(refusal)) => refusal,
        other => panic!("{other:?} is not a refusal"),
    }
}

fn sum<E: Engine>(table: &mut Table<E>, total: fullercoral::Totals) -> (u64, i128) {
    let Ok(mut lines) = table.ask(total) else {
        panic!("it did not answer");
    };
    let line = lines.next().unwrap();
    assert_eq!((line.key, lines.len()), (Key::None, 0));
    (line.count, line.sum)
}

#[test]
fn first_run() -> Outcome {
    let mut table = table(Schema::new().int("n"));
    let total = table.watch(totals("n"))?;
    assert_eq!(table.insert(row![5])?, 0);
    assert_eq!(table.insert(row![7])?, 1);
    assert_eq!(sum(&mut table, total), (2, 12));
    table.set("n", 0, -2)?;
    table.remove(1)?;
    assert_eq!(sum(&mut table, total), (1, -2));
    Ok(())
}

#[test]
fn the_bakery_of_the_readme() -> Outcome {
    let mut table = by_hand(Schema::new().text("sku").int("quantity"));
    let sold = table.watch(totals("quantity").by("sku"))?;
    let ends = table.watch(extrema("quantity"))?;
    table.extend([row!["bread", 5], row!["rye", 3], row!["bread", 2]])?;
    table.evict("quantity", 0)?;
    let line = |sku, count, sum| TotalsLine {
        key: Key::Text(sku),
        count,
        sum,
    };
    assert!(
        table
            .ask(sold)?
            .eq([line("bread", 2, 7), line("rye", 1, 3)])
    );
    let absent = Refusal::Absent {
        column: "quantity".into(),
        group: 0,
    };
    assert_eq!(refusal(table.set("quantity", 1, 9)), absent);
    assert_eq!(
        absent.to_string(),
        "row group 0 of column `quantity` is not local"
    );
    table.fetch("quantity", 0)?;
    table.set("quantity", 1, 9)?;
    table.remove(0)?;
    assert!(
        table
            .ask(sold)?
            .eq([line("bread", 1, 2), line("rye", 1, 9)])
    );
    let line = table.ask(ends)?.next().unwrap();
    assert_eq!((line.min, line.max), (2, 9));
    Ok(())
}

#[test]
fn any_engine_has_an_error_that_is_one() -> Outcome {
    fn add<E: Engine>(table: &mut Table<E>) -> Outcome {
        table.insert(row![1])?;
        Ok(())
    }
    add(&mut table(Schema::new().int("n")))
}
