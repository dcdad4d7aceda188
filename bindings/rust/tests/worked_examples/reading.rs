//! Reads of parts, cells, lines and rows, and the types that calls take and return.

use std::sync::Arc;

use fullercoral::{Cell, Key, Kind, Op, Policy, Refusal, Schema, TotalsLine, row, totals};

use super::{Outcome, by_hand, refusal, table};

#[test]
fn a_lent_part_marks_removed_rows() -> Outcome {
    let mut table = table(Schema::new().int("n").text("t"));
    table.insert(row![1, "a"])?;
    table.insert(row![2, "b,c"])?;
    table.insert(row![3, Cell::Missing])?;
    table.insert(row![4, "d"])?;
    table.insert(row![5, "e"])?;
    table.remove(3)?;
    let mut numbers = table.ints("n", 0..5)?;
    let piece = numbers.next_piece()?.unwrap();
    assert_eq!(
        (piece.values, piece.alive),
        (&[1, 2, 3, 4][..], &[true, true, true, false][..])
    );
    let piece = numbers.next_piece()?.unwrap();
    assert_eq!(
        (piece.first, piece.values, piece.alive),
        (4, &[5][..], &[true][..])
    );
    assert!(numbers.next_piece()?.is_none());
    let mut texts = table.texts("t", 1..4)?;
    let piece = texts.next_piece()?.unwrap();
    assert_eq!(
        (piece.get(0), piece.get(1), piece.get(2)),
        (Some("b,c"), None, Some("d"))
    );
    assert_eq!(piece.alive, [true, true, false]);
    assert!(table.ints("n", 2..2)?.next_piece()?.is_none());
    let said = refusal(table.ints("n", 2..9)).to_string();
    assert_eq!(said, "the places 2..9 are not within 0..5");
    assert_eq!(refusal(table.texts("t", ..=u32::MAX)).number(), 14);
    assert_eq!(
        refusal(table.ints("t", ..)),
        Refusal::WrongKind {
            column: "t".into(),
            kind: Kind::Text
        }
    );
    Ok(())
}

#[test]
fn single_cells_and_lines_are_read() -> Outcome {
    let mut table = by_hand(Schema::new().int("n").text("t"));
    table.extend([row![5, "a"], row![None::<i64>, "b"], row![7, "a"]])?;
    table.remove(2)?;
    let read: Vec<_> = (0..3).map(|place| table.int("n", place)).collect();
    assert_eq!(read, [Ok(Some(5)), Ok(None), Ok(Some(7))]);
    let (place, places) = (3, 3);
    assert_eq!(refusal(table.int("n", 3)), Refusal::NoRow { place, places });
    let said = "column `t` holds texts, not numbers";
    assert_eq!(refusal(table.int("t", 0)).to_string(), said);
    table.evict("t", 0)?;
    assert_eq!(table.int("n", 0)?, Some(5));
    assert_eq!(refusal(table.row(0)).number(), 16);
    table.evict("n", 0)?;
    assert_eq!(refusal(table.int("n", 0)).number(), 16);
    table.set_policy(Policy::Demand);
    let by_text = table.watch(totals("n").by("t"))?;
    let by_number = table.watch(totals("n").by("n"))?;
    let mut lines = table.ask(by_text)?;
    assert_eq!(lines.get("a").map(|line| line.sum), Some(5));
    assert_eq!(
        (lines.get("b"), lines.get(5), lines.get("")),
        (None, None, None)
    );
    lines.next();
    assert_eq!(lines.get("a"), None);
    assert_eq!(table.ask(by_number)?.get(5).map(|line| line.count), Some(1));
    Ok(())
}

#[test]
fn columns_keys_and_constants_come_as_programs_have_them() -> Outcome {
    let mut table = table(Schema::new().int("n").int("m"));
    table.extend([row![5, 1], row![7, 2]])?;
    let names: Vec<Arc<str>> = vec!["n".into(), "m".into()];
    for (name, owned) in names.iter().zip(["n".to_owned(), "m".to_owned()]) {
        assert!(table.is_local(name, 0)? && table.is_local(Arc::clone(name), 0)?);
        assert!(table.is_local(&owned, 0)? && table.is_local(owned, 0)?);
    }
    for name in ["n", "m"].iter() {
        assert!(table.is_local(name, 0)?);
    }
    for (least, key) in [(6_i32, 2_u8), (0, 1)] {
        let above = table.watch(totals("n").by("m").only("n", Op::Gt, least))?;
        let line = table.ask_key(above, key)?.unwrap();
        assert_eq!((line.key, line.count), (Key::from(&key), 1));
    }
    Ok(())
}

#[test]
fn schemas_and_rows_are_iterated_and_lines_sorted() -> Outcome {
    let mut table = table(Schema::new().text("sku").int("n"));
    table.extend([row!["rye", 5], row!["bread", 7]])?;
    let schema = table.schema().clone();
    let mut said = Vec::new();
    let row = table.row(1)?;
    for ((name, _), cell) in (&schema).into_iter().zip(&row) {
        said.push(format!("{name}: {cell}"));
    }
    assert_eq!(said, ["sku: bread", "n: 7"]);
    assert_eq!(row.into_iter().len(), schema.iter().len());
    let by_sku = table.watch(totals("n").by("sku"))?;
    let mut lines: Vec<TotalsLine<'_>> = table.ask(by_sku)?.rev().collect();
    lines.sort();
    assert_eq!(lines[0].key.text(), Some("bread"));
    Ok(())
}
