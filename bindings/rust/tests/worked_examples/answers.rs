//! Answers: whole, by line and by key, of all rows and of those that pass tests.

use fullercoral::{
    Key, Limits, Memory, Op, Policy, Refusal, Schema, Table, TotalsLine, extrema, row, totals,
};

use super::{Outcome, by_hand, refusal, sum, table};

#[test]
fn answers_by_key() -> Outcome {
    let mut table = table(Schema::new().text("sku").int("quantity").text("town"));
    let total = table.watch(totals("quantity"))?;
    let by_sku = table.watch(totals("quantity").by("sku"))?;
    let spec = extrema("quantity").by("town").only("quantity", Op::Gt, 0);
    let by_town = table.watch(spec.only("sku", Op::Begins, "br"))?;
    table.insert(row!["bread", 5, "Northam"])?;
    table.insert(row!["rye, dark", 3, "Northam"])?;
    table.insert(row!["bread", 6, "Easton"])?;
    assert_eq!(sum(&mut table, total), (3, 14));
    let lines: Vec<_> = table
        .ask(by_sku)?
        .map(|l| (l.key, l.count, l.sum))
        .collect();
    assert_eq!(
        lines,
        [(Key::Text("bread"), 2, 11), (Key::Text("rye, dark"), 1, 3)]
    );
    let lines: Vec<_> = table.ask(by_town)?.map(|l| (l.key, l.min, l.max)).collect();
    assert_eq!(
        lines,
        [(Key::Text("Easton"), 6, 6), (Key::Text("Northam"), 5, 5)]
    );
    Ok(())
}

#[test]
fn answers_of_hundreds_of_keys_come_whole() -> Outcome {
    for keys in [255, 256, 257, 600] {
        let mut table = Table::open(
            Schema::new().text("name").int("number"),
            Limits::new(),
            Memory::new(),
        )?;
        let by_name = table.watch(totals("number").by("name"))?;
        let by_number = table.watch(extrema("number").by("number"))?;
        let names: Vec<_> = (0..keys).map(|n| format!("key {n:04}")).collect();
        table.extend(names.iter().zip(-300..).map(|(name, n)| row![name, n]))?;
        let lines = table.ask(by_name)?;
        let due = names.iter().zip(-300..).map(|(name, sum)| TotalsLine {
            key: Key::Text(name),
            count: 1,
            sum,
        });
        assert!(lines.eq(due));
        let numbers = table.ask(by_number)?.map(|line| (line.key, line.min));
        assert!(numbers.eq((0..keys).map(|n| (Key::Int(n - 300), n - 300))));
    }
    Ok(())
}

#[test]
fn one_key_is_asked() -> Outcome {
    let mut table = by_hand(Schema::new().int("n").text("t"));
    table.extend([row![5, "a"], row![7, "b"], row![-2, "a"]])?;
    let by_text = table.watch(totals("n").by("t"))?;
    let ends = table.watch(extrema("n").by("t"))?;
    let total = table.watch(totals("n"))?;
    let none = table.watch(extrema("n").only("n", Op::Gt, 99))?;
    let building = Refusal::Building { pending: 1 };
    assert_eq!(refusal(table.ask_key(by_text, "a")), building);
    table.set_policy(Policy::Demand);
    let line = table.ask_key(by_text, "a")?.unwrap();
    assert_eq!((line.key, line.count, line.sum), (Key::Text("a"), 2, 3));
    let line = table.ask_key(ends, "a")?.unwrap();
    assert_eq!((line.min, line.max), (-2, 5));
    assert_eq!(table.ask_key(ends, "c")?, None);
    let said = |refusal: Refusal| (refusal.number(), refusal.to_string());
    let kind = "column `t` holds texts, not numbers";
    assert_eq!(said(refusal(table.ask_key(by_text, 5))), (5, kind.into()));
    let needed = "the aggregate has a line for each key of column `t`: ask for one";
    let refused = refusal(table.ask_key(by_text, Key::None));
    assert_eq!(said(refused), (5, needed.into()));
    let keyless = "the aggregate has no key column: ask for Key::None";
    assert_eq!(
        said(refusal(table.ask_key(total, "a"))),
        (5, keyless.into())
    );
    let line = table.ask_key(total, Key::None)?.unwrap();
    assert_eq!((line.count, line.sum), (3, 10));
    assert_eq!(table.ask_key(none, Key::None)?, None);
    table.unwatch(ends)?;
    assert_eq!(refusal(table.ask_key(ends, "a")), Refusal::NoAggregate);
    Ok(())
}

#[test]
fn numbers_and_texts_are_tested_for_being_equal_by_one_comparison() -> Outcome {
    let mut table = table(Schema::new().text("sku").int("quantity"));
    table.extend([row!["rye", 3], row!["rye", 5], row!["bread", 5]])?;
    for op in [Op::Eq, Op::Is] {
        let rye = table.watch(totals("quantity").only("sku", op, "rye"))?;
        assert_eq!(sum(&mut table, rye), (2, 8));
        let five = table.watch(totals("quantity").only("quantity", op, 5))?;
        assert_eq!(sum(&mut table, five), (2, 10));
    }
    let not = totals("quantity").only("sku", Op::Ne, "rye");
    assert_eq!(refusal(table.watch(not)).number(), 5);
    Ok(())
}

#[test]
fn rows_before_the_registration_are_scanned() -> Outcome {
    let mut table = by_hand(Schema::new().int("n"));
    table.insert(row![5])?;
    let total = table.watch(totals("n"))?;
    assert_eq!(refusal(table.ask(total)), Refusal::Building { pending: 1 });
    table.scan(total, 0)?;
    assert_eq!(sum(&mut table, total), (1, 5));
    Ok(())
}

#[test]
fn a_recount_answers_before_the_scan() -> Outcome {
    let mut table = by_hand(Schema::new().int("n"));
    table.extend([row![5], row![7]])?;
    let total = table.watch(totals("n"))?;
    assert_eq!(table.recount(total)?.next().unwrap().sum, 12);
    assert_eq!(refusal(table.ask(total)).number(), 15);
    table.set_policy(Policy::Demand);
    table.evict("n", 0)?;
    assert_eq!(table.recount(total)?.next().unwrap().sum, 12);
    assert_eq!(table.pending(total)?, 1);
    assert!(!table.is_local("n", 0)?);
    Ok(())
}
