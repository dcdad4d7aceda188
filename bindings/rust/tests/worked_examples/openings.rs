//! Refused schemas and limits: the message names the rule that they break.

use fullercoral::{Limits, Memory, Schema, Table};

use super::refusal;

/// The rule that a schema or its limits break.
fn rule(schema: Schema, limits: Limits) -> String {
    let refusal = refusal(Table::open(schema, limits, Memory::new()));
    assert_eq!(refusal.number(), 2);
    let said = refusal.to_string();
    said.replace("invalid columns or limits: ", "")
}

fn one() -> Schema {
    Schema::new().int("a")
}

#[test]
fn refused_memory_says_which_rule_it_breaks() {
    let contents = "a table has at least one content number";
    assert_eq!(rule(one(), Limits::new().contents(0)), contents);
    let group = "the local memory for numbers must hold a row group of each of their columns";
    assert_eq!(rule(one(), Limits::new().local_memory(0)), group);
    let few = Limits::new().local_memory(1 << 10).group(65_536);
    assert_eq!(rule(one(), few), group);
    let few = Limits::new().local_memory(3 * 64 * 16 - 1).group(64);
    assert_eq!(rule(one().int("b").int("c"), few), group);
    let few = "the local memory for texts must have 64 bytes or more";
    let text = || Schema::new().text("a");
    assert_eq!(rule(text(), Limits::new().local_memory(63)), few);
    let most = Limits::new().local_memory((16 << 30) + 1);
    let numbers = "the local memory for numbers has at most 16 GiB";
    assert_eq!(rule(one(), most.clone()), numbers);
    let texts = "the local memory for texts has at most 16 GiB";
    assert_eq!(rule(text(), most), texts);
}

#[test]
fn a_refused_schema_or_limit_says_which_rule_it_breaks() {
    let columns = "a table has 1 to 16 columns";
    assert_eq!(rule(Schema::new(), Limits::new()), columns);
    let many = (0..17).fold(Schema::new(), |schema, n| schema.int(&n.to_string()));
    assert_eq!(rule(many, Limits::new()), columns);
    let names = "each column has a name of its own";
    assert_eq!(rule(one().text("a"), Limits::new()), names);
    let group = "a row group has 1 to 65,536 places";
    assert_eq!(rule(one(), Limits::new().group(0)), group);
    assert_eq!(rule(one(), Limits::new().group(65_537)), group);
    let places = "a table has 1 to 16,777,216 places";
    assert_eq!(rule(one(), Limits::new().places(0)), places);
    assert_eq!(rule(one(), Limits::new().places((1 << 24) + 1)), places);
    let edits = "a table takes 1 to 2^40 edits";
    assert_eq!(rule(one(), Limits::new().edits(0)), edits);
    let texts = "text_memory is more than 0 and less than the local memory";
    for bytes in [0, 64 << 20] {
        let limits = Limits::new().text_memory(bytes);
        assert_eq!(rule(one().text("b"), limits), texts);
    }
}
