//! Bugs that the simulator found in the crate, each with as few calls as possible (`examples/simulator`).

use fullercoral::{Column, Error, Limits, Memory, Policy, Refusal, Schema, Table, TextBuffer, row};

type Outcome = Result<(), Box<dyn std::error::Error>>;

#[test]
fn a_fetch_goes_on_when_its_space_is_made_with_new_numbers() -> Outcome {
    // Space for four objects of one number each, and five content numbers.
    let limits = Limits::new().local_memory(4 * 16).group(1).contents(5);
    let mut table = Table::open(Schema::new().int("n"), limits, Memory::new())?;
    table.set_policy(Policy::Demand);
    table.extend((0..5).map(|n| row![n]))?;
    // Local objects, which use up the remaining numbers.
    while table.stats().migrations == 0 {
        for place in 0..5 {
            table.set("n", place, i64::from(place) + 10)?;
        }
    }
    for place in 0..5 {
        assert_eq!(
            table.row(place)?.get("n"),
            Some((i64::from(place) + 10).into())
        );
    }
    Ok(())
}

#[test]
fn a_text_that_is_too_long_in_a_column_names_it() -> Outcome {
    for rows_before in [0, 3] {
        let schema = Schema::new().int("n").text("t").text("u");
        let mut table = Table::open(schema, Limits::new(), Memory::new())?;
        let mut short = TextBuffer::new();
        let mut long = TextBuffer::new();
        for row in 0..5 {
            short.push("rye");
            long.push(&"x".repeat(if row == rows_before { 4_097 } else { 7 }));
        }
        let columns = [
            Column::ints(&[1, 2, 3, 4, 5]),
            short.column(),
            long.column(),
        ];
        let column = "u".into();
        let due = Error::Refused(Refusal::TextTooLong { column });
        assert_eq!(table.extend_columns(&columns), Err(due));
        assert_eq!(table.places(), rows_before);
    }
    Ok(())
}
