//! Writes a whole program that repeats calls.

use std::fmt::Write;

use fullercoral::{Constant, Kind};

use crate::call::{Call, Folding, Owned, Setup, Step, name};
use crate::repeat::SOURCE;
use crate::world::Wrong;

/// Returns a program that makes these calls, and compares the last reply with the expected one.
pub fn program(setup: &Setup, steps: &[Step], wrong: &Wrong) -> String {
    let mut text = String::from("#![allow(unused)]\n");
    SOURCE.iter().for_each(|source| text += source);
    text += "\nuse std::time::Duration;\n\nuse fullercoral::*;\n\nfn main() {\n";
    text += "    let far = Arc::new(Mutex::new(Far::default()));\n";
    let _ = writeln!(
        text,
        "    let engine = Retry::new(Arc::clone(&far), {}).pause(Duration::ZERO);",
        setup.tries
    );
    let _ = writeln!(text, "    let schema = {};", schema(setup));
    let _ = writeln!(text, "    let limits = {};", limits(setup));
    text += "    let mut table = Table::open(schema, limits, engine).unwrap();\n";
    let _ = writeln!(text, "    table.set_policy(Policy::{:?});", setup.policy);
    let mut mood = 0;
    for step in steps {
        if step.mood != mood {
            let _ = writeln!(text, "    far.lock().unwrap().behave({:#x});", step.mood);
        }
        mood = step.mood;
        let _ = writeln!(text, "    {}", line(step, setup));
    }
    let _ = writeln!(
        text,
        "    // due: {:?}\n    // came: {:?}",
        wrong.due, wrong.came
    );
    text += "    println!(\"{reply}\\n{:?}\", table.stats());\n";
    if wrong.is_reply {
        let _ = writeln!(text, "    assert_eq!(reply, {:?});", wrong.due);
    }
    text + "}\n"
}

fn schema(setup: &Setup) -> String {
    let column = |(index, kind): (usize, &Kind)| match kind {
        Kind::Int => format!(".int({:?})", name(index)),
        _ => format!(".text({:?})", name(index)),
    };
    let columns: String = setup.kinds.iter().enumerate().map(column).collect();
    format!("Schema::new(){columns}")
}

fn limits(setup: &Setup) -> String {
    let mut text = format!(
        "Limits::new().local_memory({}).group({}).places({})",
        setup.memory, setup.group, setup.places
    );
    let numbers = [("edits", setup.edits), ("contents", setup.contents)];
    let texts = ("text_memory", setup.text_memory.map(|bytes| bytes as u64));
    for (limit, value) in numbers.into_iter().chain([texts]) {
        if let Some(value) = value {
            let _ = write!(text, ".{limit}({value})");
        }
    }
    text
}

fn cell(cell: &Owned) -> String {
    match cell {
        Owned::Missing => "Cell::Missing".to_owned(),
        Owned::Int(number) => format!("Cell::Int({number})"),
        Owned::Text(text) => format!("Cell::Text({})", literal(text)),
    }
}

fn literal(text: &str) -> String {
    if text.len() > 100 && text.bytes().all(|byte| byte == b'x') {
        return format!("&\"x\".repeat({})", text.len());
    }
    format!("{text:?}")
}

fn spec(folding: &Folding) -> String {
    let what = if folding.is_extrema {
        "extrema"
    } else {
        "totals"
    };
    let mut text = format!("{what}({:?})", name(folding.value));
    if let Some(key) = folding.key {
        let _ = write!(text, ".by({:?})", name(key));
    }
    for (column, op, constant) in &folding.tests {
        let constant = match constant {
            Constant::Int(number) => format!("{number}i64"),
            Constant::Text(text) => {
                format!("&*{}.to_owned()", literal(text).trim_start_matches('&'))
            }
        };
        let _ = write!(text, ".only({:?}, Op::{op:?}, {constant})", name(*column));
    }
    text
}

fn columns(columns: &[Vec<Owned>], setup: &Setup) -> String {
    let (mut buffers, mut all) = (String::new(), Vec::new());
    for (index, (cells, kind)) in columns.iter().zip(&setup.kinds).enumerate() {
        if *kind == Kind::Int {
            let values: Vec<i64> = cells.iter().map(|cell| cell.int().unwrap_or(0)).collect();
            let mut bits = vec![0u8; cells.len().div_ceil(8)];
            for place in (0..cells.len()).filter(|place| cells[*place].int().is_some()) {
                bits[place / 8] |= 1 << (place % 8);
            }
            all.push(format!("Column::ints(&{values:?}).valid(&{bits:?})"));
        } else {
            let texts = cells.iter().map(|cell| match cell.text() {
                Some(text) => format!("Some({})", literal(text)),
                None => "None".to_owned(),
            });
            let texts: Vec<String> = texts.collect();
            let _ = write!(buffers, "let b{index} = buffer(&[{}]); ", texts.join(", "));
            all.push(format!("b{index}.column()"));
        }
    }
    let all = all.join(", ");
    format!("{{ {buffers}told(table.extend_columns(&[{all}])) }}")
}

fn line(step: &Step, setup: &Setup) -> String {
    let id = step.id;
    match &step.call {
        Call::Watch(folding) => format!(
            "let (a{id}, reply) = split(table.watch({}));",
            spec(folding)
        ),
        Call::BeginEvict(column, group) => format!(
            "let (mut job{id}, reply) = split(table.begin_evict({column}, {group})); {}",
            not_stored(id)
        ),
        Call::BeginColdest => format!(
            "let (job{id}, reply) = split(table.begin_evict_coldest()); let mut job{id} = job{id}.flatten(); {}",
            not_stored(id)
        ),
        Call::BeginFetch(column, group) => {
            format!(
                "let (mut job{id}, reply) = split(table.begin_fetch({column}, {group})); {}",
                not_stored(id)
            )
        }
        Call::BeginBuild(of, group) => format!(
            "let (mut job{id}, reply) = split(table.begin_build(a{of}.unwrap(), {group})); {}",
            not_stored(id)
        ),
        Call::Put(job) => format!(
            "let (mut stored{job}, reply) = match job{job}.take() {{ \
             Some(it) => split(it.put(table.engine_mut()).map_err(Error::Engine)), \
             None => (stored{job}.take(), String::new()) }};"
        ),
        Call::Drop(job) => format!("drop((job{job}.take(), stored{job}.take()));"),
        Call::SetPolicy(policy) => format!("table.set_policy(Policy::{policy:?});"),
        Call::ComeBack => "far.lock().unwrap().come_back();".to_owned(),
        Call::Limit(room) => format!("far.lock().unwrap().limit({room});"),
        Call::GoAway(calls) => format!("far.lock().unwrap().go_away({calls});"),
        other => format!("let reply = {};", reply(other, setup)),
    }
}

// The declaration of a variable for a job whose content was put.
fn not_stored(id: u32) -> String {
    format!("let mut stored{id} = None::<Stored>;")
}

// The expression of a call that returns only its reply.
fn reply(call: &Call, setup: &Setup) -> String {
    match call {
        Call::Insert(row) => {
            let row: Vec<String> = row.iter().map(cell).collect();
            format!("told(table.insert([{}]))", row.join(", "))
        }
        Call::Extend(rows) => columns(rows, setup),
        Call::Set(column, place, to) => format!("told(table.set({column}, {place}, {}))", cell(to)),
        Call::Remove(place) => format!("told(table.remove({place}))"),
        Call::Row(place) => format!("row(&mut table, {place})"),
        Call::Text(column, place) => format!("told(table.text({column}, {place}))"),
        Call::Part(column, from, to) => {
            let is_text = setup.kinds.get(*column) == Some(&Kind::Text);
            let read = if is_text { "texts" } else { "ints" };
            format!("{read}(&mut table, {column}, {from}, {to})")
        }
        Call::IsAlive(place) => format!("told(table.is_alive({place}))"),
        Call::Evict(column, group) => format!("told(table.evict({column}, {group}))"),
        Call::EvictColdest => "told(table.evict_coldest())".to_owned(),
        Call::Fetch(column, group) => format!("told(table.fetch({column}, {group}))"),
        Call::Pin(column, group) => format!("told(table.pin({column}, {group}).map(Pinned::keep))"),
        Call::Unpin(column, group) => format!("told(table.unpin({column}, {group}))"),
        Call::Compact => "table.compact().to_string()".to_owned(),
        Call::Migrate => "told(table.migrate())".to_owned(),
        Call::Proposals(column) => format!("told(table.proposals({column}))"),
        other => reply_of_handle(other),
    }
}

// The same for a call with an aggregate or a job.
fn reply_of_handle(call: &Call) -> String {
    let engine = "table.engine_mut()).map_err(Error::Engine)";
    let lines = ".map(|lines| lines.collect::<Vec<_>>())";
    match call {
        Call::Unwatch(of) => format!("told(table.unwatch(a{of}.unwrap()))"),
        Call::Ask(of) => format!("told(table.ask(a{of}.unwrap()){lines})"),
        Call::Recount(of) => format!("told(table.recount(a{of}.unwrap()){lines})"),
        Call::Pending(of) => format!("told(table.pending(a{of}.unwrap()))"),
        Call::Scan(of, group) => format!("told(table.scan(a{of}.unwrap(), {group}))"),
        Call::Build(of, group) => format!("told(table.build(a{of}.unwrap(), {group}))"),
        Call::Get(job) => format!("told(job{job}.as_mut().unwrap().get({engine})"),
        Call::Commit(job) => format!(
            "told(table.commit(stored{job}.take().or_else(|| job{job}.take().map(Outgoing::assume_stored)).unwrap()))"
        ),
        Call::Install(job) => format!("told(table.install(job{job}.take().unwrap()))"),
        _ => String::new(),
    }
}
