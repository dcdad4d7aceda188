use std::fmt::Debug;
use std::sync::{Arc, Mutex};

use fullercoral::{Cell, Error, Retry, Table, TextBuffer};

/// The engine of each table: the far side, with failed calls repeated.
pub type Store = Retry<Arc<Mutex<Far>>>;

/// A reply as a text: the value, the refusal, or that the far side failed.
pub fn told<T: Debug>(reply: Result<T, Error<Down>>) -> String {
    match reply {
        Ok(value) => format!("{value:?}"),
        Err(Error::Refused(refusal)) => format!("refused {} {refusal}", refusal.number()),
        Err(_) => "down".to_owned(),
    }
}

/// The reply of a call whose value the program uses: the text only says that there is one.
pub fn told_of<T>(reply: &Result<T, Error<Down>>) -> String {
    told(reply.as_ref().map(drop).map_err(Clone::clone))
}

/// Both the value and the reply.
pub fn split<T>(reply: Result<T, Error<Down>>) -> (Option<T>, String) {
    let text = told_of(&reply);
    (reply.ok(), text)
}

/// Texts, some of them missing, as a column of rows.
pub fn buffer(texts: &[Option<&str>]) -> TextBuffer {
    let mut buffer = TextBuffer::new();
    for text in texts {
        match text {
            Some(text) => buffer.push(text),
            None => buffer.push_missing(),
        }
    }
    buffer
}

/// The cells of a row, and whether it is alive.
pub fn row(table: &mut Table<Store>, place: u32) -> String {
    told(
        table
            .row(place)
            .map(|row| (row.is_alive(), row.iter().collect::<Vec<Cell<'_>>>())),
    )
}

/// The numbers of a part of a column, piece by piece, and how it ends.
pub fn ints(table: &mut Table<Store>, column: usize, from: u32, to: u32) -> String {
    let mut part = match table.ints(column, from..to) {
        Ok(part) => part,
        Err(error) => return told::<()>(Err(error)),
    };
    to_the_end(|| {
        let piece = part.next_piece()?;
        Ok(piece.map(|piece| {
            let cells = piece.values.iter().zip(piece.valid);
            let cells = cells.map(|(value, valid)| Cell::from(valid.then_some(*value)));
            line(piece.first, cells, piece.alive)
        }))
    })
}

/// The texts of a part of a column, piece by piece, and how it ends.
pub fn texts(table: &mut Table<Store>, column: usize, from: u32, to: u32) -> String {
    let mut part = match table.texts(column, from..to) {
        Ok(part) => part,
        Err(error) => return told::<()>(Err(error)),
    };
    to_the_end(|| {
        let piece = part.next_piece()?;
        Ok(piece.map(|piece| {
            let cells = (0..piece.len()).map(|index| Cell::from(piece.get(index)));
            line(piece.first, cells, piece.alive)
        }))
    })
}

// The lines of all pieces, and the reply that ends them.
fn to_the_end(mut next_line: impl FnMut() -> Result<Option<String>, Error<Down>>) -> String {
    let mut text = String::new();
    loop {
        match next_line() {
            Ok(Some(line)) => text += &line,
            ended => return text + &told(ended.map(drop)),
        }
    }
}

// A piece as a line.
fn line<'a>(first: u32, cells: impl Iterator<Item = Cell<'a>>, alive: &[bool]) -> String {
    let cells: Vec<Cell<'_>> = cells.collect();
    format!("{first} {cells:?} {alive:?}\n")
}
