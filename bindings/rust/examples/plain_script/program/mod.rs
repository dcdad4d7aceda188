//! A plain program for the script language of `docs/SCRIPT.md`.

#[path = "../../../plain/blocks.rs"]
#[allow(dead_code)]
mod blocks;
#[path = "../../../plain/keyed.rs"]
mod keyed;

mod aggregates;
mod column;
mod fold;
mod moving;
mod opening;
mod reading;
mod record;
mod refusal;
mod reply;
mod script;
mod serve;
mod space;
mod spec;
mod table;

use std::io::Write;

use reply::Replies;
use script::Script;
use serve::Server;

/// The longest script, in bytes.
pub use script::LONGEST;

/// How a script ends.
#[derive(Debug, PartialEq, Eq)]
pub enum Ending {
    Served,
    /// Its first line opens no table.
    NotOpened,
    /// It is too long, no text or not whole, or a write failed.
    Faulty,
    /// It needs what this program does not have.
    Unsupported(&'static str),
}

/// Writes the replies to a script.
pub fn answer(script: &[u8], output: &mut dyn Write) -> Ending {
    let mut script = Script::new(script);
    let mut replies = Replies::new(output);
    let Some(first) = script.line() else {
        return if script.is_cut() {
            Ending::Faulty
        } else {
            Ending::NotOpened
        };
    };
    if opening::begins_sessions(first) {
        return Ending::Unsupported("sessions");
    }
    match opening::opening(first) {
        Some(Ok((kinds, limits))) => Server::new(kinds, limits, replies).serve(&mut script),
        not_opened => {
            match not_opened {
                Some(Err(refusal)) => replies.refused(refusal),
                _ => replies.counted(b"syntax command ", 1),
            }
            replies.flush();
            Ending::NotOpened
        }
    }
}
