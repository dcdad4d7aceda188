//! A plain program that answers scripts (`docs/SCRIPT.md`): `plain_script < SCRIPT`.
//!
//! `docs/PERFORMANCE.md` compares `bin/farframe` with it. It does what a table does without far memory,
//! proofs and refusals for space: one vector for each column, all rows in memory, and the running answer of
//! each aggregate. It needs only std, and reads the whole script before it answers. Its replies are those
//! of `bin/farframe`, byte for byte, to all workloads of `tools/bench` and to all scripts of `examples/`
//! without sessions and without the refusals `ChunkFull` and `RegionFull`.
//!
//! The movement commands move bytes between the columns and a store, which is a list in the process. An
//! object that is away keeps its places in the column, but nobody reads them. There are no segments, so
//! `compact` only looks at its number.
//!
//! For sessions (`threads`), and where local objects need more space than there is, it prints a message and
//! ends with status 1. It does not count gaps between objects, so a script with a refusal for space may get
//! other replies instead. The other statuses are those of `bin/farframe`.

mod program;

use std::io::{self, Read};
use std::process::ExitCode;

use program::{Ending, LONGEST};

fn main() -> ExitCode {
    let mut script = Vec::new();
    let read = io::stdin()
        .lock()
        .take(LONGEST as u64 + 1)
        .read_to_end(&mut script);
    let ending = program::answer(&script, &mut io::stdout().lock());
    match ending {
        Ending::Served if read.is_err() => ExitCode::from(3),
        Ending::Served => ExitCode::SUCCESS,
        Ending::NotOpened => ExitCode::from(2),
        Ending::Faulty => ExitCode::from(3),
        Ending::Unsupported(what) => {
            eprintln!("plain_script: this script needs {what}, which this program does not have");
            ExitCode::FAILURE
        }
    }
}
