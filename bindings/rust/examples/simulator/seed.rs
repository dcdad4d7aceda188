//! Runs one seed: draws its calls and makes them on both tables. If a reply is wrong, leaves out calls as
//! long as one still is.

use std::collections::BTreeMap;
use std::panic::{AssertUnwindSafe, catch_unwind};

use crate::call::{Setup, Step};
use crate::draw::{Drawer, Taste, last_calls, setup};
use crate::program::program;
use crate::random::Random;
use crate::world::{World, Wrong};

/// How often each call got each reply.
pub type Replies = BTreeMap<(String, String), u64>;

/// The result of a seed: the number of its calls, and a program that repeats a failure.
pub struct Outcome {
    pub calls: u64,
    pub replies: Replies,
    pub program: Option<String>,
}

/// Runs a seed.
pub fn run(seed: u64) -> Outcome {
    let mut random = Random(seed);
    let setup = setup(&mut random);
    let (mut steps, mut world) = (Vec::new(), World::new(&setup));
    let ran = catch_unwind(AssertUnwindSafe(|| {
        draw_all(&mut random, &setup, &mut world, &mut steps)
    }));
    let calls = steps.len() as u64;
    let is_wrong = !matches!(ran, Ok(Ok(())));
    let program = is_wrong.then(|| {
        let (steps, wrong) = shrink(&setup, steps);
        program(&setup, &steps, &wrong)
    });
    let replies = world.replies;
    Outcome {
        calls,
        replies,
        program,
    }
}

// Draws all steps into `steps` and applies each, up to the first wrong one.
fn draw_all(
    random: &mut Random,
    setup: &Setup,
    world: &mut World,
    steps: &mut Vec<Step>,
) -> Result<(), Wrong> {
    let taste = Taste::draw(random, setup);
    for id in 0..taste.calls {
        let mut drawer = Drawer {
            random,
            world,
            taste: &taste,
        };
        steps.push(drawer.step(id));
        world.apply(&steps[steps.len() - 1])?;
    }
    for (call, id) in last_calls(world, setup).into_iter().zip(taste.calls..) {
        let mood = 0;
        steps.push(Step { id, mood, call });
        world.apply(&steps[steps.len() - 1])?;
    }
    Ok(())
}

// The first wrong step of these, and its fault.
fn wrong_in(setup: &Setup, steps: &[Step]) -> Option<(usize, Wrong)> {
    let mut at = 0;
    let ran = catch_unwind(AssertUnwindSafe(|| {
        let mut world = World::new(setup);
        for step in steps {
            world.apply(step)?;
            at += 1;
        }
        Ok(())
    }));
    match ran {
        Ok(Ok(())) => None,
        Ok(Err(wrong)) => Some((at, wrong)),
        Err(panic) => {
            let said = panic.downcast_ref::<String>().map(String::as_str);
            let said = said.or(panic.downcast_ref::<&str>().copied());
            let came = format!("a panic: {}", said.unwrap_or("without a word"));
            let due = "no panic".to_owned();
            Some((at, Wrong::state(due, came)))
        }
    }
}

// Leaves out steps, half of them, a quarter, .. at last one at a time, as long as something is wrong.
fn shrink(setup: &Setup, mut steps: Vec<Step>) -> (Vec<Step>, Wrong) {
    let mut wrong = Wrong {
        due: "the same as when it was drawn".to_owned(),
        came: "nothing was wrong when it was repeated".to_owned(),
        is_reply: false,
    };
    let mut size = steps.len().max(1);
    loop {
        let mut left_out = false;
        let mut from = 0;
        while from < steps.len() {
            let to = steps.len().min(from + size);
            let rest = [&steps[..from], &steps[to..]].concat();
            if let Some((at, next)) = wrong_in(setup, &rest) {
                steps = rest;
                steps.truncate(at + 1);
                (wrong, left_out) = (next, true);
            } else {
                from = to;
            }
        }
        if size == 1 && !left_out {
            if let Some((_, last)) = wrong_in(setup, &steps) {
                wrong = last;
            }
            return (steps, wrong);
        }
        size = (size / 2).max(1);
    }
}
