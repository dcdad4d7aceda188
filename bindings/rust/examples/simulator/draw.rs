//! Draws tables, and calls close to a table's state.

use fullercoral::{Constant, Kind, Op, Policy};

use crate::call::{Call, Folding, Owned, Setup, Step};
use crate::random::Random;
use crate::world::World;

/// Draws the arguments of a call.
type Draw = fn(&mut Drawer<'_>) -> Call;

/// The weight of each call, in parts of 1,000, before a seed's own taste.
const WEIGHTS: [(u32, Draw); 34] = [
    (130, |it| Call::Insert(it.row())),
    (25, |it| it.extend()),
    (120, |it| it.set()),
    (25, |it| Call::Remove(it.place())),
    (45, |it| Call::Watch(it.folding())),
    (8, |it| Call::Unwatch(it.aggregate())),
    (50, |it| Call::Ask(it.aggregate())),
    (25, |it| Call::Recount(it.aggregate())),
    (10, |it| Call::Pending(it.aggregate())),
    (35, |it| Call::Scan(it.aggregate(), it.group())),
    (35, |it| Call::Build(it.aggregate(), it.group())),
    (45, |it| Call::Row(it.place())),
    (20, |it| Call::Text(it.column(), it.place())),
    (55, |it| it.part()),
    (5, |it| Call::IsAlive(it.place())),
    (70, |it| Call::Evict(it.column(), it.group())),
    (20, |_| Call::EvictColdest),
    (60, |it| Call::Fetch(it.column(), it.group())),
    (40, |it| Call::BeginEvict(it.column(), it.group())),
    (10, |_| Call::BeginColdest),
    (40, |it| Call::BeginFetch(it.column(), it.group())),
    (20, |it| Call::BeginBuild(it.aggregate(), it.group())),
    (60, |it| Call::Put(it.job(true, false))),
    (80, |it| Call::Get(it.job(false, false))),
    (60, |it| Call::Commit(it.job(true, true))),
    (80, |it| Call::Install(it.job(false, true))),
    (8, |it| it.drop()),
    (15, |it| Call::Pin(it.column(), it.group())),
    (15, |it| Call::Unpin(it.column(), it.group())),
    (15, |_| Call::Compact),
    (8, |_| Call::Migrate),
    (10, |it| Call::Proposals(it.column())),
    (12, |it| it.policy()),
    (20, |it| it.far()),
];

/// The index of `Watch` in `WEIGHTS`.
const WATCH: usize = 4;

/// The taste of a seed: how often it draws each call, and how often the far side misbehaves.
#[derive(Debug)]
pub struct Taste {
    weights: [u32; WEIGHTS.len()],
    /// How many of a hundred calls have a misbehaving far side.
    trouble: u32,
    changes_policy: bool,
    /// How many calls it draws.
    pub calls: u32,
}

impl Taste {
    pub fn draw(random: &mut Random, setup: &Setup) -> Taste {
        let mut weights = WEIGHTS.map(|(weight, _)| weight * random.pick(&[1, 4, 4, 4, 16]));
        if random.one_in(30) {
            // (so that the limit of aggregates is reached)
            weights[WATCH] *= 40;
        }
        Taste {
            weights,
            trouble: random.pick(&[0, 5, 20, 40]),
            changes_policy: setup.edits.is_none() && random.one_in(3),
            calls: random.within(30, 130),
        }
    }
}

/// Draws a table.
pub fn setup(random: &mut Random) -> Setup {
    let most = random.pick(&[4, 4, 4, 4, 4, 4, 4, 7, 16]);
    let columns = random.within(1, most);
    let kinds = (0..columns).map(|_| random.pick(&[Kind::Int, Kind::Int, Kind::Text]));
    let kinds: Vec<Kind> = kinds.collect();
    let group = random.pick(&[1, 2, 3, 4, 5, 8, 8, 19]);
    let of_ints = kinds.iter().filter(|kind| **kind == Kind::Int).count();
    let objects = of_ints * random.within(1, 5) as usize + random.below(3) as usize;
    let ints = 16 * group as usize * objects.max(1);
    let texts = random.pick(&[70, 130, 200, 270, 600, 1_100, 4_000, 40_000]);
    let (memory, text_memory) = match of_ints {
        0 => (texts, None),
        all if all == kinds.len() => (ints, None),
        _ => (ints + texts, Some(texts)),
    };
    let policy = random.pick(&[
        Policy::Manual,
        Policy::Manual,
        Policy::Demand,
        Policy::Prefetch,
    ]);
    let few = random.below(8);
    let edits = (few == 0 && policy == Policy::Manual).then(|| u64::from(random.within(10, 60)));
    let contents = (few == 1 || few == 2).then(|| u64::from(random.within(2, 25)));
    Setup {
        kinds,
        group,
        places: group * random.within(2, 9),
        edits,
        contents,
        memory,
        text_memory,
        tries: random.pick(&[1, 1, 1, 3]),
        policy,
    }
}

/// Draws one call.
pub struct Drawer<'a> {
    pub random: &'a mut Random,
    pub world: &'a World,
    pub taste: &'a Taste,
}

impl Drawer<'_> {
    pub fn step(&mut self, id: u32) -> Step {
        // (a table without rows shows little)
        let call = if id == 1 { self.extend() } else { self.call() };
        let has_trouble = self.random.below(100) < self.taste.trouble;
        let mood = if has_trouble {
            self.random.next() | 1
        } else {
            0
        };
        Step { id, mood, call }
    }

    fn call(&mut self) -> Call {
        let mut left = self.random.below(self.taste.weights.iter().sum());
        let mut index = 0;
        while left >= self.taste.weights[index] {
            left -= self.taste.weights[index];
            index += 1;
        }
        WEIGHTS[index].1(self)
    }

    fn text(&mut self) -> String {
        const WORDS: [&str; 7] = ["", "north", "south", "ea\u{df}t", "upper ", "nor", "\0"];
        if self.random.one_in(300) {
            return "x".repeat(4_097);
        }
        if self.random.one_in(25) {
            return "x".repeat(self.random.below(120) as usize);
        }
        let word = self.random.pick(&WORDS);
        format!("{word}{}", self.random.pick(&["", "1", "2"]))
    }

    fn number(&mut self) -> i64 {
        match self.random.below(20) {
            0 => i64::MIN,
            1 => i64::MAX,
            2 => self.random.next() as i64,
            _ => i64::from(self.random.below(9)) - 4,
        }
    }

    fn cell(&mut self, kind: Kind) -> Owned {
        if self.random.one_in(7) {
            return Owned::Missing;
        }
        let is_int = (kind == Kind::Int) != self.random.one_in(120);
        if is_int {
            Owned::Int(self.number())
        } else {
            Owned::Text(self.text())
        }
    }

    fn row(&mut self) -> Vec<Owned> {
        let kinds = self.world.model.kinds.clone();
        let mut row: Vec<Owned> = kinds.iter().map(|kind| self.cell(*kind)).collect();
        match self.random.below(150) {
            0 => drop(row.pop()),
            1 => row.push(Owned::Missing),
            _ => {}
        }
        row
    }

    // Columns of the right kinds; sometimes one too few, or one of another length.
    fn extend(&mut self) -> Call {
        let rows = self.random.below(3 * self.world.model.group + 2);
        let kinds = self.world.model.kinds.clone();
        let suits = |cell: &Owned, kind: Kind| cell.cell().kind().is_none_or(|own| own == kind);
        let column = |kind: &Kind| {
            let cells = (0..rows).map(|_| self.cell(*kind));
            let suited = cells.map(|cell| {
                if suits(&cell, *kind) {
                    cell
                } else {
                    Owned::Missing
                }
            });
            suited.collect::<Vec<Owned>>()
        };
        let mut columns: Vec<Vec<Owned>> = kinds.iter().map(column).collect();
        match self.random.below(50) {
            0 => drop(columns.pop()),
            1 => drop(columns[0].pop()),
            _ => {}
        }
        Call::Extend(columns)
    }

    fn set(&mut self) -> Call {
        let column = self.column();
        let kind = self.world.model.kinds.get(column).copied();
        let cell = self.cell(kind.unwrap_or(Kind::Int));
        Call::Set(column, self.place(), cell)
    }

    fn column(&mut self) -> usize {
        let columns = self.world.model.kinds.len() as u32;
        if self.random.one_in(60) {
            return columns as usize;
        }
        self.random.below(columns) as usize
    }

    fn place(&mut self) -> u32 {
        let places = self.world.model.places();
        if self.random.one_in(40) {
            return self.random.pick(&[places, places + 1, u32::MAX]);
        }
        self.random.below(places)
    }

    fn group(&mut self) -> u32 {
        let groups = self.world.model.groups();
        if self.random.one_in(40) {
            return self.random.pick(&[groups, groups + 1, u32::MAX]);
        }
        self.random.below(groups)
    }

    fn aggregate(&mut self) -> u32 {
        let ids: Vec<u32> = self.world.aggregates.keys().copied().collect();
        if ids.is_empty() {
            return u32::MAX;
        }
        self.random.pick(&ids)
    }

    // A job that evicts, or one that does not; if `is_ready`, mostly a job that is ready.
    fn job(&mut self, evicts: bool, is_ready: bool) -> u32 {
        let jobs = self.world.jobs.iter();
        let jobs = jobs.filter(|(_, job)| job.is_eviction() == evicts);
        let (ready, other): (Vec<_>, Vec<_>) = jobs.partition(|(_, job)| job.is_ready());
        let is_other = self.random.one_in(5);
        let preferred = if is_ready != is_other { ready } else { other };
        let ids: Vec<u32> = preferred.iter().map(|(id, _)| **id).collect();
        if ids.is_empty() {
            return u32::MAX;
        }
        self.random.pick(&ids)
    }

    fn part(&mut self) -> Call {
        let (from, to) = (self.place(), self.place());
        let is_ordered = !self.random.one_in(40);
        let (from, to) = if is_ordered {
            (from.min(to), from.max(to))
        } else {
            (from, to)
        };
        Call::Part(self.column(), from, to)
    }

    fn folding(&mut self) -> Folding {
        let ints = |column: &usize| self.world.model.kinds[*column] == Kind::Int;
        let ints: Vec<usize> = (0..self.world.model.kinds.len()).filter(ints).collect();
        let is_any = ints.is_empty() || self.random.one_in(40);
        let value = if is_any {
            self.column()
        } else {
            self.random.pick(&ints)
        };
        let key = (!self.random.one_in(3)).then(|| self.column());
        let tests = self.random.pick(&[0, 0, 0, 1, 1, 2, 4, 5]);
        let tests = if tests == 5 && !self.random.one_in(6) {
            1
        } else {
            tests
        };
        Folding {
            is_extrema: self.random.one_in(2),
            value,
            key,
            tests: (0..tests).map(|_| self.test()).collect(),
        }
    }

    fn test(&mut self) -> (usize, Op, Constant) {
        const OPS: [Op; 6] = [Op::Eq, Op::Ne, Op::Lt, Op::Le, Op::Gt, Op::Ge];
        let column = self.column();
        let is_text = self.world.model.kinds.get(column) == Some(&Kind::Text);
        if is_text != self.random.one_in(60) {
            let op = self.random.pick(&[Op::Is, Op::Begins]);
            return (column, op, Constant::from(&*self.text()));
        }
        (column, self.random.pick(&OPS), self.number().into())
    }

    fn drop(&mut self) -> Call {
        let evicts = self.random.one_in(2);
        Call::Drop(self.job(evicts, true))
    }

    fn policy(&mut self) -> Call {
        if !self.taste.changes_policy {
            return Call::Row(self.place());
        }
        Call::SetPolicy(
            self.random
                .pick(&[Policy::Manual, Policy::Demand, Policy::Prefetch]),
        )
    }

    fn far(&mut self) -> Call {
        match self.random.below(4) {
            _ if self.taste.trouble == 0 => Call::ComeBack,
            0 => Call::GoAway(self.random.within(1, 6)),
            1 => Call::Limit(self.random.below(6).into()),
            _ => Call::ComeBack,
        }
    }
}

/// The calls that end a seed: the far side comes back, and the calls read all rows and answers.
pub fn last_calls(world: &World, setup: &Setup) -> Vec<Call> {
    let mut calls = vec![Call::ComeBack];
    for (column, objects) in world.model.objects.iter().enumerate() {
        for (group, object) in objects.iter().enumerate() {
            calls.extend((0..object.pins).map(|_| Call::Unpin(column, group as u32)));
        }
    }
    if setup.edits.is_none() {
        calls.push(Call::SetPolicy(Policy::Demand));
    }
    calls.extend((0..world.model.places()).map(Call::Row));
    for id in world.aggregates.keys() {
        calls.extend([Call::Recount(*id), Call::Ask(*id)]);
    }
    calls
}
