//! Lists of managed calls on two instances of the archive and one of the Rust,
//! at capacities of their own.

use super::call::{Call, Function, Instance, DATA, FUNCTIONS};
use super::comparison::{Comparison, Sides};
use super::counter;
use super::parts::with_one_unsound;
use super::refusals::number;
use super::refused::{make_refused, other_length, set_non_finite_data};
use crate::buffers::{surplus, Buffer, Name};
use crate::calls::End;
use crate::data::{Profile, MANAGED};
use crate::factors::{copy_active, fill_factors, fill_unused, is_degenerate};
use crate::factors::{put_odd_entries, replace_bad_diagonal};
use crate::guards;
use crate::places::{diagonal, l_column, l_place, u_column};
use crate::random::Random;

pub struct List {
    /// The dimension that pushes and removes lead to.
    target: usize,
    /// The largest such dimension.
    room: usize,
    profile: Profile,
    pub sides: Sides,
    /// Whether no call has been made yet.
    at_start: bool,
}

/// A few calls on storage that holds factors already.
pub fn call_short_list(random: &mut Random, comparison: &mut Comparison) -> Result<(), End> {
    let room = room(random);
    let n = random.below(room + 1);
    let mut list = List::start(n, room, random);
    (0..random.between(1, 3)).try_for_each(|_| list.step(random, comparison))
}

/// Many calls, mostly from dimension 0 on, as a program would make them.
pub fn call_long_list(random: &mut Random, comparison: &mut Comparison) -> Result<(), End> {
    let room = room(random);
    let any = random.below(room + 1);
    let n = random.pick(&[0, 0, 0, any]);
    let mut list = List::start(n, room, random);
    for _ in 0..random.between(20, 300) {
        list.step(random, comparison)?;
        let Instance { n, c, buffers, .. } = &list.sides.rust;
        if is_degenerate(buffers, *c, *n) && random.chance(1, 3) {
            break;
        }
    }
    Ok(())
}

/// Mostly up to 12, sometimes up to 40.
pub fn room(random: &mut Random) -> usize {
    match random.below(64) {
        0 => 0,
        1 | 2 => 1,
        3..=11 => random.between(13, 40) as usize,
        _ => random.between(2, 12) as usize,
    }
}

impl List {
    pub fn start(n: usize, room: usize, random: &mut Random) -> Self {
        let profile = Profile::choose(random);
        let capacity = room + random.pick(&[0, 0, 1, 2, 4]);
        let other = capacity + random.between(1, 5) as usize;
        let capacities = random.pick(&[[capacity, other], [other, capacity]]);
        let own = room + random.below(5);
        let mut rust = Instance::new(n, own, random);
        fill_factors(&mut rust.buffers, own, n, profile, random);
        if random.chance(1, 3) {
            put_odd_entries(&mut rust.buffers, own, n, random);
        }
        let archive = capacities.map(|c| Instance {
            counter: rust.counter,
            ..Instance::new(n, c, random)
        });
        Self {
            target: random.dimension(room),
            room,
            profile,
            sides: Sides {
                rust,
                archive: archive.to_vec(),
            },
            at_start: true,
        }
    }

    pub fn step(&mut self, random: &mut Random, comparison: &mut Comparison) -> Result<(), End> {
        let mut call = self.next(random);
        self.lend_workspaces(&call, random);
        self.lend_data(&mut call, random);
        self.share_data(random);
        self.at_start = false;
        if random.chance(1, 4) {
            self.call_beside(call, random, comparison)?;
        }
        self.call(&call, random, comparison)
    }

    fn next(&mut self, random: &mut Random) -> Call {
        if random.chance(1, 24) {
            self.target = random.dimension(self.room);
        }
        Call {
            function: self.function(random),
            row: self.index(random),
            column: self.index(random),
            diagonal: self.profile.value(random),
        }
    }

    fn function(&self, random: &mut Random) -> Function {
        let n = self.sides.rust.n;
        let below = n < self.target;
        match random.below(24) {
            0 => random.pick(&FUNCTIONS[1..]),
            1 => Function::Ready,
            _ if n == 0 => Function::Push,
            2..=6 if below => Function::Push,
            2..=5 => Function::Remove,
            6 => Function::Push,
            7 => Function::Remove,
            8..=11 => Function::ReplaceColumn,
            12..=15 => Function::ReplaceRow,
            16..=19 => Function::Solve,
            _ => Function::SolveTranspose,
        }
    }

    /// Now and then beyond the dimension.
    fn index(&self, random: &mut Random) -> usize {
        let n = self.sides.rust.n;
        if random.chance(1, 40) {
            random.pick(&[n, n + 1, usize::MAX])
        } else {
            random.index(n)
        }
    }

    /// Workspaces that hold anything or what the last call left, and often other contents
    /// in the unused storage. Now and then workspaces are too short.
    fn lend_workspaces(&mut self, call: &Call, random: &mut Random) {
        let Sides { rust, archive } = &mut self.sides;
        for instance in archive.iter_mut().chain([rust]) {
            let needed = call.function.workspace_length(instance.n) as usize;
            if random.chance(1, 60) {
                instance.lend_workspaces(random.below(needed + 1), random);
            } else if instance.length(Name::Y) < needed || random.chance(1, 2) {
                instance.lend_workspaces(needed + surplus(random), random);
            }
            if random.chance(1, 3) {
                fill_unused(&mut instance.buffers, instance.c, instance.n, random);
            }
        }
    }

    /// Data for the Rust's instance, and now and then other factors at the start. What an
    /// update is lent is finite, but in one of eight cases some of it is not.
    fn lend_data(&mut self, call: &mut Call, random: &mut Random) {
        let profile = self.profile.or_other(random);
        let rust = &mut self.sides.rust;
        for name in DATA {
            let length = if random.chance(1, 40) {
                other_length(rust.n, random)
            } else {
                rust.n
            };
            rust.lend(name, length, profile, random);
        }
        match random.below(6) {
            _ if self.sides.rust.n == 0 => {}
            0 | 1 if self.at_start => self.factors_at_guards(call, random),
            0..=2 => self.data_at_guards(call, random),
            _ => {}
        }
        let rust = &mut self.sides.rust;
        call.make_data_finite(rust, random);
        if random.chance(1, 8) {
            set_non_finite_data(call, rust, random);
        }
    }

    /// The same data for all, and the same factors at the start.
    fn share_data(&mut self, random: &mut Random) {
        let Sides { rust, archive } = &mut self.sides;
        for instance in archive {
            for name in DATA {
                instance.buffers[name] = Buffer::holding(rust.buffers[name].slice(), random);
            }
            if self.at_start {
                let to = (&mut instance.buffers, instance.c);
                copy_active(rust.n, (&rust.buffers, rust.c), to);
            }
        }
    }

    /// Data at the guards of the call.
    fn data_at_guards(&mut self, call: &Call, random: &mut Random) {
        let Instance { n, c, buffers, .. } = &mut self.sides.rust;
        let [_, u, _, _, _, row, column, _] = buffers.slices_mut();
        let pivots: Vec<_> = diagonal(*c, *n).map(|place| u[place]).collect();
        match call.function {
            Function::Push | Function::ReplaceRow if row.len() == *n => {
                guards::at_forward(row, &pivots, MANAGED, random)
            }
            Function::ReplaceColumn if !column.is_empty() => {
                guards::at_backward(column, MANAGED, random)
            }
            _ => {}
        }
    }

    /// Factors at the guards of an update, or such that a solve is accepted.
    fn factors_at_guards(&mut self, call: &Call, random: &mut Random) {
        let Instance { n, c, buffers, .. } = &mut self.sides.rust;
        let [l, u, _, _, _, row, column, _] = buffers.slices_mut();
        match (call.function, random.below(2)) {
            (Function::Push, _) if row.len() == *n => guards::at_pivot(row, u, *c, MANAGED, random),
            (Function::Remove, 0) => guards::at_column(u, u_column(*c, *n - 1), MANAGED, random),
            (Function::ReplaceRow | Function::Remove, _) if call.row < *n => {
                guards::at_column(l, l_column(*c, *n, call.row), MANAGED, random)
            }
            (Function::ReplaceColumn, 0) => {
                let place = l_place(*c, random.below(*n), random.below(*n));
                l[place] = f64::NAN;
                guards::at_tiny(column, MANAGED, random);
            }
            (Function::Solve | Function::SolveTranspose | Function::Ready, _) => {
                replace_bad_diagonal(u, *c, *n, random)
            }
            _ => {}
        }
    }

    /// Calls all instances where document 01 asks one answer of them. Else one has
    /// no room or no workspace for the call: then each is called alone, on a copy,
    /// and the list goes on as if the call had not been made.
    fn call(
        &mut self,
        call: &Call,
        random: &mut Random,
        comparison: &mut Comparison,
    ) -> Result<(), End> {
        let Sides { rust, archive } = &self.sides;
        let expected = number(call, rust);
        if archive
            .iter()
            .all(|instance| number(call, instance) == expected)
        {
            let mut copies = self.copies_for_ready(call, &mut random.apart());
            let sides = copies.as_mut().unwrap_or(&mut self.sides);
            return comparison.call(call, sides, random);
        }
        archive.iter().try_for_each(|instance| {
            comparison.call(call, &mut Sides::alone(instance.clone()), random)
        })
    }

    /// Often other factors for ready, which leaves what it is lent as it was: the list goes on
    /// with its own.
    fn copies_for_ready(&self, call: &Call, random: &mut Random) -> Option<Sides> {
        let chosen = call.function == Function::Ready && random.chance(1, 2);
        chosen.then(|| with_one_unsound(&self.sides, random))
    }

    /// A call on a copy of one instance, sometimes with another counter and with
    /// some causes for a refusal. The Rust has another copy, so it finds the same
    /// causes.
    fn call_beside(
        &self,
        mut call: Call,
        random: &mut Random,
        comparison: &mut Comparison,
    ) -> Result<(), End> {
        let mut copy = self.sides.archive[random.below(2)].clone();
        let other = counter::start(random);
        copy.counter = random.pick(&[copy.counter, other]);
        if random.chance(1, 2) {
            call.function = random.pick(&FUNCTIONS);
        }
        if call.function == Function::StorageLengths {
            copy.c = (random.bits() >> random.below(64)) as usize;
        } else {
            let mut causes = call.function.causes();
            let count = causes.len();
            causes.retain(|_| random.chance(2, count));
            make_refused(&causes, &mut call, &mut copy, random);
        }
        comparison.call(&call, &mut Sides::alone(copy), random)
    }
}
