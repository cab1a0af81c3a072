//! Long lists of zero-based calls that keep one storage, as a program would make them.

use super::arguments::{Arguments, Function};
use super::comparison::Comparison;
use super::limits::{capacity, change, lengths, vector_lengths};
use super::single::{fill_data, put_at_backward, put_at_forward};
use crate::buffers::{Buffer, Buffers, Name, VECTORS};
use crate::calls::End;
use crate::data::Profile;
use crate::factors::{fill_factors, fill_unused, is_degenerate};
use crate::random::Random;

struct List {
    maxmod: i32,
    n: usize,
    /// The dimension that pushes and removes lead to.
    target: usize,
    profile: Profile,
    buffers: Buffers,
    /// The last product, for the solve that completes it.
    product: Vec<f64>,
}

pub fn call_list(random: &mut Random, comparison: &mut Comparison) -> Result<(), End> {
    let mut list = List::start(random);
    for _ in 0..random.between(20, 300) {
        list.step(random, comparison)?;
        let degenerate = is_degenerate(&list.buffers, list.stride(), list.n);
        if degenerate && random.chance(1, 3) {
            break;
        }
    }
    Ok(())
}

impl List {
    /// Empty, or at some dimension with arbitrary factors; anything elsewhere.
    fn start(random: &mut Random) -> Self {
        let maxmod = capacity(random);
        let stride = maxmod.max(1) as usize;
        let buffers = Buffers::new(lengths(stride, stride, random), random);
        let mut list = Self {
            maxmod,
            n: 0,
            target: random.dimension(stride),
            profile: Profile::choose(random),
            buffers,
            product: Vec::new(),
        };
        if random.chance(1, 5) {
            list.n = random.below(stride + 1);
            fill_factors(&mut list.buffers, stride, list.n, list.profile, random);
        }
        list
    }

    fn stride(&self) -> usize {
        self.maxmod.max(1) as usize
    }

    fn step(&mut self, random: &mut Random, comparison: &mut Comparison) -> Result<(), End> {
        let arguments = self.next(random);
        self.renew(arguments.n as usize, random);
        let profile = self.profile.or_other(random);
        fill_data(&arguments, &mut self.buffers, profile, random);
        self.place_product(&arguments, random);
        if random.chance(1, 6) {
            self.put_at_guard(&arguments, random);
        }
        if random.chance(1, 8) {
            self.call_changed(arguments, random, comparison)?;
        }
        self.buffers = comparison.call(&arguments, &self.buffers)?;
        match arguments.function {
            Function::LUmod => self.n = arguments.dimension_after(),
            Function::Lprod => self.product = self.buffers[Name::Z].slice()[..self.n].to_vec(),
            Function::Usolve => {}
        }
        Ok(())
    }

    /// The numbers of a call that suits the dimension.
    fn next(&mut self, random: &mut Random) -> Arguments {
        if random.chance(1, 24) {
            self.target = random.dimension(self.stride());
        }
        let (function, mode) = self.operation(random);
        let grows = function == Function::LUmod && mode == 1;
        let n = self.n as i32 + i32::from(grows);
        Arguments {
            function,
            mode,
            maxmod: self.maxmod,
            n,
            krow: random.index(n as usize) as i32,
            kcol: random.index(n as usize) as i32,
        }
    }

    fn operation(&self, random: &mut Random) -> (Function, i32) {
        let room = self.n < self.stride();
        let below = self.n < self.target;
        match random.below(16) {
            _ if self.n == 0 => (Function::LUmod, 1),
            0..=4 if room && below => (Function::LUmod, 1),
            0 if room => (Function::LUmod, 1),
            1..=3 if !below => (Function::LUmod, 4),
            5 => (Function::LUmod, 4),
            6..=8 => (Function::LUmod, 2),
            9..=11 => (Function::LUmod, 3),
            12 | 13 => (Function::Lprod, random.pick(&[1, 1, 2, 0])),
            _ => (Function::Usolve, random.pick(&[1, 1, 2, 0])),
        }
    }

    /// New vectors, which hold anything, and often other contents in the unused storage.
    fn renew(&mut self, n: usize, random: &mut Random) {
        let lengths = vector_lengths(n, random);
        for (name, length) in VECTORS.into_iter().zip(lengths) {
            self.buffers[name] = Buffer::new(length, random);
        }
        if random.chance(1, 3) {
            let stride = self.stride();
            fill_unused(&mut self.buffers, stride, self.n, random);
        }
    }

    /// Sometimes a solve is given the last product, as in a solve with both factors.
    fn place_product(&mut self, arguments: &Arguments, random: &mut Random) {
        let solves = arguments.function == Function::Usolve;
        if solves && self.product.len() == self.n && random.chance(2, 3) {
            self.buffers[Name::Y].slice_mut()[..self.n].copy_from_slice(&self.product);
        }
    }

    fn put_at_guard(&mut self, arguments: &Arguments, random: &mut Random) {
        match (arguments.function, arguments.mode) {
            (Function::LUmod, 1 | 3) => put_at_forward(arguments, &mut self.buffers, random),
            (Function::LUmod, 2) => put_at_backward(arguments, &mut self.buffers, random),
            _ => {}
        }
    }

    /// A call around the limits, on a copy: most are refused, and one that is
    /// not must not lead the list away.
    fn call_changed(
        &self,
        mut arguments: Arguments,
        random: &mut Random,
        comparison: &mut Comparison,
    ) -> Result<(), End> {
        let mut buffers = self.buffers.clone();
        change(&mut arguments, &mut buffers, random);
        comparison.call(&arguments, &buffers)?;
        Ok(())
    }
}
