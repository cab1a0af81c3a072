//! The lengths of cards, cards of every small dimension, and buffers that are one too short.

use super::bytes::Bytes;
use super::call::{Answer, Function, Lent};
use super::comparison::Comparison;
use super::refused::TOO_LONG;
use super::states::{any_counter, any_instance, to_read, to_write};
use super::words::State;
use crate::buffers::Name;
use crate::calls::End;
use crate::managed::counter::END;
use crate::random::Random;

/// The largest dimension whose cards are compared at every capacity.
pub const SMALL: usize = 12;

/// How much the capacity exceeds the dimension.
const ROOM: [usize; 4] = [0, 1, 2, 5];

/// How much longer the buffer of a card is than the card.
const BEYOND: [usize; 5] = [0, 1, 511, 512, 1024];

const COUNTERS: [usize; 8] = [0, 1, 77_777, END - 1, END, END + 1, 1 << 32, usize::MAX];

pub struct Search<'a> {
    pub random: &'a mut Random,
    pub comparison: &'a mut Comparison,
}

impl Search<'_> {
    /// Lengths about the largest, of all small dimensions, and of ones that are small in
    /// fewer bits.
    pub fn lengths(&mut self) -> Result<(), End> {
        let powers = (6..64).flat_map(|power| [(1usize << power) - 1, 1 << power]);
        let about = TOO_LONG - 3..TOO_LONG + 3;
        let all = (0..300).chain(powers).chain(about).chain([usize::MAX]);
        all.into_iter().try_for_each(|n| {
            let mut lent = to_write(any_instance(0, 0, self.random), self.random);
            lent.instance.n = n;
            self.comparison
                .call(Function::CardLength, &mut lent, self.random)
                .map(drop)
        })
    }

    /// Every byte of the cards of small dimensions, which are read again at every capacity.
    pub fn small(&mut self) -> Result<(), End> {
        for n in 0..=SMALL {
            for room in ROOM {
                for counter in COUNTERS {
                    self.write_and_read(n, n + room, counter)?;
                }
            }
        }
        Ok(())
    }

    pub fn write_and_read(&mut self, n: usize, c: usize, counter: usize) -> Result<(), End> {
        let mut instance = any_instance(n, c, self.random);
        instance.counter = counter;
        let needed = State::of(&instance).words().bytes().len();
        let beyond = self.random.pick(&BEYOND);
        let card = Bytes::new(needed + beyond, self.random);
        let mut lent = Lent { instance, card };
        let answer = self.accepted(Function::WriteCard, &mut lent)?;
        let bytes = &lent.card.slice()[..answer.outputs.written];
        for room in ROOM {
            let mut lent = to_read(bytes, n + room, self.random);
            self.accepted(Function::ReadCard, &mut lent)?;
        }
        Ok(())
    }

    /// A call that must be carried out.
    fn accepted(&mut self, function: Function, lent: &mut Lent) -> Result<Answer, End> {
        let before = lent.clone();
        let answer = self.comparison.call(function, lent, self.random)?;
        if answer.number != 0 {
            let what = "refused, and it is to be carried out";
            return Err(self.comparison.report(function, &before, what));
        }
        Ok(answer)
    }

    /// Every buffer one too short.
    pub fn one_too_short(&mut self) -> Result<(), End> {
        for n in 1..=SMALL {
            for room in ROOM {
                let written = to_write(any_instance(n, n + room, self.random), self.random);
                let bytes = State::of(&written.instance).words().bytes();
                let mut short = written.clone();
                short.card = Bytes::new(bytes.len() - 1, self.random);
                self.refused(Function::WriteCard, short, 15)?;
                self.shorten_storage(Function::WriteCard, &written)?;
                let read = to_read(&bytes, n + room, self.random);
                self.shorten_storage(Function::ReadCard, &read)?;
            }
        }
        Ok(())
    }

    fn shorten_storage(&mut self, function: Function, lent: &Lent) -> Result<(), End> {
        let c = lent.instance.c;
        let needed = c * (c + 1);
        for (name, length, number) in [(Name::L, needed, 3), (Name::U, needed / 2, 13)] {
            let mut short = lent.clone();
            short.instance.buffers[name].set_len(length - 1, self.random);
            self.refused(function, short, number)?;
        }
        Ok(())
    }

    /// A call that must be refused with this number.
    fn refused(&mut self, function: Function, mut lent: Lent, number: u32) -> Result<(), End> {
        let before = lent.clone();
        let answer = self.comparison.call(function, &mut lent, self.random)?;
        if answer.number != number {
            let what = format!("answered {}, expected {number}", answer.number);
            return Err(self.comparison.report(function, &before, &what));
        }
        Ok(())
    }

    /// A card with any entries and counter.
    pub fn card(&mut self, n: usize) -> Vec<u8> {
        let mut instance = any_instance(n, n, self.random);
        instance.counter = any_counter(self.random);
        State::of(&instance).words().bytes()
    }

    /// Reads bytes at a capacity beside a dimension.
    pub fn read(&mut self, bytes: &[u8], n: usize) -> Result<(), End> {
        let c = n + self.random.pick(&[0, 0, 1, 3]);
        let mut lent = to_read(bytes, c, self.random);
        self.comparison
            .call(Function::ReadCard, &mut lent, self.random)
            .map(drop)
    }
}
