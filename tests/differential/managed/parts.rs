//! The parts of the factors for which they can be not ready.

use super::call::Instance;
use super::comparison::Sides;
use crate::buffers::Name;
use crate::data::{make_finite, non_finite_value};
use crate::factors::{copy_active, replace_bad_diagonal};
use crate::places::{active, diagonal};
use crate::random::Random;

#[derive(Clone, Copy, PartialEq)]
pub enum Part {
    L,
    Diagonal,
    AboveDiagonal,
}

pub const PARTS: [Part; 3] = [Part::L, Part::Diagonal, Part::AboveDiagonal];

impl Part {
    /// The places of its active entries.
    fn entries(self, instance: &Instance) -> Vec<(Name, usize)> {
        let Instance { n, c, .. } = *instance;
        let diagonal: Vec<_> = diagonal(c, n).collect();
        let part = |(name, place)| match name {
            Name::L => Part::L,
            _ if diagonal.contains(&place) => Part::Diagonal,
            _ => Part::AboveDiagonal,
        };
        active(c, n).filter(|&entry| part(entry) == self).collect()
    }

    /// Whether its entries are finite, and on the diagonal not zero.
    pub fn is_sound(self, instance: &Instance) -> bool {
        let entries = self.entries(instance).into_iter();
        let mut values = entries.map(|(name, place)| instance.buffers[name].slice()[place]);
        values.all(|value| value.is_finite() && (self != Part::Diagonal || value != 0.0))
    }

    /// An infinity or a NaN in one or two of its entries, on the diagonal also a zero.
    fn make_unsound(self, instance: &mut Instance, random: &mut Random) {
        let entries = self.entries(instance);
        if entries.is_empty() {
            return;
        }
        for _ in 0..random.between(1, 2) {
            let (name, place) = random.pick(&entries);
            let any = non_finite_value(random);
            let zero = if self == Part::Diagonal { 0.0 } else { any };
            let value = random.pick(&[f64::INFINITY, any, zero]);
            instance.buffers[name].slice_mut()[place] = random.sign(value);
        }
    }
}

/// Copies with factors that are ready, or not ready by one part alone.
pub fn with_one_unsound(sides: &Sides, random: &mut Random) -> Sides {
    let mut rust = sides.rust.clone();
    make_sound(&mut rust, random);
    let part = random.below(PARTS.len() + 1);
    if let Some(part) = PARTS.get(part) {
        part.make_unsound(&mut rust, random);
    }
    let mut archive = sides.archive.clone();
    for instance in &mut archive {
        let to = (&mut instance.buffers, instance.c);
        copy_active(rust.n, (&rust.buffers, rust.c), to);
    }
    Sides { rust, archive }
}

fn make_sound(instance: &mut Instance, random: &mut Random) {
    let Instance { n, c, buffers, .. } = instance;
    for (name, place) in active(*c, *n) {
        make_finite(&mut buffers[name].slice_mut()[place..=place], random);
    }
    replace_bad_diagonal(buffers[Name::U].slice_mut(), *c, *n, random);
}
