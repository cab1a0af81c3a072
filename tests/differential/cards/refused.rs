//! Calls on cards that are refused, made from calls that agree.

use super::bytes::Bytes;
use super::call::{Function, Lent};
use super::changes::{change_bytes, change_length, put_flaw, CHECK};
use super::flaws::FLAWS;
use super::refusals::Cause;
use super::words::{length, Words, DIMENSION};
use crate::buffers::{surplus, Name};
use crate::managed::refusals::lengths;
use crate::managed::refused::{beyond, shorten, TOO_LARGE};
use crate::random::Random;

/// The least dimension whose card is longer than 64 bits tell.
pub const TOO_LONG: usize = 1_230_125_797;

/// The largest card that is made longer for a dimension beyond the capacity.
const LENDABLE: u128 = 1 << 16;

/// Makes the causes hold, as far as they can hold at once, and no others but
/// those that come with them.
pub fn make_refused(function: Function, causes: &[Cause], lent: &mut Lent, random: &mut Random) {
    match function {
        Function::CardLength if causes.is_empty() => {}
        Function::CardLength => lent.instance.n = beyond(TOO_LONG, random),
        Function::WriteCard => {
            set_numbers(causes, lent, random);
            shorten_storage(causes, lent, random);
            fit_card(causes, lent, random);
        }
        Function::ReadCard => {
            set_capacity(causes, lent, random);
            shorten_storage(causes, lent, random);
            change_card(causes, lent, random);
        }
    }
}

fn set_numbers(causes: &[Cause], lent: &mut Lent, random: &mut Random) {
    let instance = &mut lent.instance;
    if causes.contains(&Cause::StorageOverflow) {
        instance.c = random.pick(&TOO_LARGE);
    }
    if causes.contains(&Cause::Dimension) {
        instance.n = beyond(instance.c.saturating_add(1), random);
    }
}

fn shorten_storage(causes: &[Cause], lent: &mut Lent, random: &mut Random) {
    let (l, u) = lengths(lent.instance.c);
    let buffers = &mut lent.instance.buffers;
    for (cause, name, needed) in [(Cause::ShortL, Name::L, l), (Cause::ShortU, Name::U, u)] {
        if causes.contains(&cause) {
            shorten(&mut buffers[name], needed, random);
        }
    }
}

/// As long as the dimension needs, or shorter.
fn fit_card(causes: &[Cause], lent: &mut Lent, random: &mut Random) {
    let needed = length(lent.instance.n);
    if needed > LENDABLE {
        return;
    }
    let needed = needed as usize;
    let any = random.below(needed);
    let shorter = [needed - 1, needed - 1, needed - 8, needed - 512, 0, any];
    let length = if causes.contains(&Cause::ShortCard) {
        random.pick(&shorter)
    } else {
        needed + surplus(random)
    };
    lent.card = Bytes::new(length, random);
}

/// A capacity that is less than the card's dimension has storage of its own length.
fn set_capacity(causes: &[Cause], lent: &mut Lent, random: &mut Random) {
    let Lent { instance, card } = lent;
    let n = Words::of(card.slice()).0[DIMENSION] as usize;
    if causes.contains(&Cause::StorageOverflow) {
        instance.c = random.pick(&TOO_LARGE);
    } else if causes.contains(&Cause::CardDimension) {
        instance.c = random.index(n);
        let (l, u) = lengths(instance.c);
        for (name, needed) in [(Name::L, l), (Name::U, u)] {
            let length = needed as usize + surplus(random);
            instance.buffers[name].set_len(length, random);
        }
    }
}

fn change_card(causes: &[Cause], lent: &mut Lent, random: &mut Random) {
    let mut words = Words::of(lent.card.slice());
    let overflow = causes.contains(&Cause::StorageOverflow);
    if causes.contains(&Cause::CardDimension) && overflow {
        words.0[DIMENSION] = u64::MAX - random.below(3) as u64;
    }
    let flawed = causes.contains(&Cause::Flawed);
    if flawed {
        let flaws = random.pick(&[1, 1, 2, 3]);
        (0..flaws).for_each(|_| put_flaw(&mut words, random.pick(&FLAWS), random));
    }
    let mut bytes = words.bytes();
    if causes.contains(&Cause::DamagedBlock) {
        let from = if flawed { 0 } else { CHECK };
        change_bytes(&mut bytes, from, random);
    }
    if causes.contains(&Cause::NoWholeBlocks) {
        change_length(&mut bytes, random);
    }
    lent.card = Bytes::holding(&bytes, random);
}
