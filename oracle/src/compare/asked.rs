//! The calls that bytes from a fuzzer make. The first byte says which calls are made; the others are the input, behind a few that choose names, numbers and lengths,
//! or they are the choices by which a generator makes it.

use super::{Comparison, Difference};
use crate::calls::SplitList;
use crate::gen::{self, alike, stores, Rng};
use crate::judge;

/// How many bytes choose where the others are the input.
const CHOICES: usize = 16;

/// How many groups of calls there are.
const GROUPS: u8 = 9;

/// Numbers of eight bytes each, the highest first; 0 where there are none left.
fn numbers<const N: usize>(input: &[u8]) -> [usize; N] {
    let mut numbers = [0; N];
    for (number, bytes) in numbers.iter_mut().zip(input.chunks(8)) {
        *number = bytes
            .iter()
            .fold(0, |number, &byte| number << 8 | usize::from(byte));
    }
    numbers
}

impl Comparison<'_> {
    /// Some calls on both sides. The first byte is the group, and GROUPS more for an input that a generator makes; twice that more for one without lines.
    pub fn asked(&mut self, bytes: &[u8]) -> Result<(), Difference> {
        let Some((&first, bytes)) = bytes.split_first() else {
            return Ok(());
        };
        let group = first % GROUPS;
        match first / GROUPS {
            0 => {
                let (choices, input) = bytes.split_at(CHOICES.min(bytes.len()));
                self.given(&mut Rng::of(choices), group, input)
            }
            1 => self.made(&mut Rng::of(bytes), group),
            _ => self.made(&mut Rng::of(bytes).bare(), group),
        }
    }

    /// The calls of a group on an input as it is.
    fn given(&mut self, rng: &mut Rng, group: u8, input: &[u8]) -> Result<(), Difference> {
        let (settings, tree) = judge::split(input);
        match group {
            0 => {
                let case = gen::case(rng, settings.to_vec(), tree.to_vec());
                self.case(&case)?;
                self.any_places(rng, &case)
            }
            1 => self.any_fold(rng, settings, tree),
            2 => self.plan(settings, tree),
            3 => self.any_need(rng, settings, tree),
            4 => self.any_blank(rng, input),
            5 => self.any_store(rng, input),
            6 => self.any_room(rng, input),
            7 => {
                let pieces: Vec<usize> = input.chunks(2).map(|two| numbers::<1>(two)[0]).collect();
                let count = pieces.len().min(judge::PIECES);
                self.list(&SplitList::new(&pieces[..count]), rng.below(65_536) as u16)
            }
            _ => {
                let [spare, n, index, priority] = numbers(input);
                self.share(spare, n, priority as u8, index)
            }
        }
    }

    /// The calls of a group on an input that is made by choices.
    fn made(&mut self, rng: &mut Rng, group: u8) -> Result<(), Difference> {
        match group {
            0 => self.cases(rng, 1),
            1 => self.any_folds(rng, 1),
            2 => self.any_plans(rng, 1),
            3 => {
                let (settings, tree) = gen::any_wide(rng);
                self.any_need(rng, &settings, &tree)
            }
            4 => {
                let tree = alike::any_tree(rng);
                self.any_blank(rng, &tree)
            }
            5 => {
                let store = stores::any_store(rng);
                self.any_store(rng, &store)
            }
            6 => self.any_typed(rng, 1),
            7 => self.any_list(rng),
            _ => self.any_share(rng),
        }
    }
}
