//! Lists lent to the library, and what a call may leave of them.

use leg_sheet::calls::PIECES;
use leg_sheet::Refusal;
use oracle::calls::SplitList;
use oracle::judge;

/// How many numbers more than needed are lent.
pub const MORE: usize = 3;

/// Instead of a call's number where the call leaves a lent list otherwise than include/leg_sheet.h says, or answers a word that has no meaning there.
/// No call has it, so the comparison shows the input.
const BROKEN: u8 = 255;

/// What a call on lent lists answers.
pub type Answer = Result<usize, Refusal>;

/// The number of an answer.
pub fn number(answer: Answer) -> u8 {
    match answer {
        Ok(_) => 0,
        Err(Refusal::Unknown { .. }) => BROKEN,
        Err(refusal) => refusal.number(),
    }
}

/// What is in a lent list before a call: never 0, and never the same twice.
pub fn canary<T: From<u16>>(at: usize) -> T {
    ((at as u16) ^ 0xA5A5).into()
}

/// A lent list.
pub struct Lent<T> {
    pub list: Vec<T>,
    before: Vec<T>,
}

impl<T: Copy + Default + PartialEq + From<u16>> Lent<T> {
    /// This many numbers: those given, as far as they go, and canaries behind them.
    pub fn new(given: &[T], length: usize) -> Self {
        let mut before = given[..length.min(given.len())].to_vec();
        before.extend((before.len()..length).map(canary::<T>));
        Lent {
            list: before.clone(),
            before,
        }
    }

    /// Whether everything past the first `written` numbers stayed.
    pub fn kept(&self, written: usize) -> bool {
        self.list[written..] == self.before[written..]
    }

    /// Whether the first `written` numbers are those of another list, and everything past them stayed.
    fn is_written_as(&self, other: &Self, written: usize) -> bool {
        self.list[..written] == other.list[..written] && self.kept(written)
    }

    /// The numbers written; 0 for each of them beside a refusal.
    pub fn written<const N: usize>(&self, number: u8) -> [T; N] {
        let mut numbers = [T::default(); N];
        if number == 0 {
            numbers.copy_from_slice(&self.list[..N]);
        }
        numbers
    }
}

/// The number, if the lent lists were left as they should be.
pub fn sound(number: u8, kept: bool) -> u8 {
    if kept {
        number
    } else {
        BROKEN
    }
}

/// A call that writes this many numbers, or none: on a list with more, and on one with one less, where 8 is the last of its refusals. Answers the
/// number and the numbers written.
pub fn record<const N: usize>(call: impl Fn(&mut [u16]) -> Answer) -> (u8, [u16; N]) {
    let mut long = Lent::new(&[], N + MORE);
    let mut short = Lent::new(&[], N - 1);
    let answer = call(&mut long.list);
    let refused = call(&mut short.list);
    let (written, refusal) = match answer {
        Ok(_) => (N, Refusal::TooShort),
        Err(refusal) => (0, refusal),
    };
    let kept = answer.unwrap_or(0) == written
        && long.kept(written)
        && refused == Err(refusal)
        && short.kept(0);
    let number = number(answer);
    (sound(number, kept), long.written(number))
}

/// A call on bytes that are between others, which must stay. Answers its number and its count.
pub fn between(bytes: &mut [u8], call: impl FnOnce(&mut [u8]) -> Answer) -> (u8, usize) {
    let around = [0xA5; MORE];
    let mut lent = [&around, &*bytes, &around].concat();
    let (start, end) = (MORE, MORE + bytes.len());
    let answer = call(&mut lent[start..end]);
    bytes.copy_from_slice(&lent[start..end]);
    let kept = lent[..start] == around && lent[end..] == around;
    (sound(number(answer), kept), answer.unwrap_or(0))
}

/// What a cut writes.
pub struct Writes {
    /// Whether the list left is written over the pieces.
    pub left: bool,
    /// This many numbers to its two lists.
    pub lists: [usize; 2],
    /// What it counts.
    pub count: usize,
}

impl Writes {
    /// The number and the count of the cut on lists of such lengths, and how much of them it writes.
    fn on(&self, list: &SplitList, [pieces, a, b]: [usize; 3]) -> (u8, usize, [usize; 3]) {
        let [one, other] = self.lists;
        let left = if self.left { pieces.min(PIECES) } else { 0 };
        match judge::lent_cut(list.count, pieces, &[(a, one), (b, other)]) {
            0 => (0, self.count, [left, one, other]),
            number => (number, 0, [0; 3]),
        }
    }
}

/// The lists of a cut: the pieces, and two that it writes.
pub struct Cut<T> {
    pub pieces: Lent<u16>,
    pub one: Lent<T>,
    pub other: Lent<u16>,
}

impl<T: Copy + Default + PartialEq + From<u16>> Cut<T> {
    fn new(given: &[u16], [pieces, one, other]: [usize; 3]) -> Self {
        Cut {
            pieces: Lent::new(given, pieces),
            one: Lent::new(&[], one),
            other: Lent::new(&[], other),
        }
    }

    fn is_written_as(&self, long: &Self, [pieces, one, other]: [usize; 3]) -> bool {
        self.pieces.is_written_as(&long.pieces, pieces)
            && self.one.is_written_as(&long.one, one)
            && self.other.is_written_as(&long.other, other)
    }
}

/// A cut of a list: on lists that are all longer than needed; with as many pieces lent as the list has, some more, and one less; with one less in each list that
/// it writes; and with no number in any list. Each time the judge has its number: 8 where a list is too short, and only then 10 for a count over 512. Answers the number and the
/// long lists.
pub fn cut<T: Copy + Default + PartialEq + From<u16>>(
    list: &SplitList,
    writes: &Writes,
    call: impl Fn(&mut [u16], &mut [T], &mut [u16]) -> Answer,
) -> (u8, Cut<T>) {
    let run = |lengths: [usize; 3]| {
        let mut lent = Cut::new(&list.pieces, lengths);
        let Cut { pieces, one, other } = &mut lent;
        (call(&mut pieces.list, &mut one.list, &mut other.list), lent)
    };
    let [one, other] = writes.lists;
    let count = list.count;
    let more = [count.max(PIECES) + MORE, one + MORE, other + MORE];
    let lengths = [
        more,
        [count, one, other],
        [count + MORE, one, other],
        [count.saturating_sub(1), one, other],
        [count, one.saturating_sub(1), other],
        [count, one, other.saturating_sub(1)],
        [0; 3],
    ];
    let (answer, long) = run(more);
    let is_sound = |&lengths: &[usize; 3]| {
        let (expected, count, written) = writes.on(list, lengths);
        let (answer, lent) = run(lengths);
        number(answer) == expected
            && answer.unwrap_or(0) == count
            && lent.is_written_as(&long, written)
    };
    (sound(number(answer), lengths.iter().all(is_sound)), long)
}

#[cfg(test)]
mod tests {
    use super::*;

    const DONE: Answer = Ok(2);
    const SHORT: Answer = Err(Refusal::TooShort);
    const REFUSED: Answer = Err(Refusal::TooManyPieces);

    /// Writes 0 to the first `written` of a list of two or more; a shorter one is refused after `spoilt` zeros.
    fn fill(list: &mut [u16], written: usize, spoilt: usize) -> Answer {
        let (zeros, answer) = if list.len() < 2 {
            (spoilt, SHORT)
        } else {
            (written, DONE)
        };
        list[..zeros].fill(0);
        answer
    }

    #[test]
    fn a_zero_in_the_wrong_place_shows() {
        assert_eq!(record(|list| fill(list, 2, 0)), (0, [0, 0]));
        assert_eq!(record::<2>(|list| fill(list, 3, 0)).0, BROKEN);
        assert_eq!(record::<2>(|list| fill(list, 2, 1)).0, BROKEN);
        assert_eq!(record(|_| REFUSED), (10, [0, 0]));
        let spoil = |list: &mut [u16]| {
            list[0] = 0;
            REFUSED
        };
        assert_eq!(record::<2>(spoil).0, BROKEN);
        assert_eq!(record::<2>(|_| DONE).0, BROKEN);
    }

    #[test]
    fn bytes_around_stay() {
        let mut bytes = [1, 2];
        let call = |list: &mut [u8]| {
            list.fill(7);
            Ok(list.len())
        };
        assert_eq!((between(&mut bytes, call), bytes), ((0, 2), [7, 7]));
        assert_eq!(between(&mut bytes, |_| REFUSED), (10, 0));
        assert_eq!(between(&mut [], |_| SHORT), (8, 0));
        let spoil = |at: isize| {
            between(&mut [1, 2], |list| {
                // SAFETY: there are three bytes more on both sides of the list.
                unsafe { *list.as_mut_ptr().offset(at) = 0 };
                DONE
            })
        };
        assert_eq!([spoil(-1).0, spoil(0).0, spoil(2).0], [BROKEN, 0, BROKEN]);
    }

    /// Leaves the first `count` pieces, then 0, and writes 0 to two numbers of each list.
    fn good(
        count: usize,
        pieces: &mut [u16],
        one: &mut [u16],
        other: &mut [u16],
        is_left: bool,
    ) -> Answer {
        if pieces.len() < count || one.len() < 2 || other.len() < 2 {
            return SHORT;
        }
        if count > PIECES {
            return REFUSED;
        }
        if is_left {
            let end = pieces.len().min(PIECES);
            pieces[count..end].fill(0);
        }
        one[..2].fill(0);
        other[..2].fill(0);
        DONE
    }

    /// The number for a cut of this many pieces that does this before the good one, or instead of it.
    fn number_of(
        count: usize,
        left: bool,
        first: impl Fn(&mut [u16], &mut [u16], &mut [u16]) -> Option<Answer>,
    ) -> u8 {
        let list = SplitList {
            count,
            pieces: [7; PIECES],
        };
        let writes = Writes {
            left,
            lists: [2, 2],
            count: 2,
        };
        let call = |pieces: &mut [u16], one: &mut [u16], other: &mut [u16]| {
            first(pieces, one, other).unwrap_or_else(|| good(count, pieces, one, other, left))
        };
        cut(&list, &writes, call).0
    }

    #[test]
    fn a_good_cut_is_sound() {
        for left in [true, false] {
            for count in [0, 1, 4, 511, 512] {
                assert_eq!(number_of(count, left, |_, _, _| None), 0);
            }
            for count in [513, 1024] {
                assert_eq!(number_of(count, left, |_, _, _| None), 10);
            }
        }
    }

    /// Whatever is refused or not: 0 to the first number.
    fn spoil_first(list: &mut [u16]) -> Option<Answer> {
        list.iter_mut().take(1).for_each(|number| *number = 0);
        None
    }

    /// 0 past the two numbers that are written.
    fn spoil_rest(list: &mut [u16]) -> Option<Answer> {
        list.iter_mut().skip(2).for_each(|number| *number = 0);
        None
    }

    #[test]
    fn a_cut_is_held_to_every_list() {
        for left in [true, false] {
            let pieces = number_of(4, left, |pieces, _, _| spoil_first(pieces));
            let one = number_of(4, left, |_, one, _| spoil_rest(one));
            let other = number_of(4, left, |_, _, other| spoil_rest(other));
            let refused = number_of(4, left, |_, _, other| spoil_first(other));
            assert_eq!([pieces, one, other, refused], [BROKEN; 4]);
        }
    }

    #[test]
    fn a_cut_is_held_to_its_refusals() {
        let refused = |count: usize, refuses: fn(&[u16], &[u16]) -> bool, answer: Answer| {
            number_of(count, true, |pieces, one, _| {
                refuses(pieces, one).then_some(answer)
            })
        };
        // Fewer than 512 pieces are enough where the count is lower.
        assert_eq!(refused(4, |pieces, _| pieces.len() < PIECES, SHORT), BROKEN);
        // 8 comes before 10.
        assert_eq!(refused(513, |_, one| one.len() < 2, REFUSED), BROKEN);
        assert_eq!(
            refused(513, |pieces, _| pieces.len() < 513, REFUSED),
            BROKEN
        );
        // One piece too few is 8.
        assert_eq!(refused(4, |pieces, _| pieces.len() < 4, DONE), BROKEN);
        // Another count.
        assert_eq!(refused(4, |_, one| one.len() == 2, Ok(3)), BROKEN);
        // Nothing written.
        assert_eq!(refused(4, |_, one| one.len() == 2, DONE), BROKEN);
    }

    #[test]
    fn the_list_left_ends_at_512() {
        let all = |pieces: &mut [u16], _: &mut [u16], _: &mut [u16]| {
            if pieces.len() > PIECES {
                pieces[PIECES] = 0;
            }
            None
        };
        assert_eq!(number_of(4, true, all), BROKEN);
    }
}
