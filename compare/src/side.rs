//! The library as a side of the comparison. Its lists are lent full of canaries, with some numbers more than needed and with one less (`lent`), so that
//! whatever a refusal writes, or a result past its end, shows. What was written is read by the library's own records.

use leg_sheet::calls::{self, CUT, ENDS, FOUND, LENT_CUT, LIST, MARGIN, PIECES, SETTINGS, SIZES};
use leg_sheet::{List, Place};
use oracle::calls::{
    Calls, Counted, CutParts, CutPositions, Folded, LeafPlace, LeafRecord, Marked, Planned,
    ReadMargin, ReadSettings, Shared, SizeRecord, SplitList, Typed,
};
use oracle::form::{encode_record, encode_settings, CutPair, Ends, Flags, Margin, Owner, Settings};

use crate::lent::{self, canary, number, sound, Answer, Lent, Writes, MORE};

#[derive(Debug, Default)]
pub struct Library;

fn counted(answer: Answer) -> Counted {
    Counted {
        number: number(answer),
        count: answer.unwrap_or(0),
    }
}

fn sides(sides: leg_sheet::Sides) -> [u8; 4] {
    [sides.left, sides.right, sides.top, sides.bottom]
}

fn settings_of(settings: leg_sheet::Settings) -> Settings {
    Settings {
        marks: settings.marks().into(),
        padding: sides(settings.padding()),
        fills: sides(settings.fills()),
        horizontal: settings.horizontal() as u8,
        vertical: settings.vertical() as u8,
        line_mode: settings.line_mode().into(),
        width_priority: settings.width_priority() as u8,
        height_priority: settings.height_priority() as u8,
        margin: Margin {
            sizes: sides(settings.margin()),
            fills: sides(settings.margin_fills()),
        },
    }
}

fn size_of(size: leg_sheet::SizeRecord) -> SizeRecord {
    SizeRecord {
        natural_width: size.natural_width,
        natural_height: size.natural_height,
        allotted_width: size.allotted_width,
        allotted_height: size.allotted_height,
        below: size.below,
    }
}

fn numbers_of(size: &SizeRecord) -> [u16; SIZES] {
    [
        size.natural_width,
        size.natural_height,
        size.allotted_width,
        size.allotted_height,
        size.below,
    ]
}

fn flags_of(flags: leg_sheet::Flags) -> Flags {
    Flags {
        first_row: flags.first_row,
        last_row: flags.last_row,
        first_col: flags.first_col,
        last_col: flags.last_col,
        no_right: flags.no_right,
        lean_top: flags.lean_top,
        top_left: flags.top_left,
        top_intersection: flags.top_intersection,
    }
}

fn pair_of(pair: leg_sheet::CutPair) -> CutPair {
    CutPair {
        taken: pair.taken,
        rest: pair.rest.into(),
    }
}

/// An answer for a place, by the header's form.
fn number_of(owner: &Owner) -> u64 {
    (owner.node as u64) * (1 << 32) + (owner.line as u64) * (1 << 16) + owner.column as u64
}

fn owner_of(leaf: leg_sheet::LeafPlace) -> Owner {
    Owner {
        node: leaf.node,
        line: leaf.line,
        column: leaf.column,
    }
}

fn list_of(list: &leg_sheet::SplitList) -> SplitList {
    SplitList {
        count: list.len(),
        pieces: *list.entries(),
    }
}

impl Calls for Library {
    /// The numbers written, the settings that the library makes of them and the bytes that it makes of these are compared with each other.
    fn read_settings(&mut self, settings: &[u8]) -> ReadSettings {
        let (number, out) = lent::record::<SETTINGS>(|out| calls::read_settings(settings, out));
        let read = leg_sheet::Settings::from_bytes(settings);
        let is_same = number == lent::number(read.map(|_| SETTINGS));
        let settings = read.map_or(Settings::BLANK, settings_of);
        let record = encode_record(&settings);
        let is_written = record[3..].iter().map(|&byte| u16::from(byte)).eq(out);
        let is_encoded = read.map_or(true, |read| read.to_bytes() == encode_settings(&settings));
        ReadSettings {
            number: sound(number, is_same && is_written && is_encoded),
            settings,
        }
    }

    fn read_margin(&mut self, settings: &[u8]) -> ReadMargin {
        let (number, out) = lent::record::<MARGIN>(|out| calls::read_margin(settings, out));
        let bytes = out.map(|number| number as u8);
        let [left, right, top, bottom, fills @ ..] = bytes;
        ReadMargin {
            number: sound(number, bytes.map(u16::from) == out),
            margin: Margin {
                sizes: [left, right, top, bottom],
                fills,
            },
        }
    }

    fn read_tree(&mut self, tree: &[u8]) -> Counted {
        counted(calls::read_tree(tree))
    }

    /// Some numbers more than the list's: one less than a further record needs.
    fn sizes(&mut self, settings: &[u8], tree: &[u8], list: &mut [SizeRecord]) -> Counted {
        let numbers: Vec<u16> = list.iter().flat_map(numbers_of).collect();
        let mut lent = Lent::new(&numbers, numbers.len() + SIZES - 1);
        let Counted { number, count } = counted(calls::sizes(settings, tree, &mut lent.list));
        for (record, five) in list.iter_mut().zip(lent.list.chunks_exact(SIZES)) {
            let five = five.try_into().expect("five numbers");
            *record = size_of(leg_sheet::SizeRecord::from_numbers(five));
        }
        let number = sound(number, lent.kept(numbers.len()));
        Counted { number, count }
    }

    fn leaf_record(&mut self, settings: &[u8], tree: &[u8], node: usize) -> LeafRecord {
        let (number, out) = lent::record(|out| calls::leaf_record(settings, tree, node, out));
        let leaf = leg_sheet::LeafRecord::from_numbers(&out);
        LeafRecord {
            number,
            node: leaf.node,
            width: leaf.width,
            height: leaf.height,
            horizontal: list_of(&leaf.horizontal),
            vertical: list_of(&leaf.vertical),
            flags: flags_of(leaf.flags),
            pair: pair_of(leaf.pair),
        }
    }

    fn leaf(&mut self, settings: &[u8], tree: &[u8], node: usize, output: &mut [u8]) -> Counted {
        counted(calls::print_leaf(settings, tree, node, output))
    }

    fn sheet(&mut self, settings: &[u8], tree: &[u8], output: &mut [u8]) -> Counted {
        counted(calls::print_sheet(settings, tree, output))
    }

    fn place(&mut self, settings: &[u8], tree: &[u8], line: usize, column: usize) -> LeafPlace {
        let (number, out) = lent::record(|out| calls::place(settings, tree, line, column, out));
        let Owner { node, line, column } = owner_of(leg_sheet::LeafPlace::from_numbers(out));
        LeafPlace {
            number,
            node,
            line,
            column,
        }
    }

    /// Three numbers more than the answers lent are behind them, and must stay.
    fn places(
        &mut self,
        settings: &[u8],
        tree: &[u8],
        places: &[(usize, usize)],
        answers: &mut [Owner],
    ) -> Marked {
        let place = |&(line, column): &(usize, usize)| Place { line, column }.to_number();
        let places: Vec<u64> = places.iter().map(place).collect();
        let numbers: Vec<u64> = answers.iter().map(number_of).collect();
        let mut lent = Lent::new(&numbers, numbers.len() + MORE);
        let before = canary(0);
        let mut read = before;
        let list = &mut lent.list[..numbers.len()];
        let answer = calls::places(settings, tree, &places, list, &mut read);
        for (owner, &number) in answers.iter_mut().zip(list.iter()) {
            *owner = owner_of(leg_sheet::LeafPlace::from_number(number));
        }
        let Counted { number, count } = counted(answer);
        let is_kept = lent.kept(numbers.len()) && (number == 0 || read == before);
        Marked {
            number: sound(number, is_kept),
            count,
            read: if number == 0 { read as usize } else { 0 },
        }
    }

    /// Three numbers more are behind the entries lent, and behind those found, and must stay; so must all of them beside a refusal.
    fn fold(
        &mut self,
        settings: &[u8],
        tree: &[u8],
        width: usize,
        budget: usize,
        columns: &mut [u16],
    ) -> Folded {
        let length = columns.len();
        let mut lent = Lent::new(columns, length + MORE);
        let mut found = Lent::<u64>::new(&[], FOUND + MORE);
        let list = &mut lent.list[..length];
        let three = found.list.first_chunk_mut().expect("three numbers");
        let answer = calls::fold(settings, tree, width, budget, list, three);
        columns.copy_from_slice(list);
        let Counted { number, count } = counted(answer);
        let written = if number == 0 { FOUND } else { 0 };
        let is_kept = lent.kept(length) && found.kept(written);
        let folded = leg_sheet::Folded::from_numbers(columns, found.written(number));
        Folded {
            number: sound(number, is_kept),
            count,
            height: folded.height,
            tries: folded.tries,
            miss: folded.miss,
        }
    }

    /// Three numbers more are behind the ends, and must stay; so must all of them beside a refusal.
    fn plan(&mut self, settings: &[u8], tree: &[u8]) -> Planned {
        let mut ends = Lent::<u32>::new(&[], ENDS + MORE);
        let four = ends.list.first_chunk_mut().expect("four numbers");
        let Counted { number, count } = counted(calls::plan(settings, tree, four));
        let written = if number == 0 { ENDS } else { 0 };
        let planned = leg_sheet::Planned::from_numbers(ends.written(number));
        Planned {
            number: sound(number, count == written && ends.kept(written)),
            ends: Ends {
                width: planned.width.into_inner().into(),
                height: planned.height.into_inner().into(),
            },
        }
    }

    /// Three numbers more are behind either list, and must stay.
    fn widen(
        &mut self,
        settings: &[u8],
        tree: &[u8],
        nodes: &mut [u16],
        letters: &mut [u32],
    ) -> Counted {
        let mut lent = Lent::new(nodes, nodes.len() + MORE);
        let mut other = Lent::new(letters, letters.len() + MORE);
        let (list, numbers) = (
            &mut lent.list[..nodes.len()],
            &mut other.list[..letters.len()],
        );
        let answer = calls::widen(settings, tree, list, numbers);
        nodes.copy_from_slice(list);
        letters.copy_from_slice(numbers);
        let Counted { number, count } = counted(answer);
        let is_kept = lent.kept(nodes.len()) && other.kept(letters.len());
        Counted {
            number: sound(number, is_kept),
            count,
        }
    }

    /// A save counts nothing.
    fn save_draft(&mut self, store: &mut [u8], name: u8, tree: &[u8]) -> u8 {
        let save = |store: &mut [u8]| calls::save_draft(store, name, tree);
        let (number, count) = lent::between(store, save);
        sound(number, count == 0)
    }

    fn forget_draft(&mut self, store: &mut [u8], name: u8) -> u8 {
        let forget = |store: &mut [u8]| calls::forget_draft(store, name);
        let (number, count) = lent::between(store, forget);
        sound(number, count == 0)
    }

    fn return_draft(&mut self, store: &[u8], name: u8, output: &mut [u8]) -> Counted {
        let copy = |out: &mut [u8]| calls::return_draft(store, name, out);
        let (number, count) = lent::between(output, copy);
        Counted { number, count }
    }

    fn blank(&mut self, tree: &[u8], nodes: &[u16], output: &mut [u8]) -> Counted {
        let write = |out: &mut [u8]| calls::blank(tree, nodes, out);
        let (number, count) = lent::between(output, write);
        Counted { number, count }
    }

    fn read_typed(&mut self, list: &[u8], output: &mut [u8]) -> Typed {
        let mut place = [0; 2];
        let read = |out: &mut [u8]| {
            calls::read_typed(list, out).map_err(|fault| {
                place = [fault.line, fault.column];
                fault.refusal
            })
        };
        let (number, count) = lent::between(output, read);
        let [line, column] = place.map(|number| number as usize);
        Typed {
            number,
            count,
            line,
            column,
        }
    }

    fn short_splits3(&mut self, list: &SplitList, width: u16) -> CutParts {
        let writes = Writes {
            left: false,
            lists: [CUT, 0],
            count: CUT,
        };
        let (number, lent) = lent::cut(list, &writes, |pieces, out, _| {
            calls::short_splits3(pieces, list.count, width, out)
        });
        let cut = leg_sheet::CutParts::from_numbers(&lent.one.written(number));
        CutParts {
            number,
            split: cut.split,
            pair: pair_of(cut.pair),
            taken: list_of(&cut.taken),
            left: list_of(&cut.left),
        }
    }

    fn short_splits(&mut self, list: &SplitList, width: u16) -> CutPositions {
        let writes = Writes {
            left: false,
            lists: [LIST, LIST],
            count: LIST,
        };
        let (number, lent) = lent::cut(list, &writes, |pieces, positions, left| {
            calls::short_splits(pieces, list.count, width, positions, left)
        });
        let positions: leg_sheet::Positions = List::from_numbers(&lent.one.written(number));
        CutPositions {
            number,
            positions: *positions.entries(),
            count: positions.len(),
            left: list_of(&List::from_numbers(&lent.other.written(number))),
        }
    }

    fn short_splits3_lent(&mut self, list: &mut SplitList, width: u16) -> CutParts {
        let writes = Writes {
            left: true,
            lists: [LENT_CUT, 0],
            count: LENT_CUT,
        };
        let (number, lent) = lent::cut(list, &writes, |pieces, out, _| {
            calls::short_splits3_lent(pieces, list.count, width, out)
        });
        let cut = leg_sheet::CutAnswer::from_numbers(&lent.one.written(number));
        list.pieces.copy_from_slice(&lent.pieces.list[..PIECES]);
        let mut left = SplitList::EMPTY;
        if number == 0 {
            list.count = cut.left;
            left = list.clone();
        }
        CutParts {
            number,
            split: cut.split,
            pair: pair_of(cut.pair),
            taken: list_of(&cut.taken),
            left,
        }
    }

    fn share(&mut self, spare: usize, n: usize, priority: u8, index: usize) -> Shared {
        let lent = canary(0);
        let mut part = lent;
        match calls::share(spare, n, priority, index, &mut part) {
            Ok(count) => Shared {
                number: sound(0, count == 0),
                part: part as usize,
            },
            refused => Shared {
                number: sound(number(refused), part == lent),
                part: 0,
            },
        }
    }
}

#[cfg(test)]
mod tests {
    use leg_sheet::Input;
    use oracle::calls::{Calls, Typed};
    use oracle::gen::{typed, Rng};
    use oracle::judge;
    use oracle::sides::Paper;
    use oracle::typing::{self, type_of, Marks};

    use super::Library;

    extern "C" {
        fn leg_read_typed(text: *const u8, text_len: usize, out: *mut u8, out_len: usize) -> u64;
    }

    /// The word has the number above 32 bits and a fault's line above 40; below it has the count, or a fault's column. A refusal writes nothing, and bytes that are not lent stay.
    #[test]
    fn a_word_has_the_place() {
        let mut rng = Rng::new(71);
        for _ in 0..20_000 {
            let list = typed::any_list(&mut rng);
            let mut told = [0xA5; 64];
            let length = rng.pick(&[0, 3, 20, 64]);
            let answer = Paper::default().read_typed(&list, &mut told[..length]);
            let mut out = [0xA5; 64];
            // SAFETY: pointers and lengths of slices, of the second the front.
            let word =
                unsafe { leg_read_typed(list.as_ptr(), list.len(), out.as_mut_ptr(), length) };
            let Typed {
                number,
                count,
                line,
                column,
            } = answer;
            let lower = if number == 0 { count } else { column };
            let upper = line * 256 + usize::from(number);
            assert_eq!(word, (upper as u64) << 32 | lower as u64);
            assert_eq!(out, told);
            assert!(number == 0 || out == [0xA5; 64]);
        }
    }

    /// No byte is read or written where none is lent, whatever the pointer.
    #[test]
    fn an_empty_list_has_no_root() {
        let answer = Library.read_typed(&[], &mut []);
        let told = Typed {
            number: 39,
            count: 0,
            line: 1,
            column: 1,
        };
        assert_eq!(answer, told);
    }

    /// The library types a tree as the oracle does, with the marks that it needs.
    #[test]
    fn trees_are_typed_alike() {
        let mut rng = Rng::new(72);
        for _ in 0..2000 {
            let tree = typed::tree(&mut rng);
            let short = type_of(&tree, Marks::Short);
            let read = leg_sheet::Tree::from_typed(typed::typed(&mut rng, &tree));
            let again = read.expect("a typed list").typed();
            assert_eq!(again.as_bytes(), short);
            assert_eq!(typing::read(again.as_bytes()), Ok(tree));
        }
    }

    /// The library splits the sheet program's input where the judge does.
    #[test]
    fn an_input_is_split_as_the_judge_says() {
        for tag in 0..=255 {
            let mut bytes = [0x11; 60];
            bytes[31] = tag;
            for length in 0..=bytes.len() {
                let input = Input::split(&bytes[..length]);
                assert_eq!((input.settings, input.tree), judge::split(&bytes[..length]));
            }
        }
    }
}
