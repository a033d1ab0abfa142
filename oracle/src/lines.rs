//! Lines for a test program: what they give, and the crate's answers.

use crate::calls::{Calls, Counted, Folded, LeafRecord, Marked, Planned, SizeRecord, SplitList};
use crate::form::{encode_record, Ends, Owner};
use crate::judge;
use crate::sides::Original;

/// The lines so far, and what the last of them gave.
#[derive(Default)]
pub struct Lines {
    pub text: String,
    settings: Vec<u8>,
    tree: Vec<u8>,
    pub original: Original,
}

/// Bytes as they are, all but `\` and those that are not printable, which are `\` and two hex digits.
fn escaped(bytes: &[u8]) -> String {
    bytes
        .iter()
        .map(|&byte| match byte {
            b'\\' => format!("\\{byte:02x}"),
            0x20..=0x7E => char::from(byte).to_string(),
            _ => format!("\\{byte:02x}"),
        })
        .collect()
}

/// The same with the space as hex digits, too: it is the tag of draft A.
fn word(bytes: &[u8]) -> String {
    escaped(bytes).replace(' ', "\\20")
}

/// Numbers with a space between them.
fn words(numbers: &[usize]) -> String {
    if numbers.is_empty() {
        return "none".to_string();
    }
    let words: Vec<String> = numbers.iter().map(usize::to_string).collect();
    words.join(" ")
}

fn list(list: &SplitList) -> String {
    if list.count == 0 {
        return " none".to_string();
    }
    list.list()
        .iter()
        .map(|piece| format!(" {piece}"))
        .collect()
}

fn record(record: &LeafRecord) -> String {
    let f = &record.flags;
    let flags = [
        f.first_row,
        f.last_row,
        f.first_col,
        f.last_col,
        f.no_right,
        f.lean_top,
        f.top_left,
        f.top_intersection,
    ];
    let flags = flags.map(|yes| if yes { 'y' } else { 'n' });
    let (across, down) = (list(&record.horizontal), list(&record.vertical));
    let flags: String = flags.iter().collect();
    format!(
        "{} by {}, across{across}, down{down}, {flags}, pair {} {}",
        record.width, record.height, record.pair.taken, record.pair.rest
    )
}

impl Lines {
    fn line(&mut self, kind: char, contents: &str) {
        self.text += &format!("{kind} {contents}\n");
    }

    pub fn title(&mut self, title: &str) {
        self.line('#', title);
    }

    /// The bytes that the lines after this one are about.
    pub fn given(&mut self, settings: &[u8], tree: &[u8]) {
        if self.settings != settings {
            self.settings = settings.to_vec();
            self.line('=', &escaped(settings));
        }
        if self.tree != tree {
            self.tree = tree.to_vec();
            self.line(':', &escaped(tree));
        }
    }

    /// A tree whose last bytes are `item`, `n` times.
    pub fn repeated(&mut self, settings: &[u8], head: &[u8], n: usize, item: &[u8]) {
        self.given(settings, head);
        self.line('+', &format!("{n} {}", escaped(item)));
        self.tree.extend(item.repeat(n));
    }

    /// The settings reader's number, and the 28 bytes of a record that it accepts.
    pub fn settings(&mut self) {
        let read = self.original.read_settings(&self.settings);
        self.line('r', &read.number.to_string());
        if read.number == 0 {
            self.line('f', &escaped(&encode_record(&read.settings)[3..]));
        }
    }

    pub fn readers(&mut self) {
        let settings = self.original.read_settings(&self.settings);
        let tree = self.original.read_tree(&self.tree);
        self.line('r', &settings.number.to_string());
        self.line('t', &format!("{} {}", tree.number, tree.count));
    }

    pub fn sheet(&mut self) {
        let mut output = vec![0; (judge::SHEET_WIDTH + 1) * judge::SHEET_HEIGHT];
        let answer = self.original.sheet(&self.settings, &self.tree, &mut output);
        match answer.number {
            0 => self.line('$', &escaped(&output[..answer.count])),
            number => self.line('%', &number.to_string()),
        }
    }

    pub fn leaf(&mut self, node: usize) {
        self.line('@', &node.to_string());
        let answer = self.original.leaf_record(&self.settings, &self.tree, node);
        if answer.number != 0 {
            return self.line('!', &answer.number.to_string());
        }
        let mut output = vec![0; (judge::SHEET_WIDTH + 1) * judge::SHEET_HEIGHT];
        let block = self
            .original
            .leaf(&self.settings, &self.tree, node, &mut output);
        self.line('?', &record(&answer));
        self.line('>', &escaped(&output[..block.count]));
    }

    pub fn sizes(&mut self, node: usize) {
        let mut list = vec![SizeRecord::default(); judge::NODES];
        let answer = self.original.sizes(&self.settings, &self.tree, &mut list);
        assert!(
            answer.number == 0 && node < answer.count,
            "sizes of node {node}: {answer:?}"
        );
        let z = &list[node];
        let (natural, allotted) = (
            (z.natural_width, z.natural_height),
            (z.allotted_width, z.allotted_height),
        );
        self.line('@', &node.to_string());
        self.line(
            's',
            &format!(
                "{} by {}, {} by {}, below {}",
                natural.0, natural.1, allotted.0, allotted.1, z.below
            ),
        );
    }

    /// A place, then the number, the leaf, and the line and column inside its block.
    pub fn place(&mut self, (line, column): (usize, usize)) {
        let place = self
            .original
            .place(&self.settings, &self.tree, line, column);
        let answer = [place.number.into(), place.node, place.line, place.column];
        self.line('p', &format!("{line} {column}, {}", words(&answer)));
    }

    pub fn places(&mut self, places: &[(usize, usize)]) {
        places.iter().for_each(|&place| self.place(place));
    }

    /// This many places together, the given ones repeated, with room for this many answers; then the number and the elements read, the places given, and their
    /// answers.
    pub fn marks(&mut self, room: usize, count: usize, given: &[(usize, usize)]) {
        let places: Vec<(usize, usize)> = given.iter().copied().cycle().take(count).collect();
        let mut answers = vec![Owner::default(); room];
        let (settings, tree) = (&self.settings, &self.tree);
        let Marked {
            number,
            count: written,
            read,
        } = self.original.places(settings, tree, &places, &mut answers);
        answers.truncate(written.min(given.len()));
        let given: Vec<usize> = given.iter().flat_map(|&(l, c)| [l, c]).collect();
        let found: Vec<usize> = answers
            .iter()
            .flat_map(|a| [a.node, a.line, a.column])
            .collect();
        let (given, found) = (words(&given), words(&found));
        self.line(
            'm',
            &format!("{room} {count}, {number} {read}, {given}, {found}"),
        );
    }

    /// A list folded within a width, with a budget of tries and room for this many Columns; then the number, the Columns, the height, the tries and the miss, and the
    /// cells in each Column.
    pub fn fold(&mut self, room: usize, width: usize, budget: usize) {
        let mut columns = vec![0; room];
        let (settings, tree) = (&self.settings, &self.tree);
        let Folded {
            number,
            count,
            height,
            tries,
            miss,
        } = self
            .original
            .fold(settings, tree, width, budget, &mut columns);
        let found = words(&[number.into(), count, height, tries, miss]);
        let cells: Vec<usize> = columns[..count].iter().map(|&cells| cells.into()).collect();
        self.line(
            'c',
            &format!("{room} {width} {budget}, {found}, {}", words(&cells)),
        );
    }

    /// The number, then the least and the greatest W, the least and the greatest H.
    pub fn plan(&mut self) {
        let Planned { number, ends } = self.original.plan(&self.settings, &self.tree);
        let Ends { width, height } = ends;
        let ends = [&[number.into()][..], &width, &height].concat();
        self.line('e', &words(&ends));
    }

    /// The letters that widen the sheet, with room for this many nodes and this many numbers; then the number and the count, and the node and the letters of each Cell.
    pub fn widen(&mut self, (room, other): (usize, usize)) {
        let (mut nodes, mut letters) = (vec![0; room], vec![0; other]);
        let (settings, tree) = (&self.settings, &self.tree);
        let Counted { number, count } =
            self.original
                .widen(settings, tree, &mut nodes, &mut letters);
        let pairs = nodes.iter().zip(&letters).take(count);
        let needs: Vec<usize> = pairs
            .flat_map(|(&node, &letters)| [node.into(), letters as usize])
            .collect();
        self.line(
            'n',
            &format!("{room} {other}, {number} {count}, {}", words(&needs)),
        );
    }

    /// The store for the next call, where the last one has not left it so. It is written as settings are.
    fn store(&mut self, store: &[u8]) {
        if self.settings != store {
            self.settings = store.to_vec();
            self.line('=', &word(store));
        }
    }

    /// A call that has left this store: the name; then the number, and the store, which is answered.
    fn left(&mut self, kind: char, name: u8, number: u8, store: Vec<u8>) -> Vec<u8> {
        self.line(kind, &format!("{name}, {number}, {}", word(&store)));
        self.settings.clone_from(&store);
        store
    }

    /// A tree saved in a store.
    pub fn save(&mut self, store: &[u8], name: u8, tree: &[u8]) -> Vec<u8> {
        self.store(store);
        self.given(store, tree);
        let mut after = store.to_vec();
        let number = self.original.save_draft(&mut after, name, tree);
        self.left('s', name, number, after)
    }

    /// A draft forgotten.
    pub fn forget(&mut self, store: &[u8], name: u8) -> Vec<u8> {
        self.store(store);
        let mut after = store.to_vec();
        let number = self.original.forget_draft(&mut after, name);
        self.left('f', name, number, after)
    }

    /// A draft returned to: the name, and the room; then the number and the count, and the bytes copied.
    pub fn return_to(&mut self, store: &[u8], name: u8, room: usize) {
        self.store(store);
        let mut out = vec![0; room];
        let Counted { number, count } = self.original.return_draft(store, name, &mut out);
        let copied = word(&out[..count]);
        self.line('r', &format!("{name} {room}, {number} {count}, {copied}"));
    }

    /// A tree with the texts of these nodes blanked: the room, and the nodes; then the number and the count, and the bytes written.
    pub fn blank(&mut self, room: usize, nodes: &[u16]) {
        let mut output = vec![0; room];
        let Counted { number, count } = self.original.blank(&self.tree, nodes, &mut output);
        let nodes: String = nodes.iter().map(|node| format!(" {node}")).collect();
        let written = escaped(&output[..count]);
        self.line('b', &format!("{room}{nodes}, {number} {count}, {written}"));
    }

    pub fn both(&mut self, node: usize) {
        self.leaf(node);
        self.sheet();
    }
}
