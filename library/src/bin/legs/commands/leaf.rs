use leg_sheet::{CutPair, Flags, LeafRecord};

use super::{listed, Answer, Command};
use crate::fault::Fault;
use crate::given::Given;
use crate::options::{JSON, TSV};
use crate::table::{Field, Table};

pub const COMMAND: Command = Command {
    name: "leaf",
    operands: &["FILE", "NODE"],
    options: &[TSV, JSON],
    takes_settings: true,
    about: "a leaf's size, flags, cut, split lists and block",
    run,
};

fn run(given: &Given) -> Result<Answer, Fault> {
    let node = given.number(1)?;
    let file = given.file()?;
    let leaf = file.call(|input| input.leaf_record(node))?;
    let block = file.call(|input| input.print_leaf(node))?;
    let lines = || format!("{}\n{block}\n", lines(&leaf));
    Ok(Answer::one(given, &table(&leaf, &block), lines))
}

fn table(leaf: &LeafRecord, block: &str) -> Table<9> {
    let pieces = |list: &[u16]| Field::Numbers(list.iter().map(|&piece| piece.into()).collect());
    let flags = flags(leaf.flags).into_iter().map(String::from);
    Table::one([
        ("node", leaf.node.into()),
        ("width", leaf.width.into()),
        ("height", leaf.height.into()),
        ("flags", Field::Texts(flags.collect())),
        ("cut_taken", leaf.pair.taken.into()),
        ("cut_left", leaf.pair.rest.into()),
        ("horizontal_pieces", pieces(&leaf.horizontal)),
        ("vertical_pieces", pieces(&leaf.vertical)),
        ("block", block.into()),
    ])
}

fn lines(leaf: &LeafRecord) -> String {
    format!(
        "node {}: {} wide, {} high\nflags: {}\ncut: {}\nhorizontal pieces: {}\nvertical pieces: {}\n",
        leaf.node,
        leaf.width,
        leaf.height,
        listed(&flags(leaf.flags)),
        cut(leaf.pair),
        listed(&leaf.horizontal),
        listed(&leaf.vertical),
    )
}

fn cut(pair: CutPair) -> String {
    format!("{} taken, {} left of the next", pair.taken, pair.rest)
}

fn flags(flags: Flags) -> Vec<&'static str> {
    let set = flags.named().into_iter().filter(|(_, is_set)| *is_set);
    set.map(|(name, _)| name).collect()
}
