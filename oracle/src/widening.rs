//! Document 02, 11: which cell is nearest to widening the sheet. Letters are really added, in a copy of the tree, and the copy is measured. It follows the document's
//! sentences and shares no code with the port.

use crate::form::{Need, Settings, Tree};
use crate::paper;

/// The nodes of the Cells. 'Empty Rows and Columns are not listed.'
pub fn cells(tree: &Tree) -> Vec<usize> {
    fn nodes(tree: &Tree) -> Vec<&Tree> {
        let below = tree.children().iter().flat_map(nodes);
        [tree].into_iter().chain(below).collect()
    }

    let nodes = nodes(tree).into_iter().enumerate();
    let cells = nodes.filter(|(_, node)| matches!(node, Tree::Cell(_)));
    cells.map(|(number, _)| number).collect()
}

/// The text of the Cell with this node.
fn text_mut(tree: &mut Tree, node: usize) -> &mut Vec<u8> {
    match tree {
        Tree::Cell(text) => text,
        Tree::Row(children) | Tree::Column(children) => {
            let mut left = node - 1;
            for child in children {
                let nodes = child.nodes();
                if left < nodes {
                    return text_mut(child, left);
                }
                left -= nodes;
            }
            panic!("no node {node}");
        }
    }
}

/// The tree with this many letters 'added to [the] longest line alone' of the Cell with this node. Of several longest lines one gets the letters.
pub fn widened(tree: &Tree, node: usize, letters: usize) -> Tree {
    let mut tree = tree.clone();
    let text = text_mut(&mut tree, node);
    let mut lines: Vec<Vec<u8>> = text.split(|&b| b == 0x0A).map(<[u8]>::to_vec).collect();
    let longest = lines.iter_mut().max_by_key(|line| line.len());
    let end = longest.expect("a text has a line");
    end.resize(end.len() + letters, b'x');
    *text = lines.join(&0x0A);
    tree
}

/// 'List each Cell's node and that number, smallest number first, equal ones by node': the number is what `search` finds for the node.
pub fn listed(tree: &Tree, search: impl Fn(usize) -> usize) -> Vec<Need> {
    let need = |node: usize| Need {
        node,
        letters: search(node),
    };
    let mut list: Vec<Need> = cells(tree).into_iter().map(need).collect();
    list.sort_by_key(|need| (need.letters, need.node));
    list
}

/// 'For each Cell .. the smallest number of letters which, added to its longest line alone, makes the natural W larger, with the limits on W and the tree's bytes put
/// aside': doubled until it does, then halved between the most letters that were tried and do not and the fewest that do. These are neighbours in the end.
pub fn needs(settings: &Settings, tree: &Tree) -> Vec<Need> {
    let width = |tree: &Tree| paper::rectangle(settings, &paper::sizes(settings, tree)).0;
    let natural = width(tree);
    listed(tree, |node| {
        let is_wider = |letters: usize| width(&widened(tree, node, letters)) > natural;
        let (mut few, mut many) = (0, 1);
        while !is_wider(many) {
            (few, many) = (many, 2 * many);
        }
        while many - few > 1 {
            let middle = (few + many) / 2;
            if is_wider(middle) {
                many = middle;
            } else {
                few = middle;
            }
        }
        many
    })
}
