//! The nodes of a tree, one after another.

use crate::tree::Tree;

/// A node of a tree: its number, its place in the tree, and what it is.
#[derive(Debug, Clone, Copy, PartialEq, Eq)]
pub struct Node<'a> {
    /// Its number, as every call has it: a parent before its children, these from left to right, from 0 on.
    pub number: usize,
    /// The number of the Row or Column that it is a child of; none for the root.
    pub parent: Option<usize>,
    /// How many nodes it is inside of.
    pub level: usize,
    /// The node itself, with all below it.
    pub tree: &'a Tree,
}

impl<'a> Node<'a> {
    /// Its text, where it is a Cell.
    #[must_use]
    pub fn text(&self) -> Option<&'a str> {
        match self.tree {
            Tree::Cell(text) => Some(text),
            Tree::Row(_) | Tree::Column(_) => None,
        }
    }

    /// Whether it is printed as a block of its own: a Cell, or a Row or Column without children.
    #[must_use]
    pub fn is_leaf(&self) -> bool {
        self.tree.children().is_empty()
    }

    /// How many nodes are below it.
    #[must_use]
    pub fn below(&self) -> usize {
        self.tree.nodes().count() - 1
    }
}

/// The nodes of a tree in the order of their numbers: what [`Tree::nodes`] answers.
#[derive(Debug, Clone)]
pub struct Nodes<'a> {
    number: usize,
    /// The nodes to come whose parents have come, the next one last.
    to_come: Vec<(Option<usize>, usize, &'a Tree)>,
}

impl<'a> Iterator for Nodes<'a> {
    type Item = Node<'a>;

    fn next(&mut self) -> Option<Node<'a>> {
        let (parent, level, tree) = self.to_come.pop()?;
        let number = self.number;
        let children = tree.children().iter().rev();
        self.to_come
            .extend(children.map(|child| (Some(number), level + 1, child)));
        self.number += 1;
        Some(Node {
            number,
            parent,
            level,
            tree,
        })
    }
}

impl Tree {
    /// The children of a Row or Column, in their order; a Cell has none.
    #[must_use]
    pub fn children(&self) -> &[Tree] {
        match self {
            Tree::Cell(_) => &[],
            Tree::Row(children) | Tree::Column(children) => children,
        }
    }

    /// The nodes, in the order of their numbers.
    ///
    /// ```
    /// use leg_sheet::Tree;
    ///
    /// let tree = Tree::column(["Home pad".into(), Tree::row(["height", "0 m"])]);
    /// let texts: Vec<_> = tree.nodes().filter_map(|node| Some((node.number, node.parent, node.text()?))).collect();
    /// assert_eq!(texts, [(1, Some(0), "Home pad"), (3, Some(2), "height"), (4, Some(2), "0 m")]);
    /// ```
    #[must_use]
    pub fn nodes(&self) -> Nodes<'_> {
        Nodes {
            number: 0,
            to_come: vec![(None, 0, self)],
        }
    }

    /// The node of a number, with all below it.
    ///
    /// ```
    /// use leg_sheet::Tree;
    ///
    /// let tree = Tree::column(["Home pad".into(), Tree::row(["height", "0 m"])]);
    /// assert_eq!(tree.node(2), Some(&Tree::row(["height", "0 m"])));
    /// assert_eq!(tree.node(5), None);
    /// ```
    #[must_use]
    pub fn node(&self, number: usize) -> Option<&Tree> {
        self.nodes().nth(number).map(|node| node.tree)
    }
}
