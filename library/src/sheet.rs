//! A sheet as a value: its settings, its tree, and the bytes of both.

use crate::input::Input;
use crate::nodes::Nodes;
use crate::records::{Folded, LeafPlace, LeafRecord, Marked, Need, Place, Planned, SizeRecord};
use crate::refusal::{PlacesRefusal, Refusal};
use crate::settings::Settings;
use crate::tree::{blanked, Tree};
use crate::typed::TypedFault;

/// Settings and a tree that the proved reader accepts. They are encoded once, and every method passes the bytes to a proved call.
///
/// ```
/// use leg_sheet::{Place, Refusal, Settings, Sheet, Tree};
///
/// let sheet = Sheet::new(Settings::default(), Tree::row(["1", "Home pad"]))?;
/// assert_eq!(
///     sheet.print()?,
///     "+---+----------+\n\
///      | 1 | Home pad |\n\
///      +---+----------+"
/// );
/// let leaf = sheet.place(1, 6)?;
/// assert_eq!(sheet.text(leaf.node), Some("Home pad"));
/// assert_eq!(sheet.leaf(leaf.node)?.width, 10);
/// assert_eq!(sheet.starts()?[leaf.node], Some(Place { line: 0, column: 4 }));
/// # Ok::<(), Refusal>(())
/// ```
#[derive(Debug, Clone, PartialEq, Eq, Hash)]
pub struct Sheet {
    settings: Settings,
    tree: Tree,
    settings_bytes: Vec<u8>,
    tree_bytes: Vec<u8>,
}

impl Sheet {
    /// The sheet of a tree under settings.
    ///
    /// # Errors
    /// [`BadTree`](Refusal::BadTree), [`BadText`](Refusal::BadText), [`TooManyNodes`](Refusal::TooManyNodes), [`TooDeep`](Refusal::TooDeep), of the tree. Whether the sheet is
    /// too large is said where it is printed.
    pub fn new(settings: Settings, tree: Tree) -> Result<Sheet, Refusal> {
        Ok(Sheet {
            settings,
            settings_bytes: settings.to_bytes(),
            tree_bytes: tree.to_bytes()?,
            tree,
        })
    }

    /// The sheet of a typed list under the default settings.
    ///
    /// ```
    /// use leg_sheet::{Settings, Sheet};
    ///
    /// let sheet = Sheet::from_typed("row\n  1\n  Home pad\n")?.with_settings(Settings::from_words("lines no")?);
    /// assert_eq!(sheet.print()?, " 1  Home pad ");
    /// # Ok::<(), Box<dyn std::error::Error>>(())
    /// ```
    ///
    /// # Errors
    /// As [`Tree::from_typed`].
    pub fn from_typed(list: impl AsRef<[u8]>) -> Result<Sheet, TypedFault> {
        let tree = Tree::from_typed(list)?;
        let sheet = Sheet::new(Settings::default(), tree);
        Ok(sheet.expect("the reader of typed lists makes trees that are accepted"))
    }

    /// The same tree under other settings.
    #[must_use]
    pub fn with_settings(self, settings: Settings) -> Sheet {
        Sheet {
            settings,
            settings_bytes: settings.to_bytes(),
            ..self
        }
    }

    /// Its settings.
    #[must_use]
    pub const fn settings(&self) -> &Settings {
        &self.settings
    }

    /// Its tree.
    #[must_use]
    pub const fn tree(&self) -> &Tree {
        &self.tree
    }

    /// The bytes of both.
    #[must_use]
    pub fn input(&self) -> Input<'_> {
        Input {
            settings: &self.settings_bytes,
            tree: &self.tree_bytes,
        }
    }

    /// The nodes, in the order of their numbers.
    #[must_use]
    pub fn nodes(&self) -> Nodes<'_> {
        self.tree.nodes()
    }

    /// The text of a node, where it is a Cell.
    #[must_use]
    pub fn text(&self, node: usize) -> Option<&str> {
        self.nodes().nth(node)?.text()
    }

    /// The sheet with its margin: its lines with a line feed between them, none at the end.
    ///
    /// # Errors
    /// [`TooLarge`](Refusal::TooLarge).
    pub fn print(&self) -> Result<String, Refusal> {
        self.input().print_sheet()
    }

    /// The block of a leaf, without the margin.
    ///
    /// # Errors
    /// [`TooLarge`](Refusal::TooLarge), [`NoLeaf`](Refusal::NoLeaf).
    pub fn print_leaf(&self, node: usize) -> Result<String, Refusal> {
        self.input().print_leaf(node)
    }

    /// The record of a leaf.
    ///
    /// # Errors
    /// [`TooLarge`](Refusal::TooLarge), [`NoLeaf`](Refusal::NoLeaf).
    pub fn leaf(&self, node: usize) -> Result<LeafRecord, Refusal> {
        self.input().leaf_record(node)
    }

    /// The leaf that has this line and column of the printed sheet, both counted from 0, its margin included.
    ///
    /// # Errors
    /// [`TooLarge`](Refusal::TooLarge), [`OutsideSheet`](Refusal::OutsideSheet), [`InMargin`](Refusal::InMargin).
    pub fn place(&self, line: usize, column: usize) -> Result<LeafPlace, Refusal> {
        self.input().place(line, column)
    }

    /// The leaves of up to 256 places, in their order, each as [`place`](Sheet::place) answers it alone.
    ///
    /// # Errors
    /// [`TooLarge`](Refusal::TooLarge), [`TooManyPlaces`](Refusal::TooManyPlaces), then the [`OutsideSheet`](Refusal::OutsideSheet) or [`InMargin`](Refusal::InMargin) of the
    /// first place that has one, with its index.
    pub fn places(&self, places: &[Place]) -> Result<Marked, PlacesRefusal> {
        self.input().places(places)
    }

    /// The size of each node, by its number, and how many nodes are below it.
    #[must_use]
    pub fn sizes(&self) -> Vec<SizeRecord> {
        let sizes = self.input().sizes();
        sizes.expect("settings and tree are accepted")
    }

    /// The place of the printed sheet where each node starts, by its number, as [`Input::starts`] finds it.
    ///
    /// # Errors
    /// [`TooLarge`](Refusal::TooLarge).
    pub fn starts(&self) -> Result<Vec<Option<Place>>, Refusal> {
        self.input().starts()
    }

    /// The columns and lines of the printed sheet, its margin included; also of one that is too large to be printed.
    ///
    /// ```
    /// use leg_sheet::{Settings, Sheet, Tree};
    ///
    /// let sheet = Sheet::new(Settings::default(), Tree::from("x".repeat(500)))?;
    /// assert_eq!(sheet.dimensions(), (504, 3));
    /// assert!(sheet.print().is_err());
    /// # Ok::<(), leg_sheet::Refusal>(())
    /// ```
    #[must_use]
    pub fn dimensions(&self) -> (usize, usize) {
        let planned = self.input().plan();
        let Planned { width, height } = planned.expect("a tree is a plan, too");
        (*width.start(), *height.start())
    }

    /// The list folded into Columns of one Row, as [`fold`](crate::fold) says it; and the sheet of that Row, under the same settings.
    ///
    /// # Errors
    /// [`NotAList`](Refusal::NotAList), [`TooWide`](Refusal::TooWide); [`BadTree`](Refusal::BadTree) where the tree of the Row is too long.
    pub fn fold(&self, width: usize, budget: usize) -> Result<(Folded, Sheet), Refusal> {
        let folded = self.input().fold(width, budget)?;
        let row = self.tree.folded(&folded.columns);
        let sheet = Sheet::new(self.settings, row.expect("the list's own counts"))?;
        Ok((folded, sheet))
    }

    /// For each Cell the fewest letters that, added to its longest line alone, make the sheet wider; the fewest first, equal ones by node.
    #[must_use]
    pub fn widen(&self) -> Vec<Need> {
        let needs = self.input().widen();
        needs.expect("settings and tree are accepted")
    }

    /// The question paper of a key: the same sheet with the texts of these Cells blanked with dots, of every Cell where none is named.
    ///
    /// # Errors
    /// [`NoLeaf`](Refusal::NoLeaf).
    pub fn blank(&self, nodes: &[usize]) -> Result<Sheet, Refusal> {
        let tree_bytes = blanked(&self.tree_bytes, nodes)?;
        Ok(Sheet {
            tree: Tree::from_bytes(&tree_bytes)?,
            tree_bytes,
            settings: self.settings,
            settings_bytes: self.settings_bytes.clone(),
        })
    }
}
