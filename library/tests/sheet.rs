//! `Sheet`: each of its methods answers what the call on its settings and tree answers.

use leg_sheet::{
    blank, fold, leaf_record, place, places, print_leaf, print_sheet, sizes, widen, Input, Marks,
    Place, PlacesRefusal, Refusal, Settings, Sheet, Sides, Tree,
};

fn tree() -> Tree {
    let names = Tree::column(["Home pad", "47.2101 N 19.0402 E"]);
    let leg = Tree::row(["1".into(), names, "take off\nhold 10 s".into()]);
    Tree::column([leg, Tree::Row(vec![]), "remarks".into()])
}

fn settings() -> [Settings; 3] {
    let margin = Sides {
        left: 3,
        ..Sides::all(1)
    };
    let edged = Settings::default().with_margin(margin);
    let bare = Settings::default().with_marks(Marks::None);
    [Ok(Settings::default()), edged, bare].map(|settings| settings.expect("settings"))
}

#[test]
fn a_sheet_by_every_call() {
    for settings in settings() {
        let (tree, sheet) = (tree(), Sheet::new(settings, tree()).expect("a sheet"));
        assert_eq!((sheet.settings(), sheet.tree()), (&settings, &tree));
        let (settings_bytes, tree_bytes) = (settings.to_bytes(), tree.to_bytes());
        let input = Input {
            settings: &settings_bytes,
            tree: &tree_bytes.expect("a tree"),
        };
        assert_eq!(sheet.input(), input);
        assert_eq!(sheet.print(), print_sheet(&settings, &tree));
        assert_eq!(Ok(sheet.sizes()), sizes(&settings, &tree));
        assert_eq!(Ok(sheet.widen()), widen(&settings, &tree));
        assert_eq!(sheet.starts(), input.starts());
        assert!(sheet
            .nodes()
            .map(|node| node.tree)
            .eq(tree.nodes().map(|node| node.tree)));
        for node in 0..10 {
            assert_eq!(sheet.print_leaf(node), print_leaf(&settings, &tree, node));
            assert_eq!(sheet.leaf(node), leaf_record(&settings, &tree, node));
            let text = tree.nodes().nth(node).and_then(|node| node.text());
            assert_eq!(sheet.text(node), text);
        }
        let printed = sheet.print().expect("a sheet");
        let lines: Vec<&str> = printed.split('\n').collect();
        assert_eq!(sheet.dimensions(), (lines[0].len(), lines.len()));
        let all = (0..=lines.len())
            .flat_map(|line| (0..=lines[0].len()).map(move |column| Place { line, column }));
        let all: Vec<Place> = all.collect();
        for at in &all {
            let alone = place(&settings, &tree, at.line, at.column);
            assert_eq!(sheet.place(at.line, at.column), alone);
        }
        for list in all.chunks(100) {
            assert_eq!(sheet.places(list), places(&settings, &tree, list));
        }
    }
}

/// The first place that has no leaf, as the call finds it.
#[test]
fn which_place_is_refused() {
    let [_, edged, _] = settings();
    let sheet = Sheet::new(edged, tree()).expect("a sheet");
    let at = |line, column| Place { line, column };
    let refused = |refusal, place| Err(PlacesRefusal { refusal, place });
    let (inside, margin, outside) = (at(1, 3), at(0, 0), at(99, 0));
    assert!(sheet.places(&[inside]).is_ok());
    let first = sheet.places(&[inside, inside, margin, outside]);
    assert_eq!(first, refused(Refusal::InMargin, Some(2)));
    let first = sheet.places(&[outside, margin]);
    assert_eq!(first, refused(Refusal::OutsideSheet, Some(0)));
    let many = sheet.places(&[outside; 257]);
    assert_eq!(many, refused(Refusal::TooManyPlaces, None));
    let words = "refused 13: the place is in the sheet's margin (place 1 of the list)";
    assert_eq!(
        sheet
            .places(&[inside, margin])
            .map_err(|refused| refused.to_string()),
        Err(words.into())
    );
    let refusal: Refusal = PlacesRefusal::from(Refusal::TooLarge).into();
    assert_eq!(refusal, Refusal::TooLarge);
    assert_eq!(
        PlacesRefusal::from(refusal).to_string(),
        refusal.to_string()
    );
}

#[test]
fn other_sheets_of_a_sheet() {
    let [default, edged, bare] = settings();
    let sheet = Sheet::new(default, tree()).expect("a sheet");
    for settings in [edged, bare, default] {
        let other = sheet.clone().with_settings(settings);
        assert_eq!(Sheet::new(settings, tree()), Ok(other));
    }
    let paper = sheet.blank(&[4, 5]).expect("two Cells");
    assert_eq!(Ok(paper.tree()), blank(&tree(), &[4, 5]).as_ref());
    assert_eq!(Sheet::new(default, paper.tree().clone()), Ok(paper));
    assert_eq!(sheet.blank(&[0]), Err(Refusal::NoLeaf));

    let list = Tree::column(["a", "b", "c", "d"]);
    let legs = Sheet::new(default, list.clone()).expect("a sheet");
    let (folded, row) = legs.fold(7, usize::MAX).expect("a list");
    assert_eq!(Ok(&folded), fold(&default, &list, 7, usize::MAX).as_ref());
    assert_eq!(Some(row.tree()), list.folded(&folded.columns).as_ref());
    assert_eq!(Sheet::new(default, row.tree().clone()), Ok(row));
    assert_eq!(sheet.fold(7, 0).map(|_| ()), Err(Refusal::NotAList));
    assert_eq!(legs.fold(2, 0).map(|_| ()), Err(Refusal::TooWide));
    // The tree of the Row has three bytes more for each Column.
    let long = Tree::column((0..200).map(|_| "x".repeat(160)));
    let legs = Sheet::new(default, long).expect("a sheet");
    assert!(legs.fold(200, 0).is_ok());
    assert_eq!(
        legs.fold(40_000, usize::MAX).map(|_| ()),
        Err(Refusal::BadTree)
    );
}

/// A tree that no call accepts is no sheet; one that is too large is, and is refused where it is printed.
#[test]
fn what_is_no_sheet() {
    let bad = Sheet::new(Settings::default(), Tree::from("\t"));
    assert_eq!(bad, Err(Refusal::BadText));
    let wide = Sheet::new(Settings::default(), Tree::from("x".repeat(397))).expect("a sheet");
    assert_eq!(wide.dimensions(), (401, 3));
    assert_eq!(wide.print(), Err(Refusal::TooLarge));
    assert_eq!(wide.place(0, 0), Err(Refusal::TooLarge));
    assert_eq!(wide.starts(), Err(Refusal::TooLarge));
    assert_eq!(wide.sizes().len(), 1);
    let typed = Sheet::from_typed(tree().typed()).expect("a list");
    assert_eq!(Sheet::new(Settings::default(), tree()), Ok(typed));
    let fault = Sheet::from_typed("row\n   a").expect_err("a fault");
    assert_eq!((fault.refusal, fault.line), (Refusal::OddIndent, 2));
}
