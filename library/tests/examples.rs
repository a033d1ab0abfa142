//! The examples: each file of bytes is what `legs` makes of its typed list and settings, and the settings and the plan are these values.

use std::fs;
use std::path::Path;
use std::process::Command;

use leg_sheet::{Alignment, Marks, Plan, Priority, Refusal, Settings, Sides, Tree};

const FOLDER: &str = concat!(env!("CARGO_MANIFEST_DIR"), "/../examples");

/// Each file of bytes, without its ending, and the words of `legs` that make it.
const MADE: [(&str, &str); 12] = [
    ("flight", "bytes flight.list --settings flight.settings"),
    ("centred", "bytes flight.list --settings centred.settings"),
    ("binder", "bytes flight.list --settings binder.settings"),
    ("tablet", "bytes flight.list --settings tablet.settings"),
    ("form", "bytes form.list"),
    ("remarks", "bytes remarks.list"),
    ("figure2", "bytes figure2.list --settings figure2.settings"),
    ("list", "bytes list.list"),
    ("blank", "bytes blank.list --settings blank.settings"),
    ("key", "bytes key.list --settings key.settings"),
    (
        "paper",
        "blank key.list --lines 9,13,20,23 --settings key.settings",
    ),
    ("refused", "bytes refused.list"),
];

fn example(name: &str) -> Vec<u8> {
    fs::read(Path::new(FOLDER).join(name)).expect("an example")
}

/// What the command writes to standard output, in the folder of the examples.
fn legs(words: &str) -> Vec<u8> {
    let output = Command::new(env!("CARGO_BIN_EXE_legs"))
        .args(words.split(' '))
        .current_dir(FOLDER)
        .output()
        .expect("legs runs");
    assert!(output.status.success(), "legs {words}");
    output.stdout
}

/// The names of the files with this ending, without it.
fn named(ending: &str) -> Vec<String> {
    let entries = fs::read_dir(FOLDER).expect("a folder");
    let names = entries.map(|entry| entry.expect("an entry").file_name());
    let mut names: Vec<String> = names
        .filter_map(|name| Some(name.to_str()?.strip_suffix(ending)?.to_string()))
        .collect();
    names.sort();
    names
}

#[test]
fn bytes_are_made_of_lists() {
    let mut made = MADE.map(|(name, _)| name);
    made.sort_unstable();
    assert_eq!(named(".legs"), made);
    for (name, words) in MADE {
        assert!(legs(words) == example(&format!("{name}.legs")), "{name}");
    }
}

/// Typed and read again each tree is the same.
#[test]
fn bytes_are_typed() {
    for (name, _) in MADE {
        let bytes = example(&format!("{name}.legs"));
        let tree = leg_sheet::Input::split(&bytes).tree;
        let list = legs(&format!("type {name}.legs"));
        let read = Tree::from_typed(list).expect("a list");
        assert_eq!(read.to_bytes().as_deref(), Ok(tree), "{name}");
    }
}

/// The settings of an example.
fn settings(name: &str) -> Result<Settings, Refusal> {
    let list = Settings::default().with_width_priority(Priority::List);
    let sides = |left, right, top, bottom| Sides {
        left,
        right,
        top,
        bottom,
    };
    match name {
        "flight" => Ok(list),
        "centred" => list
            .with_marks(*b"=_()hv/\\T[]*<>#")?
            .with_padding(sides(2, 2, 1, 1))?
            .with_fills(sides(b'.', b'.', b' ', b'.'))
            .map(|centred| centred.with_horizontal(Alignment::Center))
            .map(|centred| {
                centred
                    .with_vertical(Alignment::Center)
                    .with_line_mode(true)
            }),
        "binder" => list
            .with_margin(sides(8, 0, 1, 0))?
            .with_margin_fills(sides(b' ', b' ', b'=', b' ')),
        "tablet" => Settings::default().with_marks(Marks::None),
        "figure2" => list.with_marks(*b"-_()hv123456789"),
        "blank" => list.with_padding(Sides::all(0)),
        "key" => Settings::default().with_margin(sides(4, 0, 0, 0)),
        _ => Err(Refusal::BadSettings),
    }
}

#[test]
fn settings_are_values() {
    for name in named(".settings") {
        let bytes = example(&format!("{name}.settings"));
        let record = settings(&name).map(|settings| settings.to_bytes());
        assert_eq!(record, Ok(bytes), "{name}");
    }
}

/// Two legs have no name and no remark yet. Typed it is the same.
#[test]
fn the_plan_is_a_value() {
    let row = |number: &str, name: Plan, remark: Plan| Plan::row([number.into(), name, remark]);
    let name = || Plan::range(4..=20, 1..=1);
    let remark = || Plan::range(0..=16, 1..=3);
    let plan = Plan::column([
        "Survey 18, waypoints to come".into(),
        row("1", "Home pad".into(), "take off\nhold 10 s".into()),
        row("2", name(), remark()),
        row("3", name(), remark()),
        row("4", "Home pad".into(), "land".into()),
    ]);
    let bytes = plan.to_bytes().expect("a plan");
    let file = [Settings::default().to_bytes(), bytes].concat();
    assert_eq!(example("flight.plan"), file);
    assert_eq!(Plan::from_typed(example("plan.list")), Ok(plan));
}

/// What the program prints of the list with a mistake is its fault.
#[test]
fn the_mistake_is_said() {
    let fault = Tree::from_typed(example("mistake.list")).expect_err("a mistake");
    assert_eq!(example("mistake.txt"), format!("{fault}\n").into_bytes());
}
