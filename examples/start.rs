//! What start.c does, in Rust. With the installed library, in the Cargo.toml of the program, PREFIX being where it was installed:
//!
//! ```toml
//! [dependencies]
//! leg_sheet = { path = "PREFIX/share/leg_sheet/rust" }
//! ```

use leg_sheet::{place, print_sheet, LeafPlace, Settings, Tree};

fn main() -> Result<(), Box<dyn std::error::Error>> {
    let settings = Settings::default();
    let tree = Tree::from_typed("column\n  leg 1\n  row\n    Home pad\n    take off\n")?;
    println!("{}", print_sheet(&settings, &tree)?);

    let LeafPlace { node, line, column } = place(&settings, &tree, 3, 14)?;
    println!("node {node}: line {line}, column {column} of its block");

    if let Err(fault) = Tree::from_typed("row\n   Home pad\n") {
        println!("{fault}");
    }
    Ok(())
}
