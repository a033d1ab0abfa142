// The original with trace lines. Each insertion names the line before it and the line after it; the two must be next to each other exactly once in
// table_pool.rs, or the build fails. Nothing is taken out and nothing is altered. FAITHFUL.md lists them.

include!("../standins/build.rs");

struct Insertion {
    after: &'static str,
    before: &'static str,
    text: &'static str,
}

const INSERTIONS: [Insertion; 8] = [
    // 1: the cuts and the collecting of sizes can be called from outside.
    Insertion {
        after: "",
        before: "mod print {",
        text: "pub use self::print::{traced_dimensions, traced_short_splits, traced_short_splits3, traced_squash_splits};",
    },
    Insertion {
        after: "    use super::TableValue;",
        before: "",
        text: "
    pub fn traced_short_splits(splits: &mut Vec<usize>, width: usize) -> Vec<usize> {
        short_splits(splits, width)
    }

    pub fn traced_short_splits3(splits: &mut Vec<usize>, width: usize) -> (bool, Vec<usize>) {
        short_splits3(splits, width)
    }

    pub fn traced_squash_splits(splits: &mut [usize]) {
        squash_splits(splits)
    }

    pub fn traced_dimensions(val: &TableValue, cfg: &CompactMultilineConfig) -> Vec<(usize, usize, usize)> {
        let dims = collect_table_dimensions(val, cfg);
        dims.all.iter().map(|(pos, dim)| (*pos, dim.width, dim.height)).collect()
    }",
    },
    // 2: the natural sizes.
    Insertion {
        after: "        let dims = collect_table_dimensions(val, cfg);",
        before: "        let ctx = PrintContext {",
        text: "        for (pos, dim) in &dims.all {
            crate::trace::natural(*pos, dim.width, dim.height);
        }",
    },
    // 3: the list that a Column, then a Row, cuts for each child, and at what.
    Insertion {
        after: "            let size = Dim::new(ctx.size.width, height);",
        before: "",
        text: "            crate::trace::cut(crate::trace::Cut {
                pos: val_pos,
                is_row: false,
                splits: intersections_vertical.clone(),
                width: size.height,
            });",
    },
    Insertion {
        after: "            let size = Dim::new(width, ctx.size.height);",
        before: "",
        text: "            crate::trace::cut(crate::trace::Cut {
                pos: val_pos,
                is_row: true,
                splits: intersections_horizontal.clone(),
                width,
            });",
    },
    // 4: the context of every node, as `_build_table` is called.
    Insertion {
        after: "    ) -> CellData {",
        before: "        match val {",
        text: "        crate::trace::node(crate::trace::Node {
            pos: ctx.pos,
            width: ctx.size.width,
            height: ctx.size.height,
            is_first_row: ctx.is_first_row,
            is_last_row: ctx.is_last_row,
            is_first_col: ctx.is_first_col,
            is_last_col: ctx.is_last_col,
            kv: ctx.kv,
            kv_is_first: ctx.kv_is_first,
            no_right: ctx.no_right,
            no_bottom: ctx.no_bottom,
            lean_top: ctx.lean_top,
            top_intersection: ctx.top_intersection,
            top_left: ctx.top_left,
            intersections_horizontal: ctx.intersections_horizontal.clone(),
            intersections_vertical: ctx.intersections_vertical.clone(),
        });",
    },
    // 5: the block of every leaf.
    Insertion {
        after: "        let height = ctx.size.height;",
        before: "        let table = generate_value_table(text, cfg, ctx);",
        text: "        let traced_pos = ctx.pos;",
    },
    Insertion {
        after: "        let table = generate_value_table(text, cfg, ctx);",
        before: "        CellData::new(table, vec![width], vec![height])",
        text: "        crate::trace::block(traced_pos, &table);",
    },
];

fn main() {
    println!("cargo:rerun-if-changed=build.rs");
    println!("cargo:rerun-if-changed=../standins/build.rs");
    let source = source();
    include_common(&source);

    let path = file(&source, "tables/table_pool.rs");
    let text = std::fs::read_to_string(&path).expect("table_pool.rs can be read");
    let lines: Vec<&str> = text.split('\n').collect();

    let mut inserted = vec![None; lines.len()];
    for Insertion {
        after,
        before,
        text,
    } in INSERTIONS
    {
        let places: Vec<usize> = (1..lines.len())
            .filter(|&at| lines[at - 1] == after && lines[at] == before)
            .collect();
        let &[at] = &places[..] else {
            panic!(
                "{}: {} places between {after:?} and {before:?}; one is needed",
                path.display(),
                places.len()
            );
        };
        inserted[at] = Some(text);
    }

    let traced: Vec<&str> = inserted
        .into_iter()
        .zip(lines)
        .flat_map(|(text, line)| text.into_iter().chain([line]))
        .collect();
    let traced_path = out("table_pool.rs");
    std::fs::write(&traced_path, traced.join("\n")).expect("OUT_DIR can be written");
    include("tables.rs", &[("table_pool", traced_path)]);
}
