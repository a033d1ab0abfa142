include!("../standins/build.rs");

fn main() {
    println!("cargo:rerun-if-changed=build.rs");
    println!("cargo:rerun-if-changed=../standins/build.rs");
    let source = source();
    include_common(&source);
    let table_pool = file(&source, "tables/table_pool.rs");
    include("tables.rs", &[("table_pool", table_pool)]);
}
