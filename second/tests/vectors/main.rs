// What the requests of the vectors must reach, a module for each call or theme. They are one program, so
// that the requests of an op are made and answered once.

#[path = "../common/mod.rs"]
mod common;

mod convert;
mod decode;
mod end_to_end;
mod lists;
mod misreadings;
mod protocol;
mod refusals;
mod sheets;
mod stream;
mod strips;
mod words;

/// A file that is not named above would be run by nobody.
#[test]
fn every_file_is_a_module() {
    let folder = concat!(env!("CARGO_MANIFEST_DIR"), "/tests/vectors");
    for entry in std::fs::read_dir(folder).unwrap() {
        let name = entry.unwrap().file_name().into_string().unwrap();
        let module = name.strip_suffix(".rs").expect("a file of Rust");
        let named = include_str!("main.rs").contains(&format!("\nmod {module};\n"));
        assert!(named || name == "main.rs", "{name}");
    }
}
