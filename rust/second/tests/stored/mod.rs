//! The files of examples/planar_code.

use std::fs;

/// A file that holds one net.
pub struct Example {
    pub name: String,
    pub bytes: Vec<u8>,
}

impl Example {
    /// Whether the net is taken: all are but those named `no_..`.
    pub fn is_taken(&self) -> bool {
        !self.name.starts_with("no_")
    }
}

/// All of them, by name; some dozens, and some of them aren't taken.
pub fn examples() -> Vec<Example> {
    let folder = concat!(env!("CARGO_MANIFEST_DIR"), "/../../examples/planar_code");
    let mut examples = Vec::new();
    for entry in fs::read_dir(folder).unwrap() {
        let entry = entry.unwrap();
        let name = entry.file_name().into_string().unwrap();
        if name.ends_with(".pc") {
            let bytes = fs::read(entry.path()).unwrap();
            examples.push(Example { name, bytes });
        }
    }
    examples.sort_by(|one, two| one.name.cmp(&two.name));
    let taken = examples.iter().filter(|example| example.is_taken()).count();
    assert!(taken >= 50 && examples.len() >= taken + 5);
    examples
}
