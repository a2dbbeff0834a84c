//! The exercise files that are kept, each beside the statement it comes to.

use crate::{examples, statements};

/// The name of a file and what makes its bytes.
pub type Made = (&'static str, fn() -> Vec<u8>);

/// The folders that keep files, and what is in each.
const FOLDERS: [(&str, &[Made]); 2] = [
    ("examples", &examples::ALL),
    ("tests/statements", &statements::ALL),
];

/// The bytes of a file, whichever folder it is in.
pub fn bytes(name: &str) -> Option<Vec<u8>> {
    let mut files = FOLDERS.iter().flat_map(|(_, files)| files.iter());
    let (_, make) = files.find(|(other, _)| *other == name)?;
    Some(make())
}

#[cfg(test)]
pub mod tests {
    use super::*;
    use crate::hour::statement;
    use std::collections::BTreeSet;
    use std::fs;

    fn path(file: &str) -> String {
        format!("{}/../../{file}", env!("CARGO_MANIFEST_DIR"))
    }

    pub fn text(file: &str) -> String {
        fs::read_to_string(path(file)).expect(file)
    }

    #[test]
    fn files_are_as_made() {
        for (folder, files) in FOLDERS {
            for (name, make) in files {
                let file = format!("{folder}/{name}.exercise");
                assert!(fs::read(path(&file)).expect(&file) == make(), "{file}");
            }
        }
    }

    /// The statements are worked apart from this engine.
    #[test]
    fn statements_are_as_expected() {
        for (folder, files) in FOLDERS {
            for (name, make) in files {
                let expected = text(&format!("{folder}/{name}.statement"));
                assert_eq!(statement(&make()), expected, "{folder}/{name}");
            }
        }
    }

    /// No exercise or statement is left over, and no two have the same name.
    #[test]
    fn folders_have_no_other_files() {
        let mut names = BTreeSet::new();
        for (folder, files) in FOLDERS {
            let made = files.iter().flat_map(|(name, _)| {
                assert!(names.insert(*name), "{name}");
                ["exercise", "statement"].map(|kind| format!("{name}.{kind}"))
            });
            let made: BTreeSet<String> = made.collect();
            let kept = fs::read_dir(path(folder)).unwrap();
            let kept = kept.map(|entry| entry.unwrap().file_name().into_string().unwrap());
            let is_made = |file: &String| {
                [".exercise", ".statement"]
                    .iter()
                    .any(|kind| file.ends_with(kind))
            };
            let kept: BTreeSet<String> = kept.filter(is_made).collect();
            assert_eq!(kept, made, "{folder}");
        }
    }
}
