//! The vectors, worked by others, for the unit tests of each call.

/// The cases of a call, each with its line number and fields.
pub fn read(call: &str) -> Vec<(usize, Vec<String>)> {
    let path = format!("{}/../vectors/{call}.tsv", env!("CARGO_MANIFEST_DIR"));
    let text = std::fs::read_to_string(path).unwrap();
    let fields = |line: &str| line.split('\t').map(str::to_string).collect();
    (1..)
        .zip(text.lines())
        .filter(|(_, line)| !line.starts_with('#'))
        .map(|(number, line)| (number, fields(line)))
        .collect()
}
