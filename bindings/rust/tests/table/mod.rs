//! What `bindings/table` prints: the vectors of the tests in C, and the numbers of the header.

use std::env;
use std::fs;
use std::path::Path;
use std::process::Command;

/// The lines whose first field is `kind`, each as its further fields.
pub fn rows(kind: &str) -> Vec<Vec<String>> {
    let text = text();
    let fields = text.lines().map(|line| line.split('\t').map(String::from).collect::<Vec<_>>());
    let rows: Vec<_> = fields.filter(|row| row[0] == kind).map(|row| row[1..].to_vec()).collect();
    assert!(!rows.is_empty(), "the table has no {kind}");
    rows
}

/// The table: the file that `OER_TABLE` names, or else what the script prints.
fn text() -> String {
    if let Some(file) = env::var_os("OER_TABLE") {
        return fs::read_to_string(file).expect("OER_TABLE names a file");
    }
    let script = Path::new(env!("CARGO_MANIFEST_DIR")).join("../table");
    let made = Command::new(script).output().expect("bindings/table runs");
    assert!(made.status.success(), "bindings/table: {}", String::from_utf8_lossy(&made.stderr));
    String::from_utf8(made.stdout).expect("the table is text")
}
