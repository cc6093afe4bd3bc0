//! Tables in Markdown.

/// Prints a table: the names of its columns, then rows with a name each.
pub fn print(columns: &[&str], rows: &[(String, Vec<String>)]) {
    println!("\n| {} |", columns.join(" | "));
    println!("|---|{}", "---:|".repeat(columns.len() - 1));
    for (name, cells) in rows {
        println!("| {name} | {} |", cells.join(" | "));
    }
}
