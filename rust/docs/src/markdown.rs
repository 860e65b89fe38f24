//! The tables of a document.

/// A table: the names of its columns, and its rows.
#[derive(Debug, PartialEq, Eq)]
pub struct Table {
    pub head: Vec<String>,
    pub rows: Vec<Vec<String>>,
}

impl Table {
    /// The cells of some columns, row by row; none where a column of the name is missing.
    pub fn columns<const N: usize>(&self, names: [&str; N]) -> Option<Vec<[&str; N]>> {
        let mut at = [0; N];
        for (at, name) in at.iter_mut().zip(names) {
            *at = self.head.iter().position(|head| head == name)?;
        }
        Some(self.rows.iter().map(|row| at.map(|at| row.get(at).map_or("", String::as_str))).collect())
    }
}

/// The tables of a text, whose lines may be comments of Rust.
pub fn tables(text: &str) -> Vec<Table> {
    let mut tables = Vec::new();
    let mut open = false;
    for line in text.lines() {
        let line = line.trim_start().trim_start_matches("///").trim();
        let Some(inner) = line.strip_prefix('|').and_then(|line| line.strip_suffix('|')) else {
            open = false;
            continue;
        };
        let cells: Vec<String> = inner.split('|').map(|cell| cell.trim().to_string()).collect();
        match tables.last_mut() {
            Some(Table { rows, .. }) if open => rows.push(cells),
            _ => tables.push(Table { head: cells, rows: Vec::new() }),
        }
        open = true;
    }
    for table in &mut tables {
        // The line below the head.
        table.rows.retain(|row| !row.iter().all(|cell| cell.chars().all(|c| "-:".contains(c))));
    }
    tables
}

/// The names in backticks.
pub fn names(cell: &str) -> Vec<&str> {
    cell.split('`').skip(1).step_by(2).collect()
}

#[cfg(test)]
mod tests {
    use super::*;

    #[test]
    fn tables_are_found_in_texts_and_comments() {
        let text = "Words.\n\n| A | B |\n|---|---|\n| 1 | `x`, `y` |\n| 2 | |\n\n    /// | C |\n    /// |---|\n    /// | 3 |\n";
        let tables = tables(text);
        assert_eq!(tables.len(), 2);
        assert_eq!(tables[0].columns(["B", "A"]), Some(vec![["`x`, `y`", "1"], ["", "2"]]));
        assert_eq!(tables[0].columns(["C"]), None);
        assert_eq!(tables[1].columns(["C"]), Some(vec![["3"]]));
        assert_eq!(names(&tables[0].rows[0][1]), ["x", "y"]);
    }
}
