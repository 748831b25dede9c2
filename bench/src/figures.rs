//! The tables of docs/BENCHMARKS.md, read back: the pictures are drawn from the figures that stand there.

pub struct Table {
    head: Vec<String>,
    rows: Vec<Vec<String>>,
}

fn cells(line: &str) -> Vec<String> {
    line.trim_matches('|').split(" | ").map(|cell| cell.trim().to_string()).collect()
}

impl Table {
    /// The first table whose head begins so.
    pub fn read(text: &str, head: &str) -> Result<Table, String> {
        let start = format!("| {head}");
        let mut lines = text.lines().skip_while(|line| !line.starts_with(&start));
        let head = cells(lines.next().ok_or(format!("no table that begins with '{start}'"))?);
        let rows: Vec<_> =
            lines.skip(1).take_while(|line| line.starts_with('|')).map(cells).collect();
        match rows.iter().all(|row| row.len() == head.len()) && !rows.is_empty() {
            true => Ok(Table { head, rows }),
            false => Err(format!("the table that begins with '{start}' has rows of other lengths")),
        }
    }

    /// What each row is called: its first cell, up to what is said about it.
    pub fn names(&self) -> Vec<&str> {
        self.rows.iter().map(|row| row[0].split(": ").next().unwrap_or_default()).collect()
    }

    /// The figures of a column; of a cell with two, the first.
    pub fn column(&self, at: usize) -> Result<Vec<f64>, String> {
        self.rows.iter().map(|row| figure(&row[at])).collect()
    }

    /// The nodes that a column is of, by its head.
    pub fn nodes(&self, at: usize) -> Result<f64, String> {
        let digits = self.head[at].strip_prefix("N = ").unwrap_or_default().replace(',', "");
        figure(&digits)
    }
}

fn figure(cell: &str) -> Result<f64, String> {
    let first = cell.split(", ").next().unwrap_or_default();
    first.parse().map_err(|_| format!("not a figure: '{cell}'"))
}
