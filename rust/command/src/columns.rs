//! Rows whose cells stand under each other.

pub struct Columns(Vec<usize>);

impl Columns {
    /// Columns of these widths.
    pub fn new(widths: impl IntoIterator<Item = usize>) -> Columns {
        Columns(widths.into_iter().collect())
    }

    /// A row, which ends with its last cell that has anything in it.
    pub fn row<S: AsRef<str>>(&self, cells: impl IntoIterator<Item = S>) -> String {
        let padded = self.0.iter().zip(cells).map(|(&width, cell)| format!("{:width$}", cell.as_ref()));
        padded.collect::<Vec<_>>().join(" ").trim_end().to_string() + "\n"
    }
}

/// Rows of as many cells each, their columns as wide as need be.
pub fn table(rows: &[Vec<String>]) -> String {
    let cells = rows.first().map_or(0, Vec::len);
    let columns = Columns::new((0..cells).map(|column| widest(rows.iter().map(|row| &row[column]))));
    rows.iter().map(|row| columns.row(row)).collect()
}

/// The width of the widest.
pub fn widest<S: AsRef<str>>(cells: impl IntoIterator<Item = S>) -> usize {
    cells.into_iter().map(|cell| cell.as_ref().chars().count()).max().unwrap_or(0)
}
