// A row of a work sheet: a label, and a value in a column with room for so many digits
// behind the point. What is longer than its column takes its length.

/// A whole number of a small unit as a decimal number: `decimals` of its digits stand
/// behind the point.
#[derive(Clone, Copy, Debug)]
pub struct Decimal {
    pub number: i128,
    pub decimals: u32,
}

impl Decimal {
    /// What stands before the point, and the digits behind it.
    fn parts(self) -> (String, String) {
        let sign = if self.number < 0 { "-" } else { "" };
        let unit = 10_u128.pow(self.decimals);
        let size = self.number.unsigned_abs();
        let behind = match self.decimals as usize {
            0 => String::new(),
            digits => format!("{:0digits$}", size % unit),
        };
        (format!("{sign}{}", size / unit), behind)
    }

    /// With a point, and no blanks around.
    pub fn bare(self) -> String {
        let (whole, behind) = self.parts();
        format!("{whole}.{behind}")
    }

    /// Where the point stands in the column, with `digits` places behind it.
    fn in_column(self, digits: usize) -> String {
        let (whole, behind) = self.parts();
        if behind.is_empty() {
            format!("{whole:>10} {:digits$}", "")
        } else {
            format!("{whole:>10}.{behind:<digits$}")
        }
    }
}

pub struct Row<'a> {
    /// The mark and the symbol.
    pub label: String,
    pub value: Decimal,
    pub unit: &'a str,
    pub words: &'a str,
}

/// A label with the mark of a row that is not marked, or of one that a refusal is about.
pub fn label(marked: bool, symbol: &str) -> String {
    format!("{}{symbol}", if marked { "> " } else { "  " })
}

impl Row<'_> {
    /// In a column with so many digits behind the point.
    pub fn line(&self, digits: usize) -> String {
        let Row { label, unit, words, .. } = self;
        let value = self.value.in_column(digits);
        if words.is_empty() {
            format!("{label:<13}{value}  {unit}\n")
        } else {
            format!("{label:<13}{value}  {unit:<10}{words}\n")
        }
    }
}
