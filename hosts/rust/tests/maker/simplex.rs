//! Linear equations in non-negative unknowns, solved exactly: phase one of the simplex method on whole numbers.

/// A solution over one denominator, or prices by which none exists.
pub enum Solved {
    Values(i64, Vec<i64>),
    Prices(Vec<i64>),
}

/// One row for each equation and one for the costs. An unknown's value and a cost are cells over the common denominator, the last pivot.
struct Tableau {
    rows: Vec<Vec<i64>>,
    basis: Vec<usize>,
    denominator: i64,
}

/// The unknowns' columns are lists of (equation, factor), the right sides are not negative. Equations are weighed by positive weights:
/// other weights, or another order of the columns, lead to other solutions and other prices. The prices y have y·column at most 0 for
/// each column and y·right above 0. None where a number leaves 64 bits.
pub fn solve(columns: &[Vec<(usize, i64)>], right: &[i64], weights: &[i64]) -> Option<Solved> {
    let (unknowns, equations) = (columns.len(), right.len());
    let mut rows = vec![vec![0; unknowns + equations + 1]; equations + 1];
    for (j, column) in columns.iter().enumerate() {
        for &(i, factor) in column {
            rows[i][j] += factor;
            rows[equations][j] -= weights[i] * factor;
        }
    }
    for i in 0..equations {
        rows[i][unknowns + i] = 1;
        rows[i][unknowns + equations] = right[i];
        rows[equations][unknowns + equations] -= weights[i] * right[i];
    }
    let mut tableau = Tableau { rows, basis: (unknowns..unknowns + equations).collect(), denominator: 1 };
    while let Some(entering) = tableau.rows[equations][..unknowns].iter().position(|&cost| cost < 0) {
        let leaving = tableau.leaving(entering);
        tableau.pivot(leaving, entering)?;
    }
    let Tableau { rows, basis, denominator } = tableau;
    if rows[equations][unknowns + equations] != 0 {
        let price = |i: usize| weights[i].checked_mul(denominator)?.checked_sub(rows[equations][unknowns + i]);
        return (0..equations).map(price).collect::<Option<_>>().map(Solved::Prices);
    }
    let mut values = vec![0; unknowns];
    for (row, &j) in rows.iter().zip(&basis).filter(|(_, &j)| j < unknowns) {
        values[j] = row[unknowns + equations];
    }
    Some(Solved::Values(denominator, values))
}

impl Tableau {
    /// The row that bounds the entering unknown most; of equal ones that of the first unknown, so that no basis comes twice (Bland).
    fn leaving(&self, entering: usize) -> usize {
        let last = self.rows[0].len() - 1;
        let ratio = |i: usize, k: usize| i128::from(self.rows[i][last]) * i128::from(self.rows[k][entering]);
        (0..self.basis.len())
            .filter(|&i| self.rows[i][entering] > 0)
            .min_by(|&i, &k| ratio(i, k).cmp(&ratio(k, i)).then(self.basis[i].cmp(&self.basis[k])))
            .expect("the costs are bounded")
    }

    /// Cells stay whole: each is a minor of the first tableau, so the division leaves no remainder.
    fn pivot(&mut self, leaving: usize, entering: usize) -> Option<()> {
        let line = std::mem::take(&mut self.rows[leaving]);
        let (pivot, before) = (line[entering], self.denominator);
        for row in self.rows.iter_mut().filter(|row| !row.is_empty()) {
            let factor = row[entering];
            if factor == 0 && pivot == before {
                continue;
            }
            for (cell, &across) in row.iter_mut().zip(&line) {
                if *cell != 0 || (factor != 0 && across != 0) {
                    let product = i128::from(*cell) * i128::from(pivot);
                    *cell = divided(product.checked_sub(i128::from(factor) * i128::from(across))?, before)?;
                }
            }
        }
        self.rows[leaving] = line;
        self.basis[leaving] = entering;
        self.denominator = pivot;
        Some(())
    }
}

fn divided(number: i128, by: i64) -> Option<i64> {
    match i64::try_from(number) {
        Ok(short) => Some(if by == 1 { short } else { short / by }),
        Err(_) => i64::try_from(number / i128::from(by)).ok(),
    }
}
