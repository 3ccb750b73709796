// Linear equations over GF(2), kept in echelon form by plain Gaussian elimination.
// One bool for each unknown; an equation says that the XOR of the marked unknowns is a value.

#[derive(Clone)]
struct Equation {
    unknowns: Vec<bool>,
    value: bool,
}

/// A consistent system; the equation in row p, if any, has p as its first unknown.
#[derive(Clone)]
pub struct System {
    rows: Vec<Option<Equation>>,
}

impl System {
    /// No equation yet.
    pub fn new(unknowns: usize) -> System {
        System {
            rows: vec![None; unknowns],
        }
    }

    /// What is left of an equation when the rows have been taken off it.
    fn reduced(&self, unknowns: &[bool], value: bool) -> Equation {
        let mut unknowns = unknowns.to_vec();
        let mut value = value;
        for (p, row) in self.rows.iter().enumerate() {
            if let (true, Some(row)) = (unknowns[p], row) {
                for (mine, theirs) in unknowns.iter_mut().zip(&row.unknowns) {
                    *mine ^= theirs;
                }
                value ^= row.value;
            }
        }
        Equation { unknowns, value }
    }

    /// Adds an equation; false, and nothing added, if it contradicts the others.
    pub fn add(&mut self, unknowns: &[bool], value: bool) -> bool {
        let equation = self.reduced(unknowns, value);
        match equation.unknowns.iter().position(|&bit| bit) {
            Some(p) => {
                self.rows[p] = Some(equation);
                true
            }
            None => !equation.value,
        }
    }

    /// The XOR of the marked unknowns where it is the same in every solution.
    pub fn fixed(&self, unknowns: &[bool]) -> Option<bool> {
        let left = self.reduced(unknowns, false);
        (!left.unknowns.contains(&true)).then_some(left.value)
    }

    /// The number of solutions is 2 to this.
    pub fn dimension(&self) -> usize {
        self.rows.iter().filter(|row| row.is_none()).count()
    }
}

/// The one unknown i marked.
pub fn unit(length: usize, i: usize) -> Vec<bool> {
    (0..length).map(|k| k == i).collect()
}
