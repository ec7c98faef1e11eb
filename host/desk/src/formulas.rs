//! Formulas as they are typed, over the numbers of propositions, and their text.

/// A formula: its parts are numbers of other formulas in the same list, each lower than its own.
#[derive(Clone, Copy, Debug, PartialEq, Eq)]
pub enum Formula {
    /// TRUE.
    True,
    /// FALSE.
    False,
    /// The label with this proposition's number.
    Label(u8),
    /// `! f`.
    Not(usize),
    /// `f & g`.
    And(usize, usize),
    /// `f | g`.
    Or(usize, usize),
    /// `f -> g`.
    Implies(usize, usize),
    /// `AX f`.
    Next(usize),
    /// `AG f`.
    Always(usize),
    /// `AF f`.
    Finally(usize),
    /// `A [ f U g ]`.
    Until(usize, usize),
}

impl Formula {
    /// The numbers of its parts, the left one first.
    pub fn parts(self) -> Vec<usize> {
        match self {
            Formula::True | Formula::False | Formula::Label(_) => vec![],
            Formula::Not(f) | Formula::Next(f) | Formula::Always(f) | Formula::Finally(f) => {
                vec![f]
            }
            Formula::And(f, g)
            | Formula::Or(f, g)
            | Formula::Implies(f, g)
            | Formula::Until(f, g) => vec![f, g],
        }
    }

    /// How close it binds: the closest parts, `&`, `|`, `->`.
    fn binding(self) -> u8 {
        match self {
            Formula::Implies(..) => 0,
            Formula::Or(..) => 1,
            Formula::And(..) => 2,
            _ => 3,
        }
    }
}

/// A text longer than so many formulas is not written out.
const MOST_WRITTEN: usize = 400;

/// A list of formulas, each behind its parts. Parts may be shared.
#[derive(Clone, Debug, Default, PartialEq, Eq)]
pub struct Formulas {
    list: Vec<Formula>,
    /// How many formulas each has with its parts, written out.
    sizes: Vec<usize>,
}

impl Formulas {
    /// Puts a formula behind the others, and answers its number. Two negations are none.
    pub fn add(&mut self, formula: Formula) -> usize {
        if let Formula::Not(negated) = formula {
            if let Formula::Not(part) = self.list[negated] {
                return part;
            }
        }
        let parts = formula.parts();
        assert!(
            parts.iter().all(|&part| part < self.list.len()),
            "a formula stands behind its parts"
        );
        let size = parts.iter().fold(1usize, |size, &part| size.saturating_add(self.sizes[part]));
        self.list.push(formula);
        self.sizes.push(size);
        self.list.len() - 1
    }

    /// The formula with this number.
    pub fn at(&self, number: usize) -> Formula {
        self.list[number]
    }

    /// How many there are.
    pub fn len(&self) -> usize {
        self.list.len()
    }

    /// Whether there are none.
    pub fn is_empty(&self) -> bool {
        self.list.is_empty()
    }

    /// Whether a formula has a temporal part or is one.
    pub fn temporal(&self, number: usize) -> bool {
        let mut temporal = vec![false; number + 1];
        for at in 0..=number {
            temporal[at] = match self.list[at] {
                Formula::Next(_)
                | Formula::Always(_)
                | Formula::Finally(_)
                | Formula::Until(..) => true,
                other => other.parts().iter().any(|&part| temporal[part]),
            };
        }
        temporal[number]
    }

    /// The text of a formula, in which labels are called as `name` says; one that is too long to be
    /// written out is called by its number.
    pub fn text(&self, number: usize, name: &dyn Fn(u8) -> String) -> String {
        if self.sizes[number] > MOST_WRITTEN {
            return format!("formula {number}");
        }
        let part = |part: usize, least: u8| {
            let text = self.text(part, name);
            if self.list[part].binding() < least {
                format!("({text})")
            } else {
                text
            }
        };
        match self.list[number] {
            Formula::True => "TRUE".to_string(),
            Formula::False => "FALSE".to_string(),
            Formula::Label(label) => name(label),
            Formula::Not(f) => format!("!{}", part(f, 3)),
            Formula::And(f, g) => format!("{} & {}", part(f, 2), part(g, 3)),
            Formula::Or(f, g) => format!("{} | {}", part(f, 1), part(g, 2)),
            Formula::Implies(f, g) => format!("{} -> {}", part(f, 1), part(g, 0)),
            Formula::Next(f) => format!("AX {}", part(f, 3)),
            Formula::Always(f) => format!("AG {}", part(f, 3)),
            Formula::Finally(f) => format!("AF {}", part(f, 3)),
            Formula::Until(f, g) => format!("A [ {} U {} ]", part(f, 0), part(g, 0)),
        }
    }

    /// The text that the library reads: labels are `p0` to `p47`.
    pub fn typed(&self, number: usize) -> String {
        self.text(number, &|label| format!("p{label}"))
    }
}
