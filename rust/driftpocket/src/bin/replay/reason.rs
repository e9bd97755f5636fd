//! What is wrong with a place in a text, for a person.

/// What stands somewhere, and what was expected there.
#[derive(Clone, Debug, PartialEq, Eq)]
pub struct Reason {
    /// What stands there.
    pub found: String,
    /// What was expected there.
    pub expected: String,
}

impl Reason {
    /// A reason of these two.
    pub fn new(found: String, expected: impl Into<String>) -> Reason {
        let expected = expected.into();
        Reason { found, expected }
    }

    /// The reason as lines to be shown.
    pub fn lines(&self) -> [String; 2] {
        let Reason { found, expected } = self;
        [
            format!("  there: {found}"),
            format!("  expected: {expected}"),
        ]
    }
}
