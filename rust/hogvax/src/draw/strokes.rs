//! The characters of a drawing.

/// What a drawing is made of.
#[derive(Clone, Copy, Debug, PartialEq, Eq)]
pub enum Strokes {
    /// Box-drawing characters.
    Lines,
    /// The characters `+`, `-` and `|`.
    Ascii,
}

impl Strokes {
    fn pick(self, line: char, ascii: char) -> char {
        match self {
            Strokes::Lines => line,
            Strokes::Ascii => ascii,
        }
    }

    /// A part of a branch, or a blank.
    pub(super) fn across(self, is_there: bool) -> char {
        if is_there {
            self.pick('─', '-')
        } else {
            ' '
        }
    }

    /// A part of the stroke from a fork's left branch down to its right one,
    /// or a blank.
    pub(super) fn down(self, is_there: bool) -> char {
        if is_there {
            self.pick('│', '|')
        } else {
            ' '
        }
    }

    /// Where the left or the right branch of a fork begins.
    pub(super) fn corner(self, right: bool) -> char {
        self.pick(if right { '└' } else { '┌' }, '+')
    }

    /// Where the branch to a fork ends.
    pub(super) fn fork(self) -> char {
        self.pick('┤', '+')
    }
}
