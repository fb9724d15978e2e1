//! Drawings read back as trees.

use hogvax::draw::Strokes;
use reference::Tree;

/// A drawing, as it is read.
struct Picture {
    lines: Vec<Vec<char>>,
    across: char,
    down: char,
    /// A fork's left corner, its right corner, and the fork itself.
    fork: [char; 3],
    /// The characters that were read.
    seen: usize,
    /// The lines of the tips, in order.
    tips: Vec<usize>,
}

impl Picture {
    fn new(drawing: &str, strokes: Strokes) -> Picture {
        let (across, down, fork) = match strokes {
            Strokes::Lines => ('─', '│', ['┌', '└', '┤']),
            Strokes::Ascii => ('-', '|', ['+'; 3]),
        };
        Picture {
            lines: drawing.lines().map(|line| line.chars().collect()).collect(),
            across,
            down,
            fork,
            seen: 0,
            tips: Vec::new(),
        }
    }

    fn at(&self, line: usize, column: usize) -> char {
        let line = self.lines.get(line);
        let character = line.and_then(|line| line.get(column));
        character.copied().unwrap_or(' ')
    }

    /// The tree whose branch begins here and goes right.
    fn tree(&mut self, line: usize, mut column: usize) -> Tree {
        while self.at(line, column) == self.across {
            self.seen += 1;
            column += 1;
        }
        if self.at(line, column) == ' ' {
            return self.tip(line, column + 1);
        }
        assert_eq!(self.at(line, column), self.fork[2]);
        self.seen += 1;
        let upper = self.corner(line, column, |line| line.wrapping_sub(1), self.fork[0]);
        let left = self.tree(upper, column + 1);
        let lower = self.corner(line, column, |line| line + 1, self.fork[1]);
        let right = self.tree(lower, column + 1);
        Tree::node(left, right)
    }

    /// The line of a fork's corner, above or below.
    fn corner(&mut self, line: usize, column: usize, next: fn(usize) -> usize, at: char) -> usize {
        let mut line = next(line);
        while self.at(line, column) == self.down {
            self.seen += 1;
            line = next(line);
        }
        assert_eq!(self.at(line, column), at, "line {line} column {column}");
        self.seen += 1;
        line
    }

    fn tip(&mut self, line: usize, column: usize) -> Tree {
        let label: String = self.lines[line][column..].iter().collect();
        self.seen += label.len();
        self.tips.push(line);
        Tree::leaf(label.parse().unwrap())
    }
}

/// The tree that a drawing shows. There is nothing else on it, and the tips
/// stand in order.
pub fn read_back(drawing: &str, strokes: Strokes) -> Tree {
    let mut picture = Picture::new(drawing, strokes);
    let is_root = |line: &Vec<char>| line[0] == picture.across;
    let roots: Vec<usize> = (0..picture.lines.len())
        .filter(|&line| is_root(&picture.lines[line]))
        .collect();
    assert_eq!(roots.len(), 1, "{drawing}");
    let tree = picture.tree(roots[0], 0);
    let characters = drawing
        .chars()
        .filter(|character| !character.is_whitespace());
    assert_eq!(picture.seen, characters.count(), "{drawing}");
    assert!(
        picture.tips.is_sorted_by(|one, next| one < next),
        "{drawing}"
    );
    tree
}
