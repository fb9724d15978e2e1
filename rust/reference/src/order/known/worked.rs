//! Document 01's worked programs, and document 000's of Figures 5 and 8.

use super::text::table;
use super::Known;

pub fn programs() -> Vec<Known> {
    table(PROGRAMS)
}

const PROGRAMS: &str = "
passed       | Grow              | tree: Case 0, Leaf, Add, Var 0, Const 1, Node, Call 0 on 1, Call 0 on 2
refused 11 6 | swapped           | tree: Case 0, Leaf, Var 0, Node, Call 0 on 2, Call 0 on 1
refused 11 2 | a tree unread     | number: Case 0, Const 1, Call 0 on 1
passed       | endless, a number | number: Call 0 on 0
passed       | endless, a tree   | tree: Call 0 on 0
passed       | Sum               | number: Case 0, Var 0, Add, Call 0 on 1, Call 0 on 2
refused 11 5 | right part first  | number: Case 0, Var 0, Add, Call 0 on 2, Call 0 on 1
passed       | every other level | tree: Case 0, Leaf, Var 0, Node, Case 1, Leaf, Add, Var 0, Const 1, Node, Call 0 on 3, Call 0 on 4, Case 2, Leaf, Add, Var 0, Const 1, Node, Call 0 on 3, Call 0 on 4
passed       | the right subtree | tree: Case 0, Leaf, Var 0, Let, Call 2 on 1, Call 1 on 2 / tree: Case 0, Leaf, Var 0, Node, Call 1 on 1, Call 1 on 2 / number: Case 0, Const 0, Let, Call 2 on 1, Call 2 on 2
";
