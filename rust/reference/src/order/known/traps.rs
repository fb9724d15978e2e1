//! What is easily got wrong: names, types, the order of trees, and which of
//! several faults is reported.

use super::text::table;
use super::Known;

pub fn programs() -> Vec<Known> {
    [NAMES, TYPES, ORDER, SEVERAL_FAULTS]
        .into_iter()
        .flat_map(table)
        .collect()
}

/// Names count along the path.
const NAMES: &str = "
passed       | sister parts                  | number: Case 0, Const 1, Add, Case 1, Const 1, Add, Call 0 on 3, Call 0 on 4, Case 2, Const 1, Add, Call 0 on 3, Call 0 on 4
refused 9 13 | names of a sister part        | number: Case 0, Const 1, Add, Case 1, Const 1, Add, Call 0 on 3, Call 0 on 4, Case 2, Const 1, Add, Call 0 on 5, Call 0 on 6
refused 9 3  | no tree name in a leaf part   | number: Case 0, Call 0 on 1, Const 1
refused 9 4  | no number name in a node part | number: Case 0, Const 1, Var 0
refused 9 3  | Let's name in its own number  | number: Let, Var 0, Const 1
passed       | Let's name in its body        | number: Let, Call 0 on 0, Var 0
refused 9 2  | a Call's name not bound       | number: Call 0 on 1
refused 9 2  | a Case's name not bound       | number: Case 1, Const 1, Const 1
refused 9 4  | a number parameter too many   | tree: Call 0 on 0 / number 2: Var 2
passed       | the last number parameter     | tree: Call 0 on 0 / number 2: Add, Var 1, Call 1 on 0, Var 0, Var 1
";

/// Number and tree, each in the other's place.
const TYPES: &str = "
refused 9 2 | 9 before 8 at a Var      | tree: Var 0
refused 9 3 | 9 before 8 at a Call     | tree: Leaf, Call 0 on 1
refused 8 2 | a number for a tree      | tree: Add, Const 1, Const 1
refused 8 2 | a tree for a number      | number: Node, Leaf, Const 1, Leaf, Const 1
refused 8 3 | a tree as a test         | tree: IfZero, Leaf, Const 1, Leaf, Const 1, Call 0 on 0
refused 8 3 | a tree as Let's number   | tree: Let, Leaf, Const 1, Call 0 on 0
refused 8 3 | a tree in a leaf         | tree: Leaf, Leaf, Const 1
refused 8 5 | a number in a node       | tree: Node, Leaf, Const 1, Const 1
refused 8 4 | a branch of another type | number: IfZero, Const 1, Leaf, Const 1, Call 0 on 0
refused 8 3 | a leaf part that is none | tree: Case 0, Const 1, Call 0 on 1
refused 8 4 | a tree as an argument    | number: Call 1 on 0, Leaf, Const 1 / number 1: Call 1 on 0, Var 0
refused 8 3 | a Call that gives a tree | number: Call 1 on 0 / tree: Call 1 on 0
";

/// The order of the trees.
const ORDER: &str = "
passed       | an argument takes the tree before  | number: Case 0, Var 0, Call 1 on 2, Call 0 on 1 / number 1: Case 0, Var 1, Call 1 on 2, Call 1 on 1, Var 0
refused 11 6 | an argument takes the tree behind  | number: Case 0, Var 0, Call 1 on 1, Call 0 on 2 / number 1: Case 0, Var 1, Call 1 on 2, Call 1 on 1, Var 0
refused 11 5 | an argument takes the same tree    | number: Case 0, Var 0, Call 1 on 1, Call 0 on 1 / number 1: Case 0, Var 1, Call 1 on 2, Call 1 on 1, Var 0
refused 11 6 | the second branch's fault          | number: Case 0, Const 1, Add, Call 0 on 1, Call 0 on 1
refused 11 4 | the inner lists first              | number: Case 0, Const 1, Case 1, Call 0 on 2, Add, Call 0 on 3, Call 0 on 4
passed       | the leaf part takes what is behind | number: Case 0, Const 1, Case 1, Call 0 on 2, Add, Add, Call 0 on 3, Call 0 on 4, Call 0 on 2
refused 11 2 | a branch that leaves a tree        | tree: Case 0, Leaf, Const 1, Call 0 on 1
refused 11 2 | the zero part takes none           | number: IfZero, Const 1, Const 1, Call 0 on 0
refused 11 2 | the other part takes none          | number: IfZero, Const 1, Call 0 on 0, Const 1
passed       | the test takes                     | number: IfZero, Call 0 on 0, Const 1, Const 1
refused 11 4 | the test has taken                 | number: IfZero, Call 0 on 0, Call 0 on 0, Const 1
passed       | Let's number takes                 | number: Let, Call 0 on 0, Const 1
passed       | Let's body takes                   | number: Let, Const 1, Call 0 on 0
refused 11 2 | a tree left                        | number: Const 1
refused 11 2 | a leaf, and a tree left            | tree: Leaf, Const 1
refused 11 2 | both branches leave the same       | number: IfZero, Const 1, Const 1, Const 1
refused 11 4 | a Call with none pending           | number: Add, Call 0 on 0, Call 0 on 0
refused 11 4 | a Case with none pending           | number: Add, Call 0 on 0, Case 0, Const 1, Const 1
refused 11 6 | a tree taken apart and taken again | number: Case 0, Const 1, Add, Call 0 on 1, Call 0 on 0
refused 11 4 | a tree taken before its sister     | number: Case 0, Const 1, Case 2, Call 0 on 1, Add, Call 0 on 3, Call 0 on 4
";

/// Which of several faults is reported.
const SEVERAL_FAULTS: &str = "
refused 9 4  | pass one of the last function first | number: Const 1 / number: Var 0
refused 8 3  | pass one's lowest record            | number: Add, Leaf, Const 1, Var 0
refused 8 3  | pass one of both functions          | number: Leaf, Const 1 / number: Var 0
refused 11 3 | pass two of both functions          | number: Const 1 / number: Const 1
refused 11 4 | a function that none calls          | number: Call 0 on 0 / number: Const 1
refused 11 7 | pass two of the second function     | number: Call 0 on 0 / number: Case 0, Const 1, Add, Call 0 on 2, Call 0 on 1
refused 11 3 | trees left before the next function | number: Const 1 / number: Case 0, Const 1, Add, Call 0 on 2, Call 0 on 1
refused 11 6 | an order fault before trees left    | number: Case 0, Const 1, Add, Call 0 on 2, Call 0 on 1 / number: Const 1
refused 8 7  | a later record's 8 before 11        | tree: Case 0, Leaf, Const 1, Node, Call 0 on 2, Const 1
refused 11 6 | an argument's fault before its Call | number: Add, Call 0 on 0, Call 1 on 0, Case 0, Const 1, Const 1 / number 1: Call 1 on 0, Var 0
";
