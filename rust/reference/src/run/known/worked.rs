//! Document 01's worked cases, and refusals at other positions.

use crate::order::known::text::program;
use crate::program::lay_out;

use super::{answer, with_answer, Known, RunCase, CODE_BYTES};

/// A node and a leaf for each call, until 1,024 are open.
pub fn leaves_until_18() -> Known {
    let program = program("tree: Node, Leaf, Const 1, Call 0 on 0");
    let file = lay_out(&program.records());
    let wrote = [2, 1, 1, 0, 0, 0].repeat(1_024);
    let case = RunCase::new(&file, &[], u64::MAX, wrote.len(), CODE_BYTES);
    let answer = answer("refused 18, units 5119", wrote.len());
    with_answer("leaves until 18", case, &program, answer, &wrote)
}

pub const CASES: &str = "
Grow on T                 | tree: Case 0, Leaf, Add, Var 0, Const 1, Node, Call 0 on 1, Call 0 on 2 | input 02 01 05 00 00 00 01 07 00 00 00, room 11, fuel 25 | ended, units 25, read 11, wrote 02 01 06 00 00 00 01 08 00 00 00
Grow on T, fuel 24        | tree: Case 0, Leaf, Add, Var 0, Const 1, Node, Call 0 on 1, Call 0 on 2 | input 02 01 05 00 00 00 01 07 00 00 00, room 11, fuel 24 | refused 14, units 24, read 11, wrote 02 01 06 00 00 00 01 08 00 00 00
Grow on T, fuel 2         | tree: Case 0, Leaf, Add, Var 0, Const 1, Node, Call 0 on 1, Call 0 on 2 | input 02 01 05 00 00 00 01 07 00 00 00, room 11, fuel 2  | refused 14, units 2, read 1, wrote 02
Grow on T, fuel 0         | tree: Case 0, Leaf, Add, Var 0, Const 1, Node, Call 0 on 1, Call 0 on 2 | input 02 01 05 00 00 00 01 07 00 00 00, room 11, fuel 0  | refused 14, units 0
Grow on T, output of 10   | tree: Case 0, Leaf, Add, Var 0, Const 1, Node, Call 0 on 1, Call 0 on 2 | input 02 01 05 00 00 00 01 07 00 00 00, room 10, fuel 25 | refused 17, units 20, read 11, wrote 02 01 06 00 00 00 01
Grow on no input          | tree: Case 0, Leaf, Add, Var 0, Const 1, Node, Call 0 on 1, Call 0 on 2 | room 11, fuel 1                                          | refused 15, units 0
Grow on a label not whole | tree: Case 0, Leaf, Add, Var 0, Const 1, Node, Call 0 on 1, Call 0 on 2 | input 01 05 00 00, room 11, fuel 25                      | refused 15, units 1, read 1
Grow on no tag            | tree: Case 0, Leaf, Add, Var 0, Const 1, Node, Call 0 on 1, Call 0 on 2 | input 03, room 11, fuel 25                               | refused 16, units 0
swapped                   | tree: Case 0, Leaf, Var 0, Node, Call 0 on 2, Call 0 on 1               | input 02 01 05 00 00 00 01 07 00 00 00, room 11, fuel 25 | refused 11 at 6
a tree unread             | number: Case 0, Const 1, Call 0 on 1                                    | input 02 01 05 00 00 00 01 07 00 00 00, room 11, fuel 25 | refused 11 at 2
Call 0 on 0, fuel 1,023   | number: Call 0 on 0                                                     | fuel 1023                                                | refused 14, units 1023
Call 0 on 0, fuel 1,024   | number: Call 0 on 0                                                     | fuel 1024                                                | refused 18, units 1023
a tree by it, fuel 1,023  | tree: Call 0 on 0                                                       | fuel 1023                                                | refused 14, units 1023
a tree by it, fuel 1,024  | tree: Call 0 on 0                                                       | fuel 1024                                                | refused 18, units 1023
Sum                       | number: Case 0, Var 0, Add, Call 0 on 1, Call 0 on 2                    | input 02 01 ff ff ff 7f 01 01 00 00 00, fuel 17          | refused 21, units 15, read 11
Sum, fuel 16              | number: Case 0, Var 0, Add, Call 0 on 1, Call 0 on 2                    | input 02 01 ff ff ff 7f 01 01 00 00 00, fuel 16          | refused 21, units 15, read 11
Sum, fuel 15              | number: Case 0, Var 0, Add, Call 0 on 1, Call 0 on 2                    | input 02 01 ff ff ff 7f 01 01 00 00 00, fuel 15          | refused 14, units 15, read 11
";

pub const OTHERS: &str = "
bytes after the tree      | tree: Case 0, Leaf, Add, Var 0, Const 1, Node, Call 0 on 1, Call 0 on 2 | input 01 00 00 00 00 03 03, room 9                       | ended, units 10, read 5, wrote 01 01 00 00 00
the right tree missing    | tree: Case 0, Leaf, Add, Var 0, Const 1, Node, Call 0 on 1, Call 0 on 2 | input 02 01 00 00 00 00, room 11                         | refused 15, units 14, read 6, wrote 02 01 01 00 00 00
no tag at the right       | tree: Case 0, Leaf, Add, Var 0, Const 1, Node, Call 0 on 1, Call 0 on 2 | input 02 01 00 00 00 00 00, room 11                      | refused 16, units 14, read 6, wrote 02 01 01 00 00 00
no room for the node tag  | tree: Case 0, Leaf, Add, Var 0, Const 1, Node, Call 0 on 1, Call 0 on 2 | input 02, room 0                                         | refused 17, units 1, read 1
no room for the leaf tag  | tree: Case 0, Leaf, Add, Var 0, Const 1, Node, Call 0 on 1, Call 0 on 2 | input 01 00 00 00 00, room 0                             | refused 17, units 2, read 5
no room for the label     | tree: Case 0, Leaf, Add, Var 0, Const 1, Node, Call 0 on 1, Call 0 on 2 | input 01 00 00 00 00, room 1                             | refused 17, units 6, read 5, wrote 01
a leaf before its label   | tree: Leaf, Case 0, Var 0, Add, Call 1 on 1, Call 1 on 2 / number: Case 0, Const 1, Add, Call 1 on 1, Call 1 on 2 | input 03, room 5               | refused 16, units 1, read 0, wrote 01
a label made of tags      | tree: Case 0, Leaf, Add, Var 0, Const 1, Node, Call 0 on 1, Call 0 on 2 | input 01 02 02 02 02, room 5                             | ended, units 10, read 5, wrote 01 03 02 02 02
the greatest              | tree: Case 0, Leaf, Add, Var 0, Const 1, Node, Call 0 on 1, Call 0 on 2 | input 02 01 05 00 00 00 01 ff ff ff 7f, room 11          | refused 21, units 19, read 11, wrote 02 01 06 00 00 00 01
17 before 21              | tree: Case 0, Leaf, Add, Var 0, Const 1, Node, Call 0 on 1, Call 0 on 2 | input 02 01 05 00 00 00 01 ff ff ff 7f, room 6           | refused 17, units 16, read 11, wrote 02 01 06 00 00 00
21 with the leaf tag      | tree: Case 0, Leaf, Add, Var 0, Const 1, Node, Call 0 on 1, Call 0 on 2 | input 02 01 05 00 00 00 01 ff ff ff 7f, room 7           | refused 21, units 19, read 11, wrote 02 01 06 00 00 00 01
21 and no tree after      | number: Case 0, Var 0, Add, Call 0 on 1, Call 0 on 2                    | input 02 02 01 ff ff ff 7f 01 01 00 00 00 03             | refused 21, units 17, read 12
leaves until 17           | tree: Node, Leaf, Const 1, Call 0 on 0                                  | room 15                                                  | refused 17, units 13, wrote 02 01 01 00 00 00 02 01 01 00 00 00 02 01
";
