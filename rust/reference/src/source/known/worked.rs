//! Document 01's worked cases, and refusals at other positions.

pub const CASES: &str = "
Grow on T                 | tree: Case 0, Leaf, Add, Var 0, Const 1, Node, Call 0 on 1, Call 0 on 2 | input 02 01 05 00 00 00 01 07 00 00 00, room 11, fuel 14 | ended, begun 14, tips 2, depth 1, wrote 02 01 06 00 00 00 01 08 00 00 00
Grow on T, fuel 13        | tree: Case 0, Leaf, Add, Var 0, Const 1, Node, Call 0 on 1, Call 0 on 2 | input 02 01 05 00 00 00 01 07 00 00 00, room 11, fuel 13 | refused 14 at 0, begun 13
Grow on T, fuel 1         | tree: Case 0, Leaf, Add, Var 0, Const 1, Node, Call 0 on 1, Call 0 on 2 | input 02 01 05 00 00 00 01 07 00 00 00, room 11, fuel 1  | refused 14 at 0, begun 1
Grow on T, fuel 0         | tree: Case 0, Leaf, Add, Var 0, Const 1, Node, Call 0 on 1, Call 0 on 2 | input 02 01 05 00 00 00 01 07 00 00 00, room 11, fuel 0  | refused 14 at 0
Grow on T, much fuel      | tree: Case 0, Leaf, Add, Var 0, Const 1, Node, Call 0 on 1, Call 0 on 2 | input 02 01 05 00 00 00 01 07 00 00 00, room 12          | ended, begun 14, tips 2, depth 1, wrote 02 01 06 00 00 00 01 08 00 00 00
Grow on T, output of 10   | tree: Case 0, Leaf, Add, Var 0, Const 1, Node, Call 0 on 1, Call 0 on 2 | input 02 01 05 00 00 00 01 07 00 00 00, room 10, fuel 14 | refused 17 at 0, begun 14
Grow on T, no output      | tree: Case 0, Leaf, Add, Var 0, Const 1, Node, Call 0 on 1, Call 0 on 2 | input 02 01 05 00 00 00 01 07 00 00 00, fuel 14          | refused 17 at 0, begun 14
Grow on no input          | tree: Case 0, Leaf, Add, Var 0, Const 1, Node, Call 0 on 1, Call 0 on 2 | room 11, fuel 1                                          | refused 15 at 0
Grow on a label not whole | tree: Case 0, Leaf, Add, Var 0, Const 1, Node, Call 0 on 1, Call 0 on 2 | input 01 05 00 00, room 11, fuel 14                      | refused 15 at 1
Grow on no tag            | tree: Case 0, Leaf, Add, Var 0, Const 1, Node, Call 0 on 1, Call 0 on 2 | input 03, room 11, fuel 14                               | refused 16 at 0
Call 0 on 0, fuel 1,023   | number: Call 0 on 0                                                     | input 01 00 00 00 00, fuel 1023                          | refused 14 at 0, begun 1023
Call 0 on 0, fuel 1,024   | number: Call 0 on 0                                                     | input 01 00 00 00 00, fuel 1024                          | refused 18 at 0, begun 1024
Call 0 on 0, much fuel    | number: Call 0 on 0                                                     | input 01 00 00 00 00                                     | refused 18 at 0, begun 1024
a tree by it, fuel 1,023  | tree: Call 0 on 0                                                       | input 01 00 00 00 00, fuel 1023                          | refused 14 at 0, begun 1023
a tree by it, fuel 1,024  | tree: Call 0 on 0                                                       | input 01 00 00 00 00, fuel 1024                          | refused 18 at 0, begun 1024
Call 0 on 0 on no input   | number: Call 0 on 0                                                     | fuel 1024                                                | refused 15 at 0
Sum                       | number: Case 0, Var 0, Add, Call 0 on 1, Call 0 on 2                    | input 02 01 ff ff ff 7f 01 01 00 00 00, fuel 8           | refused 21 at 4, begun 8
Sum, fuel 7               | number: Case 0, Var 0, Add, Call 0 on 1, Call 0 on 2                    | input 02 01 ff ff ff 7f 01 01 00 00 00, fuel 7           | refused 14 at 0, begun 7
Sum with output           | number: Case 0, Var 0, Add, Call 0 on 1, Call 0 on 2                    | input 02 01 ff ff ff 7f 01 01 00 00 00, room 9           | refused 21 at 4, begun 8
Sum, much fuel            | number: Case 0, Var 0, Add, Call 0 on 1, Call 0 on 2                    | input 02 01 ff ff ff 7f 01 01 00 00 00                   | refused 21 at 4, begun 8
Sum of a broken tree      | number: Case 0, Var 0, Add, Call 0 on 1, Call 0 on 2                    | input 02 01 ff ff ff 7f 01 01 00 00                      | refused 15 at 7
";

/// "The source run needs pass one only".
pub const NOT_IN_ORDER: &str = "
swapped, fuel 10       | tree: Case 0, Leaf, Var 0, Node, Call 0 on 2, Call 0 on 1                                                                         | input 02 01 05 00 00 00 01 07 00 00 00, room 11, fuel 10 | ended, begun 10, tips 2, depth 1, wrote 02 01 07 00 00 00 01 05 00 00 00
swapped, fuel 9        | tree: Case 0, Leaf, Var 0, Node, Call 0 on 2, Call 0 on 1                                                                         | input 02 01 05 00 00 00 01 07 00 00 00, room 11, fuel 9  | refused 14 at 0, begun 9
swapped, output of 10  | tree: Case 0, Leaf, Var 0, Node, Call 0 on 2, Call 0 on 1                                                                         | input 02 01 05 00 00 00 01 07 00 00 00, room 10          | refused 17 at 0, begun 10
the left leaf          | number: Case 0, Const 1, Call 0 on 1                                                                                              | input 02 01 05 00 00 00 01 07 00 00 00                   | ended with 1, begun 4, tips 2, depth 1
the left leaf's label  | number: Case 0, Var 0, Call 0 on 1                                                                                                | input 02 01 05 00 00 00 01 07 00 00 00                   | ended with 5, begun 4, tips 2, depth 1
the right leaf's label | number: Case 0, Var 0, Call 0 on 2                                                                                                | input 02 01 05 00 00 00 01 07 00 00 00                   | ended with 7, begun 4, tips 2, depth 1
the right part first   | number: Case 0, Var 0, Add, Call 0 on 2, Call 0 on 1                                                                              | input 02 01 05 00 00 00 01 07 00 00 00                   | ended with 12, begun 8, tips 2, depth 1
nothing read           | tree: Leaf, Const 9                                                                                                               | input 02 01 05 00 00 00 01 07 00 00 00, room 5           | ended, begun 2, tips 2, depth 1, wrote 01 09 00 00 00
each tree twice        | tree: Case 0, Leaf, Var 0, Node, Node, Call 0 on 1, Call 0 on 1, Node, Call 0 on 2, Call 0 on 2                                   | input 02 01 05 00 00 00 01 07 00 00 00, room 23          | ended, begun 20, tips 2, depth 1, wrote 02 02 01 05 00 00 00 01 05 00 00 00 02 01 07 00 00 00 01 07 00 00 00
a Case on it again     | number: Case 0, Var 0, Case 0, Const 1, Case 4, Add, Var 0, Case 1, Var 1, Const 2, Const 3                                       | input 02 01 05 00 00 00 01 07 00 00 00                   | ended with 12, begun 7, tips 2, depth 1
a Case on a leaf again | number: Case 0, Case 0, Add, Var 0, Case 0, Add, Var 1, Var 2, Const 1, Const 2, Const 3                                          | input 01 07 00 00 00                                     | ended with 21, begun 8, tips 1, depth 0
arguments by one tree  | number: Case 0, Var 0, Call 1 on 1, Call 0 on 2, Call 0 on 1 / number 2: Case 0, Add, Var 0, Add, Var 0, Add, Var 1, Var 2, Var 1 | input 02 01 05 00 00 00 01 07 00 00 00                   | ended with 24, begun 16, tips 2, depth 1
a tree for each branch | number: Case 0, Var 0, IfZero, Call 0 on 2, Call 0 on 1, Const 4                                                                  | input 02 01 05 00 00 00 01 00 00 00 00                   | ended with 5, begun 8, tips 2, depth 1
and the other branch   | number: Case 0, Var 0, IfZero, Call 0 on 2, Call 0 on 1, Const 4                                                                  | input 02 01 05 00 00 00 01 07 00 00 00                   | ended with 4, begun 6, tips 2, depth 1
a function not reached | number: Const 3 / tree 4: Node, Call 1 on 0, Var 3, Var 2, Var 1, Var 0, Leaf, Var 0                                              | input 01 07 00 00 00                                     | ended with 3, begun 1, tips 1, depth 0
";

/// "The source run applies the tree reader before it evaluates."
pub const INPUTS: &str = "
bytes after the tree    | tree: Case 0, Leaf, Add, Var 0, Const 1, Node, Call 0 on 1, Call 0 on 2 | input 01 00 00 00 00 03 03, room 9     | ended, begun 5, tips 1, depth 0, wrote 01 01 00 00 00
a label made of tags    | tree: Case 0, Leaf, Add, Var 0, Const 1, Node, Call 0 on 1, Call 0 on 2 | input 01 02 02 02 02, room 5           | ended, begun 5, tips 1, depth 0, wrote 01 03 02 02 02
a node alone            | tree: Case 0, Leaf, Add, Var 0, Const 1, Node, Call 0 on 1, Call 0 on 2 | input 02, room 11                      | refused 15 at 1
the right tree missing  | tree: Case 0, Leaf, Add, Var 0, Const 1, Node, Call 0 on 1, Call 0 on 2 | input 02 01 00 00 00 00, room 11       | refused 15 at 6
no tag at the right     | tree: Case 0, Leaf, Add, Var 0, Const 1, Node, Call 0 on 1, Call 0 on 2 | input 02 01 00 00 00 00 00, room 11    | refused 16 at 6
a label cut short there | tree: Case 0, Leaf, Add, Var 0, Const 1, Node, Call 0 on 1, Call 0 on 2 | input 02 01 00 00 00 00 01 02, room 11 | refused 15 at 7
never read, and missing | number: Const 1                                                         | input 02 01 00 00 00 00                | refused 15 at 6
never read, and no tag  | number: Const 1                                                         | input 00                               | refused 16 at 0
1,025 node tags         | number: Const 1                                                         | input 02*1025                          | refused 20 at 1024
1,024 node tags         | number: Const 1                                                         | input 02*1024                          | refused 15 at 1024
20 before 16            | number: Const 1                                                         | input 02*1025 03                       | refused 20 at 1024
16 before 20            | number: Const 1                                                         | input 02*1024 00 02                    | refused 16 at 1024
";

/// Which of several refusals is reported.
pub const REFUSALS: &str = "
15 before 14            | tree: Case 0, Leaf, Add, Var 0, Const 1, Node, Call 0 on 1, Call 0 on 2 | input 02, fuel 0                                | refused 15 at 1
16 before 14            | tree: Case 0, Leaf, Add, Var 0, Const 1, Node, Call 0 on 1, Call 0 on 2 | input 00, fuel 0                                | refused 16 at 0
20 before 14            | tree: Case 0, Leaf, Add, Var 0, Const 1, Node, Call 0 on 1, Call 0 on 2 | input 02*1025, fuel 0                           | refused 20 at 1024
14 before 17            | tree: Case 0, Leaf, Add, Var 0, Const 1, Node, Call 0 on 1, Call 0 on 2 | input 02 01 05 00 00 00 01 07 00 00 00, fuel 13 | refused 14 at 0, begun 13
18 before 17            | tree: Node, Leaf, Const 1, Call 0 on 0                                  | input 01 00 00 00 00                            | refused 18 at 0, begun 4096
18 with output enough   | tree: Node, Leaf, Const 1, Call 0 on 0                                  | input 01 00 00 00 00, room 20000                | refused 18 at 0, begun 4096
14 in the last argument | number: Call 1 on 0, Const 1 / number 1: Call 1 on 0, Var 0             | input 01 00 00 00 00, fuel 2047                 | refused 14 at 0, begun 2047
18 after its arguments  | number: Call 1 on 0, Const 1 / number 1: Call 1 on 0, Var 0             | input 01 00 00 00 00, fuel 2048                 | refused 18 at 0, begun 2048
18 in an argument       | number: Call 1 on 0, Call 0 on 0 / number 1: Var 0                      | input 01 00 00 00 00                            | refused 18 at 0, begun 2048
a label and no room     | tree: Leaf, Const 1                                                     | input 01 00 00 00 00, room 4                    | refused 17 at 0, begun 2
21 before 17            | tree: Case 0, Leaf, Add, Var 0, Const 1, Node, Call 0 on 1, Call 0 on 2 | input 01 ff ff ff 7f                            | refused 21 at 4, begun 5
21 with output enough   | tree: Case 0, Leaf, Add, Var 0, Const 1, Node, Call 0 on 1, Call 0 on 2 | input 01 ff ff ff 7f, room 5                    | refused 21 at 4, begun 5
21 without fuel left    | tree: Case 0, Leaf, Add, Var 0, Const 1, Node, Call 0 on 1, Call 0 on 2 | input 01 ff ff ff 7f, room 5, fuel 5            | refused 21 at 4, begun 5
14 before 21            | tree: Case 0, Leaf, Add, Var 0, Const 1, Node, Call 0 on 1, Call 0 on 2 | input 01 ff ff ff 7f, room 5, fuel 4            | refused 14 at 0, begun 4
21 after a whole leaf   | tree: Case 0, Leaf, Add, Var 0, Const 1, Node, Call 0 on 1, Call 0 on 2 | input 02 01 05 00 00 00 01 ff ff ff 7f, room 11 | refused 21 at 4, begun 14
18 before 21            | number: Add, Const 2147483647, Call 0 on 0                              | input 01 00 00 00 00                            | refused 18 at 0, begun 3072
21 before 18            | number: Add, Add, Const 2147483647, Const 1, Call 0 on 0                | input 01 00 00 00 00                            | refused 21 at 3, begun 4
16 before 21            | number: Add, Const 2147483647, Const 1                                  | input 00                                        | refused 16 at 0
";
