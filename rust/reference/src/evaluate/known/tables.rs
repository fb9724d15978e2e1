//! Worked programs, names, branches and calls.

pub const WORKED: &str = "
Grow on T          | tree: Case 0, Leaf, Add, Var 0, Const 1, Node, Call 0 on 1, Call 0 on 2 | 02 01 05 00 00 00 01 07 00 00 00 | ended, gave 02 01 06 00 00 00 01 08 00 00 00, begun 14, open 2, units 24
Grow on a leaf     | tree: Case 0, Leaf, Add, Var 0, Const 1, Node, Call 0 on 1, Call 0 on 2 | 01 ff ff ff ff                   | ended, gave 01 00 00 00 00, begun 5, open 1, units 9
Sum                | number: Case 0, Var 0, Add, Call 0 on 1, Call 0 on 2                    | 02 01 ff ff ff 7f 01 01 00 00 00 | out of range at 4, begun 8, units 15
Sum of a leaf      | number: Case 0, Var 0, Add, Call 0 on 1, Call 0 on 2                    | 01 fe ff ff ff                   | ended with -2, begun 2, open 1, units 5
Fill               | tree: Call 1 on 0, Const 10 / tree 1: Case 0, IfZero, Var 1, Leaf, Var 0, Leaf, Var 1, Let, Add, Var 0, Const 1, Node, Call 1 on 1, Var 1, Call 1 on 2, Var 1 | 02 01 00 00 00 00 01 07 00 00 00 | ended, gave 02 01 0b 00 00 00 01 07 00 00 00, begun 22, open 3, units 34
every other level  | tree: Case 0, Leaf, Var 0, Node, Case 1, Leaf, Add, Var 0, Const 1, Node, Call 0 on 3, Call 0 on 4, Case 2, Leaf, Add, Var 0, Const 1, Node, Call 0 on 3, Call 0 on 4 | 02 01 05 00 00 00 01 07 00 00 00 | ended, gave 02 01 06 00 00 00 01 08 00 00 00, begun 12, open 1, units 20
the right subtree  | tree: Case 0, Leaf, Var 0, Let, Call 2 on 1, Call 1 on 2 / tree: Case 0, Leaf, Var 0, Node, Call 1 on 1, Call 1 on 2 / number: Case 0, Const 0, Let, Call 2 on 1, Call 2 on 2 | 02 01 05 00 00 00 01 07 00 00 00 | ended, gave 01 07 00 00 00, begun 9, open 2, units 18
";

/// "Forgetting that a temporary below moves a variable's word."
pub const NAMES: &str = "
a temporary below Let         | number: Add, Call 1 on 0, Let, Const 5, Add, Var 0, Var 0 / number: Case 0, Var 0, Add, Call 1 on 1, Call 1 on 2 | 01 07 00 00 00 | ended with 17, begun 9, open 2, units 13
a temporary below a leaf part | number: Add, Const 3, Case 0, Var 0, Add, Call 0 on 1, Call 0 on 2 | 01 07 00 00 00 | ended with 10, begun 4, open 1, units 7
the same on T                 | number: Add, Const 3, Case 0, Var 0, Add, Call 0 on 1, Call 0 on 2 | 02 01 05 00 00 00 01 07 00 00 00 | ended with 21, begun 14, open 2, units 22
Let in Let's number           | number: Let, Let, Const 1, Add, Var 0, Const 1, Add, Var 0, Call 1 on 0 / number: Case 0, Var 0, Add, Call 1 on 1, Call 1 on 2 | 01 07 00 00 00 | ended with 9, begun 11, open 2, units 15
Let in both parts of an Add   | number: Add, Let, Const 1, Var 0, Let, Const 2, Add, Var 0, Call 1 on 0 / number: Case 0, Var 0, Add, Call 1 on 1, Call 1 on 2 | 01 07 00 00 00 | ended with 10, begun 11, open 2, units 15
a parameter below Let         | number: Call 1 on 0, Const 100 / number 1: Add, Var 0, Let, Const 20, Add, Var 0, Add, Var 1, Call 2 on 0 / number: Case 0, Var 0, Add, Call 2 on 1, Call 2 on 2 | 01 07 00 00 00 | ended with 227, begun 13, open 3, units 18
Let in the second argument    | number: Call 1 on 0, Const 1, Let, Const 20, Var 0, Const 300 / number 3: Case 0, Add, Var 0, Add, Var 1, Add, Var 1, Add, Var 2, Add, Var 2, Add, Var 2, Var 3, Call 1 on 2, Call 1 on 1, Var 0, Var 1, Var 2, Var 1, Var 0 | 01 88 13 00 00 | ended with 5941, begun 20, open 2, units 24
arguments in other places     | number: Call 1 on 0, Const 1, Let, Const 20, Var 0, Const 300 / number 3: Case 0, Add, Var 0, Add, Var 1, Add, Var 1, Add, Var 2, Add, Var 2, Add, Var 2, Var 3, Call 1 on 2, Call 1 on 1, Var 0, Var 1, Var 2, Var 1, Var 0 | 02 01 05 00 00 00 01 07 00 00 00 | ended with 996, begun 42, open 3, units 51
";

pub const BRANCHES: &str = "
IfZero with trees         | tree: Case 0, IfZero, Var 0, Leaf, Const 1, Node, Leaf, Var 0, Leaf, Const 2, Node, Call 0 on 1, Call 0 on 2 | 02 01 00 00 00 00 01 07 00 00 00 | ended, gave 02 01 01 00 00 00 02 01 07 00 00 00 01 02 00 00 00, begun 17, open 2, units 29
Case for a leaf's number  | tree: Leaf, Case 0, Var 0, Add, Call 1 on 1, Call 1 on 2 / number: Case 0, Const 1, Add, Call 1 on 1, Call 1 on 2 | 02 01 05 00 00 00 01 07 00 00 00 | ended, gave 01 02 00 00 00, begun 9, open 2, units 18
the same on a leaf        | tree: Leaf, Case 0, Var 0, Add, Call 1 on 1, Call 1 on 2 / number: Case 0, Const 1, Add, Call 1 on 1, Call 1 on 2 | 01 09 00 00 00 | ended, gave 01 09 00 00 00, begun 3, open 1, units 7
a test that is not 0      | tree: Case 0, Leaf, Var 0, IfZero, Case 1, Var 0, Add, Call 1 on 3, Call 1 on 4, Call 0 on 2, Node, Leaf, Const 9, Call 0 on 2 / number: Case 0, Var 0, Add, Call 1 on 1, Call 1 on 2 | 02 01 05 00 00 00 01 07 00 00 00 | ended, gave 02 01 09 00 00 00 01 07 00 00 00, begun 11, open 2, units 20
a test that is 0          | tree: Case 0, Leaf, Var 0, IfZero, Case 1, Var 0, Add, Call 1 on 3, Call 1 on 4, Call 0 on 2, Node, Leaf, Const 9, Call 0 on 2 / number: Case 0, Var 0, Add, Call 1 on 1, Call 1 on 2 | 02 01 00 00 00 00 01 07 00 00 00 | ended, gave 01 07 00 00 00, begun 8, open 2, units 17
a sum that is 0           | tree: Case 0, Leaf, Var 0, IfZero, Case 1, Var 0, Add, Call 1 on 3, Call 1 on 4, Call 0 on 2, Node, Leaf, Const 9, Call 0 on 2 / number: Case 0, Var 0, Add, Call 1 on 1, Call 1 on 2 | 02 02 01 05 00 00 00 01 fb ff ff ff 01 07 00 00 00 | ended, gave 01 07 00 00 00, begun 14, open 2, units 28
Case in each part of Case | number: Case 0, Var 0, Case 1, Add, Var 0, Case 2, Add, Var 0, Var 1, Add, Call 0 on 3, Call 0 on 4, Add, Add, Call 0 on 3, Call 0 on 4, Call 0 on 2 | 02 01 05 00 00 00 01 07 00 00 00 | ended with 17, begun 8, open 1, units 14
a node at the right       | number: Case 0, Var 0, Case 1, Add, Var 0, Case 2, Add, Var 0, Var 1, Add, Call 0 on 3, Call 0 on 4, Add, Add, Call 0 on 3, Call 0 on 4, Call 0 on 2 | 02 01 05 00 00 00 02 01 06 00 00 00 01 07 00 00 00 | ended with 18, begun 12, open 2, units 23
";

pub const CALLS: &str = "
an argument takes a tree  | number: Case 0, Var 0, Call 1 on 2, Call 0 on 1 / number 1: Case 0, Add, Var 0, Var 1, Call 1 on 2, Call 1 on 1, Var 0 | 02 01 05 00 00 00 01 07 00 00 00 | ended with 12, begun 9, open 2, units 17
functions call each other | tree: Case 0, Leaf, Add, Var 0, Const 1, Node, Call 1 on 1, Call 1 on 2 / tree: Case 0, Leaf, Var 0, Node, Call 0 on 1, Call 0 on 2 | 02 01 05 00 00 00 02 01 06 00 00 00 01 07 00 00 00 | ended, gave 02 01 05 00 00 00 02 01 07 00 00 00 01 08 00 00 00, begun 21, open 3, units 37
four parameters           | number: Call 1 on 0, Const 1, Const 20, Const 300, Const 4000 / number 4: Case 0, Add, Var 1, Add, Var 3, Var 4, Call 1 on 2, Var 3, Call 1 on 1, Var 0, Var 1, Var 2, Var 3, Var 1, Var 0 | 02 01 05 00 00 00 01 07 00 00 00 | ended with 4033, begun 27, open 3, units 36
";

/// Calls on the tree given, at once or where a label is 0.
pub const ENDLESS: &str = "
endless, a number         | number: Call 0 on 0                                         | 01 00 00 00 00 | too many, begun 1024
endless, a tree           | tree: Call 0 on 0                                           | 01 00 00 00 00 | too many, begun 1024
endless with an argument  | number: Call 1 on 0, Const 1 / number 1: Call 1 on 0, Var 0 | 01 00 00 00 00 | too many, begun 2048
endless after a leaf      | tree: Node, Leaf, Const 1, Call 0 on 0                      | 01 00 00 00 00 | too many, begun 4096
endless where it is 0     | tree: Case 0, Leaf, Var 0, IfZero, Case 1, Var 0, Add, Call 1 on 3, Call 1 on 4, Call 2 on 2, Call 0 on 2 / number: Case 0, Var 0, Add, Call 1 on 1, Call 1 on 2 / tree: Call 2 on 0 | 02 01 00 00 00 00 01 07 00 00 00 | too many, begun 1028
and where it is not       | tree: Case 0, Leaf, Var 0, IfZero, Case 1, Var 0, Add, Call 1 on 3, Call 1 on 4, Call 2 on 2, Call 0 on 2 / number: Case 0, Var 0, Add, Call 1 on 1, Call 1 on 2 / tree: Call 2 on 0 | 02 01 05 00 00 00 01 07 00 00 00 | ended, gave 01 07 00 00 00, begun 8, open 2, units 16
";

/// Sums at the ends of the range, just inside and just outside.
pub const SUMS: &str = "
the greatest               | number: Case 0, Var 0, Add, Call 0 on 1, Call 0 on 2 | 02 01 fe ff ff 7f 01 01 00 00 00 | ended with 2147483647, begun 8, open 2, units 16
the least                  | number: Case 0, Var 0, Add, Call 0 on 1, Call 0 on 2 | 02 01 01 00 00 80 01 ff ff ff ff | ended with -2147483648, begun 8, open 2, units 16
two halves, the least      | number: Case 0, Var 0, Add, Call 0 on 1, Call 0 on 2 | 02 01 00 00 00 c0 01 00 00 00 c0 | ended with -2147483648, begun 8, open 2, units 16
two halves, one too many   | number: Case 0, Var 0, Add, Call 0 on 1, Call 0 on 2 | 02 01 00 00 00 40 01 00 00 00 40 | out of range at 4, begun 8, units 15
the least and -1           | number: Case 0, Var 0, Add, Call 0 on 1, Call 0 on 2 | 02 01 00 00 00 80 01 ff ff ff ff | out of range at 4, begun 8, units 15
the least twice            | number: Case 0, Var 0, Add, Call 0 on 1, Call 0 on 2 | 02 01 00 00 00 80 01 00 00 00 80 | out of range at 4, begun 8, units 15
the greatest twice         | number: Case 0, Var 0, Add, Call 0 on 1, Call 0 on 2 | 02 01 ff ff ff 7f 01 ff ff ff 7f | out of range at 4, begun 8, units 15
the greatest and the least | number: Case 0, Var 0, Add, Call 0 on 1, Call 0 on 2 | 02 01 ff ff ff 7f 01 00 00 00 80 | ended with -1, begun 8, open 2, units 16
out and in again           | number: Case 0, Var 0, Add, Call 0 on 1, Call 0 on 2 | 02 02 01 ff ff ff 7f 01 01 00 00 00 01 ff ff ff ff | out of range at 4, begun 11, units 17
the same, never out        | number: Case 0, Var 0, Add, Call 0 on 1, Call 0 on 2 | 02 01 ff ff ff 7f 02 01 01 00 00 00 01 ff ff ff ff | ended with 2147483647, begun 14, open 3, units 27
out at the right           | number: Case 0, Var 0, Add, Call 0 on 1, Call 0 on 2 | 02 01 ff ff ff ff 02 01 ff ff ff 7f 01 01 00 00 00 | out of range at 4, begun 14, units 24
the inner Add              | number: Add, Add, Case 0, Var 0, Add, Call 0 on 1, Call 0 on 2, Const 1, Const -1 | 01 ff ff ff 7f | out of range at 3, begun 5, units 6
the outer Add              | number: Add, Add, Case 0, Var 0, Add, Call 0 on 1, Call 0 on 2, Const -1, Const 2 | 01 ff ff ff 7f | out of range at 2, begun 6, units 8
the right Add              | number: Add, Const -1, Add, Case 0, Var 0, Add, Call 0 on 1, Call 0 on 2, Const 1 | 01 ff ff ff 7f | out of range at 4, begun 6, units 7
in an argument             | number: Call 1 on 0, Add, Const 2147483647, Const 1 / number 1: Case 0, Var 0, Call 1 on 2, Call 1 on 1, Var 0 | 01 07 00 00 00 | out of range at 4, begun 4, units 2
in a test                  | number: Case 0, IfZero, Add, Var 0, Const 1, Const 5, Const 6, Add, Call 0 on 1, Call 0 on 2 | 01 ff ff ff 7f | out of range at 4, begun 5, units 4
in Let's number            | number: Let, Add, Const -2147483648, Const -1, Call 1 on 0 / number: Case 0, Var 0, Add, Call 1 on 1, Call 1 on 2 | 01 07 00 00 00 | out of range at 4, begun 4, units 2
in Let's body              | number: Let, Const -1, Case 0, Add, Var 0, Var 1, Add, Call 0 on 1, Call 0 on 2 | 01 00 00 00 80 | out of range at 5, begun 6, units 5
in a leaf                  | tree: Case 0, Leaf, Add, Var 0, Const 1, Node, Call 0 on 1, Call 0 on 2 | 02 01 05 00 00 00 01 ff ff ff 7f | out of range at 4, begun 14, units 19
in function 1              | number: Call 1 on 0 / number: Case 0, Add, Const 1, Var 0, Add, Call 1 on 1, Call 1 on 2 | 01 ff ff ff 7f | out of range at 5, begun 5, units 5
a function before it       | tree: Case 0, Leaf, Add, Var 0, Const 1, Node, Call 1 on 1, Call 0 on 2 / tree: Case 0, Leaf, Add, Var 0, Const -1, Node, Call 0 on 1, Call 1 on 2 | 02 01 00 00 00 80 01 00 00 00 00 | out of range at 13, begun 8, units 8
in the part not taken      | number: Case 0, IfZero, Var 0, Const 5, Add, Const 2147483647, Const 1, Add, Call 0 on 1, Call 0 on 2 | 01 00 00 00 00 | ended with 5, begun 4, open 1, units 8
a 0 by the ends            | number: Case 0, IfZero, Add, Add, Var 0, Const -2147483648, Const 1, Const 5, Const 6, Add, Call 0 on 1, Call 0 on 2 | 01 ff ff ff 7f | ended with 5, begun 8, open 1, units 12
before a call too many     | number: Add, Add, Const 2147483647, Const 1, Call 0 on 0 | 01 00 00 00 00 | out of range at 3, begun 4, units 2
after a call too many      | number: Add, Call 0 on 0, Add, Const 2147483647, Const 1 | 01 00 00 00 00 | too many, begun 2048
";

/// "The source run needs pass one only".
pub const NOT_IN_ORDER: &str = "
swapped            | tree: Case 0, Leaf, Var 0, Node, Call 0 on 2, Call 0 on 1  | 02 01 05 00 00 00 01 07 00 00 00 | ended, gave 02 01 07 00 00 00 01 05 00 00 00, begun 10, open 2, units 20
a tree unread      | number: Case 0, Const 1, Call 0 on 1                       | 02 01 05 00 00 00 01 07 00 00 00 | ended with 1, begun 4, open 2, units 8
right part first   | number: Case 0, Var 0, Add, Call 0 on 2, Call 0 on 1       | 02 01 05 00 00 00 01 07 00 00 00 | ended with 12, begun 8, open 2, units 16
a tree twice       | number: Add, Case 0, Var 0, Const 1, Case 0, Var 0, Const 1 | 01 07 00 00 00                   | ended with 14, begun 5, open 1, units 11
nothing read       | number: Const 1                                            | 01 07 00 00 00                   | ended with 1, begun 1, open 1, units 1
a label twice      | number: Add, Case 0, Var 0, Const 1, Case 0, Var 0, Const 1 | 01 00 00 00 40                   | out of range at 2, begun 5, units 10
";
