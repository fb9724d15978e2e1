//! Worked programs, the ends of templates, branches and calls.

pub const WORKED: &str = "
Grow              | tree: Case 0, Leaf, Add, Var 0, Const 1, Node, Call 0 on 1, Call 0 on 2 | read tag 9, read number, leaf tag, get 0, push 1, add, write number, drop, jump 12, node tag, call 0 with 0, call 0 with 0, return 0
Sum               | number: Case 0, Var 0, Add, Call 0 on 1, Call 0 on 2                    | read tag 5, read number, get 0, slide, jump 8, call 0 with 0, call 0 with 0, add, return 1
endless, a number | number: Call 0 on 0                                                     | call 0 with 0, return 1
endless, a tree   | tree: Call 0 on 0                                                       | call 0 with 0, return 0
Fill              | tree: Call 1 on 0, Const 10 / tree 1: Case 0, IfZero, Var 1, Leaf, Var 0, Leaf, Var 1, Let, Add, Var 0, Const 1, Node, Call 1 on 1, Var 1, Call 1 on 2, Var 1 | Fill
numbers below 0   | number: Add, Const -1, Add, Const -2147483648, Call 0 on 0              | push -1, push -2147483648, call 0 with 0, add, add, return 1
the greatest      | number: Add, Const 2147483647, Call 0 on 0                              | push 2147483647, call 0 with 0, add, return 1
";

/// "\"end\" is slide where a number is expected, drop where a tree is."
pub const ENDS: &str = "
Let for a tree            | tree: Let, Const 1, Node, Leaf, Var 0, Call 0 on 0      | push 1, node tag, leaf tag, get 0, write number, call 0 with 0, drop, return 0
Let for a leaf's number   | tree: Node, Leaf, Let, Const 1, Var 0, Call 0 on 0      | node tag, leaf tag, push 1, get 0, slide, write number, call 0 with 0, return 0
Let for an argument       | tree: Call 1 on 0, Let, Const 1, Var 0 / tree 1: Call 1 on 0, Var 0 | push 1, get 0, slide, call 5 with 1, return 0, get 0, call 5 with 1, return 0
Case for a leaf's number  | tree: Leaf, Case 0, Var 0, Add, Call 1 on 1, Call 1 on 2 / number: Case 0, Const 1, Add, Call 1 on 1, Call 1 on 2 | leaf tag, read tag 6, read number, get 0, slide, jump 9, call 11 with 0, call 11 with 0, add, write number, return 0, read tag 16, read number, push 1, slide, jump 19, call 11 with 0, call 11 with 0, add, return 1
Case for a test           | tree: Case 0, Leaf, Var 0, IfZero, Case 1, Var 0, Add, Call 1 on 3, Call 1 on 4, Call 0 on 2, Node, Leaf, Const 9, Call 0 on 2 / number: Case 0, Var 0, Add, Call 1 on 1, Call 1 on 2 | read tag 7, read number, leaf tag, get 0, write number, drop, jump 23, read tag 12, read number, get 0, slide, jump 15, call 24 with 0, call 24 with 0, add, ifnot 18, call 0 with 0, jump 23, node tag, leaf tag, push 9, write number, call 0 with 0, return 0, read tag 29, read number, get 0, slide, jump 32, call 24 with 0, call 24 with 0, add, return 1
Let in Let, a tree        | tree: Let, Const 1, Let, Const 2, Call 0 on 0           | push 1, push 2, call 0 with 0, drop, drop, return 0
";

pub const BRANCHES: &str = "
IfZero with numbers       | number: IfZero, Const 0, Call 0 on 0, Call 0 on 0       | push 0, ifnot 4, call 0 with 0, jump 5, call 0 with 0, return 1
IfZero with trees         | tree: Case 0, IfZero, Var 0, Leaf, Const 1, Node, Leaf, Var 0, Leaf, Const 2, Node, Call 0 on 1, Call 0 on 2 | read tag 17, read number, get 0, ifnot 8, leaf tag, push 1, write number, jump 15, node tag, leaf tag, get 0, write number, leaf tag, push 2, write number, drop, jump 20, node tag, call 0 with 0, call 0 with 0, return 0
IfZero in each part       | number: IfZero, IfZero, Const 0, Const 1, Const 2, IfZero, Const 3, Call 0 on 0, Call 0 on 0, Call 0 on 0 | push 0, ifnot 4, push 1, jump 5, push 2, ifnot 12, push 3, ifnot 10, call 0 with 0, jump 11, call 0 with 0, jump 13, call 0 with 0, return 1
Case in each part of Case | number: Case 0, Var 0, Case 1, Add, Var 0, Case 2, Add, Var 0, Var 1, Add, Call 0 on 3, Call 0 on 4, Add, Add, Call 0 on 3, Call 0 on 4, Call 0 on 2 | read tag 5, read number, get 0, slide, jump 26, read tag 21, read number, get 0, read tag 15, read number, get 0, get 2, add, slide, jump 18, call 0 with 0, call 0 with 0, add, add, slide, jump 26, call 0 with 0, call 0 with 0, add, call 0 with 0, add, return 1
";

pub const CALLS: &str = "
an argument takes a tree  | number: Case 0, Var 0, Call 1 on 2, Call 0 on 1 / number 1: Case 0, Add, Var 0, Var 1, Call 1 on 2, Call 1 on 1, Var 0 | read tag 5, read number, get 0, slide, jump 7, call 0 with 0, call 8 with 1, return 1, read tag 15, read number, get 0, get 1, add, slide, jump 18, get 0, call 8 with 1, call 8 with 1, return 1
functions call each other | tree: Case 0, Leaf, Add, Var 0, Const 1, Node, Call 1 on 1, Call 1 on 2 / tree: Case 0, Leaf, Var 0, Node, Call 0 on 1, Call 0 on 2 | read tag 9, read number, leaf tag, get 0, push 1, add, write number, drop, jump 12, node tag, call 13 with 0, call 13 with 0, return 0, read tag 20, read number, leaf tag, get 0, write number, drop, jump 23, node tag, call 0 with 0, call 0 with 0, return 0
functions that none calls | number: Call 0 on 0 / tree: Call 1 on 0 / number: Call 2 on 0 | call 0 with 0, return 1, call 2 with 0, return 0, call 4 with 0, return 1
four parameters           | number: Call 1 on 0, Const 1, Const 20, Const 300, Const 4000 / number 4: Case 0, Add, Var 1, Add, Var 3, Var 4, Call 1 on 2, Var 3, Call 1 on 1, Var 0, Var 1, Var 2, Var 3, Var 1, Var 0 | push 1, push 20, push 300, push 4000, call 6 with 4, return 1, read tag 15, read number, get 1, get 3, get 4, add, add, slide, jump 24, get 3, get 0, get 1, get 2, get 3, call 6 with 4, get 1, get 0, call 6 with 4, return 1
";
