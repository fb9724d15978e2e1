//! "Forgetting that a temporary below moves a variable's word."

/// What stands below a name: numbers named before, and an Add's first number.
pub const OF_TEMPORARIES: &str = "
a temporary below Let         | number: Add, Call 0 on 0, Let, Const 5, Var 0                          | call 0 with 0, push 5, get 1, slide, add, return 1
a temporary below a leaf part | number: Add, Const 3, Case 0, Var 0, Add, Call 0 on 1, Call 0 on 2     | push 3, read tag 6, read number, get 1, slide, jump 9, call 0 with 0, call 0 with 0, add, add, return 1
two temporaries below Let     | number: Add, Const 1, Add, Const 2, Let, Const 3, Add, Var 0, Call 0 on 0 | push 1, push 2, push 3, get 2, call 0 with 0, add, slide, add, add, return 1
Let in Let's body             | number: Let, Const 1, Let, Const 2, Add, Var 0, Add, Var 1, Call 0 on 0 | push 1, push 2, get 0, get 1, call 0 with 0, add, add, slide, slide, return 1
Let in Let's number           | number: Let, Let, Const 1, Var 0, Add, Var 0, Call 0 on 0              | push 1, get 0, slide, get 0, call 0 with 0, add, slide, return 1
Let in both parts of an Add   | number: Add, Let, Const 1, Var 0, Let, Const 2, Add, Var 0, Call 0 on 0 | push 1, get 0, slide, push 2, get 1, call 0 with 0, add, slide, add, return 1
Let in both branches          | number: IfZero, Call 0 on 0, Let, Const 1, Var 0, Let, Const 2, Var 0  | call 0 with 0, ifnot 6, push 1, get 0, slide, jump 9, push 2, get 0, slide, return 1
Let, a temporary, and Let     | number: Let, Const 1, Add, Var 0, Let, Const 2, Add, Var 0, Add, Var 1, Call 0 on 0 | push 1, get 0, push 2, get 0, get 2, call 0 with 0, add, add, slide, add, slide, return 1
";

/// Parameters, and earlier arguments below a name.
pub const OF_ARGUMENTS: &str = "
Let in the second argument    | tree: Call 1 on 0, Const 1, Let, Const 2, Var 0, Const 3 / tree 3: Call 1 on 0, Var 2, Var 1, Var 0 | push 1, push 2, get 1, slide, push 3, call 7 with 3, return 0, get 2, get 1, get 0, call 7 with 3, return 0
Let in the fourth argument    | tree: Call 1 on 0, Const 1, Const 2, Const 3, Let, Const 4, Var 0 / tree 4: Call 1 on 0, Var 3, Var 2, Var 1, Var 0 | push 1, push 2, push 3, push 4, get 3, slide, call 8 with 4, return 0, get 3, get 2, get 1, get 0, call 8 with 4, return 0
Case in an argument           | number: Call 1 on 0, Const 1 / number 1: Case 0, Var 1, Call 2 on 2, Var 0, Case 1, Var 1, Add, Call 0 on 3, Call 0 on 4 / number 2: Add, Var 0, Add, Var 1, Call 1 on 0, Var 1 | push 1, call 3 with 1, return 1, read tag 8, read number, get 1, slide, jump 18, get 0, read tag 14, read number, get 2, slide, jump 17, call 0 with 0, call 0 with 0, add, call 19 with 2, return 1, get 0, get 1, get 1, call 3 with 1, add, add, return 1
a parameter below Let         | number: Call 1 on 0, Const 7 / number 1: Add, Var 0, Let, Const 4, Add, Var 0, Add, Var 1, Call 0 on 0 | push 7, call 3 with 1, return 1, get 0, push 4, get 0, get 2, call 0 with 0, add, add, slide, add, return 1
";
