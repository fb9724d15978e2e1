//! Programs as the templates emit them, in the form of document 01's
//! listing: "a line each, address, opcode, byte 1, operand, number".

use std::str::FromStr;

use crate::machine::Instruction;

/// Case 0, Leaf, Add, Var 0, Const 1, Node, Call 0 on 1, Call 0 on 2.
pub const GROW: &str = "
0 10 0 9 0
1 11 0 0 0
2 7 0 0 0
3 1 0 0 0
4 0 0 0 1
5 2 0 0 0
6 9 0 0 0
7 6 0 0 0
8 4 0 12 0
9 8 0 0 0
10 12 0 0 0
11 12 0 0 0
12 13 0 0 0
";

/// Case 0, Var 0, Add, Call 0 on 1, Call 0 on 2: a number.
pub const SUM: &str = "
0 10 0 5 0
1 11 0 0 0
2 1 0 0 0
3 5 0 0 0
4 4 0 8 0
5 12 0 0 0
6 12 0 0 0
7 2 0 0 0
8 13 1 0 0
";

/// Call 0 on 0: a number.
pub const FOREVER: &str = "
0 12 0 0 0
1 13 1 0 0
";

/// Call 0 on 0: a tree.
pub const FOREVER_TREE: &str = "
0 12 0 0 0
1 13 0 0 0
";

/// Labels 0 become 10 and the number of nodes above. Function 0: Call 1 on 0,
/// Const 10. Function 1, with a number parameter: Case 0, IfZero, Var 1, Leaf,
/// Var 0, Leaf, Var 1, Let, Add, Var 0, Const 1, Node, Call 1 on 1, Var 1,
/// Call 1 on 2, Var 1.
pub const FILL: &str = "
0 0 0 0 10
1 12 1 3 0
2 13 0 0 0
3 10 0 16 0
4 11 0 0 0
5 1 0 1 0
6 3 0 11 0
7 7 0 0 0
8 1 0 0 0
9 9 0 0 0
10 4 0 14 0
11 7 0 0 0
12 1 0 1 0
13 9 0 0 0
14 6 0 0 0
15 4 0 25 0
16 1 0 0 0
17 0 0 0 1
18 2 0 0 0
19 8 0 0 0
20 1 0 1 0
21 12 1 3 0
22 1 0 1 0
23 12 1 3 0
24 6 0 0 0
25 13 0 0 0
";

/// The instructions of a listing.
pub fn listed(listing: &str) -> Vec<Instruction> {
    let lines = listing.lines().filter(|line| !line.is_empty());
    let addressed = lines.enumerate().map(|(address, line)| {
        let (first, rest) = line.split_once(' ').expect("an address");
        assert_eq!(first, address.to_string(), "{line}");
        instruction(rest)
    });
    addressed.collect()
}

/// "opcode, byte 1, operand, number"
pub(super) fn instruction(text: &str) -> Instruction {
    let words: Vec<&str> = text.split(' ').collect();
    let [opcode, byte1, operand, number] = words[..] else {
        panic!("not four numbers: {text}");
    };
    Instruction {
        opcode: parsed(opcode),
        byte1: parsed(byte1),
        operand: parsed(operand),
        number: parsed::<i32>(number) as u32,
    }
}

pub(crate) fn parsed<T: FromStr>(word: &str) -> T {
    word.parse().unwrap_or_else(|_| panic!("no number: {word}"))
}
