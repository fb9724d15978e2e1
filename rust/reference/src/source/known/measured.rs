//! N5: "Tips and depth with the tree." The tips and the depth of each are
//! counted by hand; a leaf whose bytes are all 1 is `01*5`.

/// "its tip count and greatest depth (nodes above the deepest leaf, 0 for a
/// lone leaf)", of the first tree alone.
pub const SHAPES: &str = "
a lone leaf              | number: Const 3                                                              | input 01*5                                   | ended with 3, begun 1, tips 1, depth 0
a leaf and a leaf after  | number: Const 3                                                              | input 01*10                                  | ended with 3, begun 1, tips 1, depth 0
a leaf and T after       | number: Const 3                                                              | input 01*5 02 01 05 00 00 00 01 07 00 00 00  | ended with 3, begun 1, tips 1, depth 0
two leaves               | number: Const 3                                                              | input 02 01*10                               | ended with 3, begun 1, tips 2, depth 1
two leaves, one after    | number: Const 3                                                              | input 02 01*15                               | ended with 3, begun 1, tips 2, depth 1
the same tree twice      | number: Const 3                                                              | input 02 01*10 02 01*10                      | ended with 3, begun 1, tips 2, depth 1
labels made of node tags | number: Const 3                                                              | input 02 01 02 02 02 02 01 02 02 02 02       | ended with 3, begun 1, tips 2, depth 1
the deepest first        | number: Const 3                                                              | input 02 02 01*15                            | ended with 3, begun 1, tips 3, depth 2
the deepest last         | number: Const 3                                                              | input 02 01*5 02 01*10                       | ended with 3, begun 1, tips 3, depth 2
two by two               | number: Const 3                                                              | input 02 02 01*10 02 01*10                   | ended with 3, begun 1, tips 4, depth 2
the deepest in between   | number: Const 3                                                              | input 02 01*5 02 02 01*15                    | ended with 3, begun 1, tips 4, depth 3
and the other way round  | number: Const 3                                                              | input 02 02 01*5 02 01*15                    | ended with 3, begun 1, tips 4, depth 3
in the left part's right | number: Const 3                                                              | input 02 02 01*5 02 01*10 02 01*10           | ended with 3, begun 1, tips 5, depth 3
in the right part's left | number: Const 3                                                              | input 02 02 01*10 02 02 01*15                | ended with 3, begun 1, tips 5, depth 3
deep, then as many tips  | number: Const 3                                                              | input 02 02 02 02 01*20 02 02 01*10 02 01*10 | ended with 3, begun 1, tips 8, depth 4
1,024 to the left        | number: Const 3                                                              | input 02*1024 01*5125                        | ended with 3, begun 1, tips 1025, depth 1024
1,024, a tag after       | number: Const 3                                                              | input 02*1024 01*5125 02                     | ended with 3, begun 1, tips 1025, depth 1024
1,024 under the left     | number: Const 3                                                              | input 02*1024 01*5120 02 01*10               | ended with 3, begun 1, tips 1026, depth 1024
1,024 at the right       | number: Const 3                                                              | input 02 01*5 02*1023 01*5120                | ended with 3, begun 1, tips 1025, depth 1024
1,023 to the left        | number: Const 3                                                              | input 02*1023 01*5120                        | ended with 3, begun 1, tips 1024, depth 1023
1,023 at either side     | number: Const 3                                                              | input 02 02*1022 01*5115 02*1022 01*5115     | ended with 3, begun 1, tips 2046, depth 1023
a result of other tips   | tree: Leaf, Const 9                                                          | input 02 02 01*15, room 5                    | ended, begun 2, tips 3, depth 2, wrote 01 09 00 00 00
and one of more          | tree: Case 0, Leaf, Var 0, Node, Node, Call 0 on 1, Call 0 on 1, Call 0 on 2 | input 02 01*10, room 17                      | ended, begun 15, tips 2, depth 1, wrote 02 02 01*15
";

/// "A refusal of the reader or the source run gives 0 for both.": also where
/// the tree was accepted.
pub const REFUSALS: &str = "
14, three tips read  | number: Const 3                        | input 02 02 01*15, fuel 0     | refused 14 at 0, begun 0, tips 0, depth 0
14 a little later    | number: Add, Const 1, Const 2          | input 02 02 01*15, fuel 2     | refused 14 at 0, begun 2, tips 0, depth 0
17, three tips read  | tree: Leaf, Const 9                    | input 02 02 01*15, room 4     | refused 17 at 0, begun 2, tips 0, depth 0
18, three tips read  | number: Call 0 on 0                    | input 02 02 01*15             | refused 18 at 0, begun 1024, tips 0, depth 0
21, three tips read  | number: Add, Const 2147483647, Const 1 | input 02 02 01*15             | refused 21 at 2, begun 3, tips 0, depth 0
14, depth 1,024 read | number: Const 3                        | input 02*1024 01*5125, fuel 0 | refused 14 at 0, begun 0, tips 0, depth 0
17, depth 1,024 read | tree: Leaf, Const 9                    | input 02*1024 01*5125, room 4 | refused 17 at 0, begun 2, tips 0, depth 0
18, depth 1,024 read | number: Call 0 on 0                    | input 02*1024 01*5125         | refused 18 at 0, begun 1024, tips 0, depth 0
21, depth 1,024 read | number: Add, Const 2147483647, Const 1 | input 02*1024 01*5125         | refused 21 at 2, begun 3, tips 0, depth 0
15 after a leaf      | number: Const 3                        | input 02 01*5                 | refused 15 at 6, tips 0, depth 0
15 in the last label | number: Const 3                        | input 02 02 01*14             | refused 15 at 13, tips 0, depth 0
15 at the last leaf  | number: Const 3                        | input 02*1024 01*5120         | refused 15 at 6144, tips 0, depth 0
16 after two leaves  | number: Const 3                        | input 02 02 01*10 03          | refused 16 at 12, tips 0, depth 0
20 after a leaf      | number: Const 3                        | input 02 01*5 02*1024 01*5125 | refused 20 at 1029, tips 0, depth 0
";
