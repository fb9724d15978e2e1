//! call and return.

/// "arguments, the new frame's first words"
pub const ARGUMENTS: &str = "
no arguments               | call 2 with 0, return 1, push 7, return 1                                               | | ended with 7, units 4
one argument               | push 6, call 3 with 1, return 1, get 0, return 1                                        | | ended with 6, units 5
the first of two           | push 1, push 2, push 3, call 5 with 2, return 1, get 0, return 1                        | | ended with 2, units 7
the second of two          | push 1, push 2, push 3, call 5 with 2, return 1, get 1, return 1                        | | ended with 3, units 7
the caller loses them      | push 1, push 2, push 3, call 5 with 2, return 1, return 0                               | | ended with 1, units 6
the caller keeps the rest  | push 1, push 2, push 4, call 6 with 1, add, return 1, return 1                          | | ended with 6, units 7
the result in their place  | push 1, push 2, push 4, call 6 with 2, add, return 1, add, return 1                     | | ended with 7, units 8
an argument handed on      | push 7, call 3 with 1, return 1, call 5 with 1, return 1, get 0, return 1               | | ended with 7, units 7
an argument is a word      | push 7, call 3 with 1, return 1, push 9, slide, return 1                                | | ended with 9, units 6
words above the arguments  | push 7, call 3 with 1, return 1, push 9, get 1, get 0, add, return 1                    | | ended with 16, units 8
the base comes back        | push 7, push 8, call 6 with 1, drop, get 0, return 1, return 1                          | | ended with 7, units 7
255 arguments, the first   | push 6, 253 times push 7, push 8, call 257 with 255, return 1, get 0, return 1          | | ended with 6, units 259
255 arguments, the last    | push 6, 253 times push 7, push 8, call 257 with 255, return 1, get 254, return 1        | | ended with 8, units 259
255 of 256 words           | push 5, push 6, 254 times push 7, call 259 with 255, drop, return 1, get 0, return 1    | | ended with 5, units 261
call back                  | jump 3, push 7, return 1, call 1 with 0, return 1                                       | | ended with 7, units 5
call the next              | call 1 with 0, push 7, return 1                                                         | | ended with 7, units 5
calls one after another    | call 4 with 0, call 4 with 0, add, return 1, push 7, return 1                           | | ended with 14, units 8
";

/// "0 or 1 words kept; the frame is cut, that word pushed"; "The run ends at
/// the return of the first frame."
pub const RETURNS: &str = "
return with none           | return 0                                                                   | | ended, units 1
return keeps the top       | push 1, push 2, push 3, return 1                                           | | ended with 3, units 4
return keeps 0             | push 1, push 0, return 1                                                   | | ended with 0, units 3
return drops the words     | push 1, push 2, return 0                                                   | | ended, units 3
code behind the return     | return 0, raw 255 255 65535 -1                                             | | ended, units 1
the frame is cut           | push 1, call 4 with 0, add, return 1, push 2, push 4, push 8, return 1     | | ended with 9, units 8
the frame is cut, no word  | push 1, call 3 with 0, return 1, push 2, push 4, return 0                  | | ended with 1, units 6
arguments are cut          | push 1, push 2, call 5 with 1, drop, return 1, push 4, push 8, return 1    | | ended with 1, units 8
the kept word is on top    | push 1, call 4 with 0, slide, return 1, push 2, push 4, return 1           | | ended with 4, units 7
function 0's return inside | read tag 4, call 0 with 0, push 5, return 1, push 6, return 1              | input 01 02 | ended with 5, units 7, read 2
the sum of both returns    | read tag 5, call 0 with 0, push 5, add, return 1, push 6, return 1         | input 01 02 | ended with 11, units 8, read 2
one return for two frames  | read tag 2, call 0 with 0, push 5, return 1                                | input 01 02 | ended with 5, units 7, read 2
returns from two deep      | call 2 with 0, return 1, call 4 with 0, return 1, push 9, return 1         | | ended with 9, units 6
the return stands anywhere | jump 3, push 1, return 1, push 2, return 1                                 | | ended with 2, units 3
a return before the call   | jump 2, return 0, call 1 with 0, return 0                                  | | ended, units 4
other kinds of return      | call 3 with 0, push 1, return 1, return 0                                  | | ended with 1, units 4
the number is the last's   | call 2 with 0, return 0, push 9, return 1                                  | | ended, units 4
";
