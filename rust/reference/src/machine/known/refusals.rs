//! Each refusal at each opcode where it arises, 18 and surplus words aside.

/// 19: words missing on the whole stack.
pub const MISSING: &str = "
get with no word          | get 0                                                  | | MissingWords at get, units 0
get past the top          | push 1, push 2, get 2                                  | | MissingWords at get, units 2
get far past the top      | push 1, get 65535                                      | | MissingWords at get, units 1
add with no word          | add                                                    | | MissingWords at add, units 0
add with one word         | push 1, add                                            | | MissingWords at add, units 1
ifnot with no word        | ifnot 1, return 0                                      | | MissingWords at ifnot, units 0
slide with no word        | slide                                                  | | MissingWords at slide, units 0
slide with one word       | push 1, slide                                          | | MissingWords at slide, units 1
drop with no word         | drop                                                   | | MissingWords at drop, units 0
write number with none    | write number                                           | room 4 | MissingWords at write number, units 0
call with no word         | call 1 with 1, return 0                                | | MissingWords at call, units 0
call with a word too few  | push 1, push 2, call 3 with 3, return 0                | | MissingWords at call, units 2
call with 254 words       | 254 times push 1, call 255 with 255, return 0          | | MissingWords at call, units 254
return with no word       | return 1                                               | | MissingWords at return, units 0
return after the drop     | push 1, drop, return 1                                 | | MissingWords at return, units 2
return in a call          | call 2 with 0, return 0, return 1                      | | MissingWords at return, units 1
get in a call             | push 1, call 3 with 1, return 0, get 1                 | | MissingWords at get, units 2
no result for the caller  | call 3 with 0, drop, return 0, return 0                | | MissingWords at drop, units 2
arguments are gone        | push 1, call 3 with 1, return 1, return 0              | | MissingWords at return, units 3
written before the drop   | leaf tag, drop                                         | room 3 | MissingWords at drop, units 1, wrote 01
";

/// 19: "words are missing above the frame's base".
pub const BELOW_THE_BASE: &str = "
get below the base        | push 1, call 3 with 0, return 0, get 0                 | | WordsBelowBase at get, units 2
get one too high          | push 1, push 2, call 4 with 1, return 0, get 1         | | WordsBelowBase at get, units 3
add below the base        | push 1, push 2, call 4 with 0, return 0, add           | | WordsBelowBase at add, units 3
add across the base       | push 1, push 2, call 4 with 1, return 0, add           | | WordsBelowBase at add, units 3
ifnot below the base      | push 1, call 3 with 0, return 0, ifnot 2               | | WordsBelowBase at ifnot, units 2
slide below the base      | push 1, push 2, call 4 with 0, return 0, slide         | | WordsBelowBase at slide, units 3
slide across the base     | push 1, push 2, call 4 with 1, return 0, slide         | | WordsBelowBase at slide, units 3
drop below the base       | push 1, call 3 with 0, return 0, drop                  | | WordsBelowBase at drop, units 2
write number below it     | push 1, call 3 with 0, return 0, write number          | room 4 | WordsBelowBase at write number, units 2
call below the base       | push 1, call 3 with 0, return 0, call 2 with 1         | | WordsBelowBase at call, units 2
call across the base      | push 1, push 2, call 4 with 1, return 0, call 3 with 2 | | WordsBelowBase at call, units 3
return below the base     | push 1, call 3 with 0, return 0, return 1              | | WordsBelowBase at return, units 2
arguments dropped         | push 1, push 2, call 4 with 1, return 0, drop, drop    | | WordsBelowBase at drop, units 4
two frames below          | push 1, call 2 with 0, call 3 with 0, drop             | | WordsBelowBase at drop, units 3
";

/// 19: opcode and return byte.
pub const OF_THE_CODE: &str = "
opcode 14                 | raw 14 0 0 0                                           | | NotAnOpcode, units 0
opcode 15                 | raw 15 0 0 0                                           | | NotAnOpcode, units 0
opcode 128                | raw 128 0 0 0                                          | | NotAnOpcode, units 0
opcode 141                | push 1, raw 141 1 0 0                                  | | NotAnOpcode, units 1
opcode 255                | push 1, raw 255 255 65535 -1                           | | NotAnOpcode, units 1
no opcode in a call       | call 2 with 0, return 0, raw 14 0 0 0                  | | NotAnOpcode, units 1
return with 2             | push 1, push 2, return 2                               | | ReturnByte at return, units 2
return with 2, no word    | return 2                                               | | ReturnByte at return, units 0
return with 3             | push 1, push 2, push 3, return 3                       | | ReturnByte at return, units 3
return with 128           | push 1, return 128                                     | | ReturnByte at return, units 1
return with 255           | 255 times push 1, return 255                           | | ReturnByte at return, units 255
return with 2 in a call   | push 1, push 2, call 4 with 2, return 0, return 2      | | ReturnByte at return, units 3
";

/// 21. The sum is that of the two upper words alone.
pub const OF_SUMS: &str = "
add past the greatest     | push 2147483647, push 1, add, return 1                 | | SumOutOfRange at add, units 2
add past the least        | push -2147483648, push -1, add, return 1               | | SumOutOfRange at add, units 2
1 before the greatest     | push 1, push 2147483647, add, return 1                 | | SumOutOfRange at add, units 2
add the least twice       | push -2147483648, get 0, add, return 1                 | | SumOutOfRange at add, units 2
add the greatest twice    | push 2147483647, get 0, add, return 1                  | | SumOutOfRange at add, units 2
add two halves above      | push 1073741824, get 0, add, return 1                  | | SumOutOfRange at add, units 2
one below two halves      | push -1073741824, push -1073741825, add, return 1      | | SumOutOfRange at add, units 2
another word below        | push -1, push 2147483647, push 1, add, add, return 1   | | SumOutOfRange at add, units 3
the other order           | push 2147483647, push 1, push -1, add, add, return 1   | | ended with 2147483647, units 6
the second of two adds    | push 2, push 2147483646, push 1, add, add, return 1    | | SumOutOfRange at add, units 4
a label read and added    | read number, push 1, add, return 1                     | input ff ff ff 7f 03 | SumOutOfRange at add, units 2, read 4
what was written before   | leaf tag, push 2147483647, push 1, add, write number   | room 5 | SumOutOfRange at add, units 3, wrote 01
in a call, arguments      | push 2147483647, push 1, call 4 with 2, return 1, add, return 1 | | SumOutOfRange at add, units 3
the result of a call      | push 2147483647, call 4 with 0, add, return 1, push 1, return 1 | | SumOutOfRange at add, units 4
unused fields of such add | push 2147483647, push 1, raw 2 255 65535 -1, return 1  | | SumOutOfRange at add, units 2
a sum not looked at       | push 2147483647, push 1, slide, return 1               | | ended with 1, units 4
a sum passed over         | push 2147483647, push 1, jump 4, add, return 1         | | ended with 1, units 4
";

/// 15 and 16.
pub const OF_THE_INPUT: &str = "
no tag left               | read tag 1, read tag 2, return 0                       | input 01 | InputEnded at read tag, units 1, read 1
no input at all           | read tag 1, return 0                                   | | InputEnded at read tag, units 0
no label left             | read tag 1, read number, return 0                      | input 01 | InputEnded at read number, units 1, read 1
no label at all           | read number, return 0                                  | | InputEnded at read number, units 0
1 byte of a label         | read number, return 0                                  | input 07 | LabelNotWhole at read number, units 0
2 bytes of a label        | read number, return 0                                  | input 07 00 | LabelNotWhole at read number, units 0
3 bytes of a label        | read number, return 0                                  | input 07 00 00 | LabelNotWhole at read number, units 0
3 bytes of another        | read number, read number, return 0                     | input 07 00 00 00 01 02 03 | LabelNotWhole at read number, units 1, read 4
byte 0 for a tag          | read tag 1, return 0                                   | input 00 | NotATag at read tag, units 0
byte 3 for a tag          | read tag 1, return 0                                   | input 03 | NotATag at read tag, units 0
byte 255 for a tag        | read tag 1, return 0                                   | input ff | NotATag at read tag, units 0
byte 129 for a tag        | read tag 1, return 0                                   | input 81 | NotATag at read tag, units 0
a label byte for a tag    | read tag 1, read tag 2, return 0                       | input 01 05 00 00 00 | NotATag at read tag, units 1, read 1
what was written stays    | leaf tag, read tag 2, return 0                         | room 3 | InputEnded at read tag, units 1, wrote 01
input ended in a call     | call 2 with 0, return 0, read number                   | | InputEnded at read number, units 1
";

/// 17.
pub const OF_THE_OUTPUT: &str = "
no room for a leaf tag    | leaf tag, return 0                                     | | OutputFull at leaf tag, units 0
no room for a node tag    | node tag, return 0                                     | | OutputFull at node tag, units 0
room for one leaf tag     | leaf tag, leaf tag, return 0                           | room 1 | OutputFull at leaf tag, units 1, wrote 01
room for one node tag     | node tag, node tag, return 0                           | room 1 | OutputFull at node tag, units 1, wrote 02
no room for a number      | push 7, write number, return 0                         | | OutputFull at write number, units 1
room for 1 of 4 bytes     | push 7, write number, return 0                         | room 1 | OutputShort at write number, units 1
room for 2 of 4 bytes     | push 7, write number, return 0                         | room 2 | OutputShort at write number, units 1
room for 3 of 4 bytes     | push 7, write number, return 0                         | room 3 | OutputShort at write number, units 1
room for one number       | push 7, push 8, write number, write number, return 0   | room 4 | OutputFull at write number, units 3, wrote 08 00 00 00
room for 7 of 8 bytes     | push 7, push 8, write number, write number, return 0   | room 7 | OutputShort at write number, units 3, wrote 08 00 00 00
output full in a call     | push 7, call 3 with 1, return 0, write number          | | OutputFull at write number, units 2
input read before         | read number, write number, return 0                    | input 07 00 00 00 | OutputFull at write number, units 1, read 4
";
