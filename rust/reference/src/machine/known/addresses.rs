//! "an address from 4,128 up, or without 8 whole bytes, holds no instruction
//! and gives 19"; "an address is tested when its instruction is fetched".

pub const WITHOUT_INSTRUCTION: &str = "
no code                    |                                                           | | PastTheEnd, units 0
1 byte of code             | bytes 0d                                                  | | InstructionNotWhole, units 0
7 bytes of code            | bytes 0d 00*6                                             | | InstructionNotWhole, units 0
past the last              | push 1                                                    | | PastTheEnd, units 1
past the last, 1 byte      | push 1, bytes 0d                                          | | InstructionNotWhole, units 1
past the last, 7 bytes     | push 1, bytes 0d 01 00*5                                  | | InstructionNotWhole, units 1
8 bytes                    | push 1, bytes 0d 01 00*6                                  | | ended with 1, units 2
bytes behind the return    | return 0, bytes 0d 00 00                                  | | ended, units 1
jump to the end            | jump 2, return 0                                          | | PastTheEnd, units 1
jump past the end          | jump 3, return 0                                          | | PastTheEnd, units 1
jump to the last place     | jump 65535, return 0                                      | | PastTheEnd, units 1
jump to 7 bytes            | jump 2, return 0, bytes 00*7                              | | InstructionNotWhole, units 1
jump beyond 7 bytes        | jump 3, return 0, bytes 00*7                              | | PastTheEnd, units 1
ifnot to the end           | push 1, ifnot 3, return 0                                 | | PastTheEnd, units 2
ifnot past the end         | push 1, ifnot 65535, return 0                             | | PastTheEnd, units 2
ifnot to 7 bytes           | push 1, ifnot 3, return 0, bytes 00*7                     | | InstructionNotWhole, units 2
read tag to the end        | read tag 2, return 0                                      | input 02 | PastTheEnd, units 1, read 1
read tag past the end      | read tag 65535, return 0                                  | input 02 02 | PastTheEnd, units 1, read 1
read tag to 7 bytes        | read tag 2, return 0, bytes 00*7                          | input 02 | InstructionNotWhole, units 1, read 1
call to the end            | call 2 with 0, return 0                                   | | PastTheEnd, units 1
call past the end          | call 65535 with 0, return 0                               | | PastTheEnd, units 1
call to 7 bytes            | call 2 with 0, return 0, bytes 00*7                       | | InstructionNotWhole, units 1
return to the end          | jump 2, return 0, call 1 with 0                           | | PastTheEnd, units 3
return to 7 bytes          | jump 2, return 0, call 1 with 0, bytes 00*7               | | InstructionNotWhole, units 3
written before the end     | leaf tag, node tag                                        | room 3 | PastTheEnd, units 2, wrote 01 02
on behind a node tag       | node tag                                                  | room 1 | PastTheEnd, units 1, wrote 02
on behind a write number   | push 7, write number                                      | room 4 | PastTheEnd, units 2, wrote 07 00 00 00
on behind a read number    | read number                                               | input 07 00 00 00 | PastTheEnd, units 1, read 4
";

pub const NOT_TAKEN: &str = "
ifnot not taken            | push 0, ifnot 65535, return 0                             | | ended, units 3
read tag not taken         | read tag 65535, return 0                                  | input 01 | ended, units 2, read 1
jump passed over           | jump 2, jump 65535, return 0                              | | ended, units 2
call passed over           | jump 2, call 65535 with 255, return 0                     | | ended, units 2
no opcode passed over      | jump 2, raw 255 0 0 0, return 0                           | | ended, units 2
return byte passed over    | jump 2, return 2, return 0                                | | ended, units 2
";

/// "At most 4,128 instructions."
pub const FROM_4128: &str = "
4,128 instructions         | 4127 times push 7, return 1                               | | ended with 7, units 4128
4,129 instructions         | 4128 times push 7, return 1                               | | AddressTooHigh, units 4128
4,128 and no return        | 4128 times push 7                                         | | PastTheEnd, units 4128
4,128 and 7 bytes          | 4128 times push 7, bytes 0d 01 00*5                       | | InstructionNotWhole, units 4128
jump to 4,127              | jump 4127, 4126 times push 7, return 0                    | | ended, units 2
jump to 4,128              | jump 4128, 4127 times push 7, return 0                    | | AddressTooHigh, units 1
jump to 4,128, the end     | jump 4128, 4127 times push 7                              | | PastTheEnd, units 1
jump to 4,128, 7 bytes     | jump 4128, 4127 times push 7, bytes 0d 00*6               | | InstructionNotWhole, units 1
jump to 4,129              | jump 4129, 4129 times return 0                            | | AddressTooHigh, units 1
jump to the last of all    | jump 65535, 65535 times return 0                          | | AddressTooHigh, units 1
jump to 32,768             | jump 32768, 32768 times return 0                          | | AddressTooHigh, units 1
ifnot to 4,127             | push 1, ifnot 4127, 4125 times push 7, return 0           | | ended, units 3
ifnot to 4,128             | push 1, ifnot 4128, 4126 times push 7, return 0           | | AddressTooHigh, units 2
read tag to 4,127          | read tag 4127, 4126 times push 7, return 0                | input 02 | ended, units 2, read 1
read tag to 4,128          | read tag 4128, 4127 times push 7, return 0                | input 02 | AddressTooHigh, units 1, read 1
call to 4,127              | call 4127 with 0, return 0, 4125 times push 7, return 0   | | ended, units 3
call to 4,128              | call 4128 with 0, return 0, 4126 times push 7, return 0   | | AddressTooHigh, units 1
return to 4,127            | jump 4126, return 0, 4124 times push 7, call 1 with 0, return 0 | | ended, units 4
return to 4,128            | jump 4127, return 0, 4125 times push 7, call 1 with 0, return 0 | | AddressTooHigh, units 3
no opcode at 4,128         | jump 4128, 4127 times push 7, raw 255 0 0 0               | | AddressTooHigh, units 1
4,128 not taken            | push 0, ifnot 4128, return 0, 4200 times push 7           | | ended, units 3
more code is no harm       | return 0, 5000 times push 7                               | | ended, units 1
";
