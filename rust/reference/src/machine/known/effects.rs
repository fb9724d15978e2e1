//! The effect of each opcode, call and return aside.

/// push, get, add, slide, drop.
pub const OF_WORDS: &str = "
push                      | push 5, return 1                                   | | ended with 5, units 2
push the least            | push -2147483648, return 1                         | | ended with -2147483648, units 2
push the greatest         | push 2147483647, return 1                          | | ended with 2147483647, units 2
push each byte            | push 67305985, write number, return 0              | room 4 | ended, units 3, wrote 01 02 03 04
get the first word        | push 1, push 2, push 3, get 0, return 1            | | ended with 1, units 5
get a word between        | push 1, push 2, push 3, get 1, return 1            | | ended with 2, units 5
get the top               | push 1, push 2, push 3, get 2, return 1            | | ended with 3, units 5
get leaves the word       | push 4, push 5, get 0, add, add, return 1          | | ended with 13, units 6
get the word got          | push 4, get 0, get 1, get 2, add, add, return 1    | | ended with 12, units 7
add                       | push 5, push 7, add, return 1                      | | ended with 12, units 4
add a negative number     | push 5, push -7, add, return 1                     | | ended with -2, units 4
add up to the greatest    | push 2147483646, push 1, add, return 1             | | ended with 2147483647, units 4
add down to the least     | push -2147483647, push -1, add, return 1           | | ended with -2147483648, units 4
add 0 to the greatest     | push 0, push 2147483647, add, return 1             | | ended with 2147483647, units 4
add 0 to the least        | push -2147483648, push 0, add, return 1            | | ended with -2147483648, units 4
add two halves            | push -1073741824, get 0, add, return 1             | | ended with -2147483648, units 4
add both ends             | push -2147483648, push 2147483647, add, return 1   | | ended with -1, units 4
add takes two words       | push 1, push 2, push 4, add, drop, return 1        | | ended with 1, units 6
add adds the upper two    | push 1, push 2, push 4, add, return 1              | | ended with 6, units 5
slide keeps the top       | push 1, push 2, push 3, slide, return 1            | | ended with 3, units 5
slide removes one word    | push 1, push 2, push 3, slide, drop, return 1      | | ended with 1, units 6
slide on two words        | push 1, push 2, slide, return 1                    | | ended with 2, units 4
drop                      | push 1, push 2, drop, return 1                     | | ended with 1, units 4
drop the only word        | push 1, drop, return 0                             | | ended, units 3
";

/// ifnot, jump.
pub const OF_BRANCHES: &str = "
ifnot on 0 goes on        | push 9, push 0, ifnot 4, return 1, push 8, return 1           | | ended with 9, units 4
ifnot on 1 goes           | push 9, push 1, ifnot 4, return 1, push 8, return 1           | | ended with 8, units 5
ifnot on -1 goes          | push 9, push -1, ifnot 4, return 1, push 8, return 1          | | ended with 8, units 5
ifnot on a high byte      | push 9, push 16777216, ifnot 4, return 1, push 8, return 1    | | ended with 8, units 5
ifnot on the sign alone   | push 9, push -2147483648, ifnot 4, return 1, push 8, return 1 | | ended with 8, units 5
ifnot on a middle byte    | push 9, push 65536, ifnot 4, return 1, push 8, return 1       | | ended with 8, units 5
ifnot on a sum of 0       | push 9, push 1, push -1, add, ifnot 6, return 1, push 8, return 1 | | ended with 9, units 6
ifnot pops 0              | push 9, push 0, ifnot 0, return 1                             | | ended with 9, units 4
ifnot pops what goes      | push 9, push 1, ifnot 3, return 1                             | | ended with 9, units 4
ifnot goes back           | jump 3, push 8, return 1, push 1, ifnot 1                     | | ended with 8, units 5
jump forward              | jump 3, push 1, return 1, push 2, return 1                    | | ended with 2, units 3
jump back                 | jump 2, return 1, push 3, jump 1                              | | ended with 3, units 4
jump to the next          | jump 1, push 3, return 1                                      | | ended with 3, units 3
jump leaves the words     | push 3, jump 2, return 1                                      | | ended with 3, units 3
jump to itself            | jump 0                                                        | fuel 100 | FuelUsedUp, units 100
jump by both bytes        | jump 258, 257 times push 1, push 2, return 1                  | | ended with 2, units 3
";

/// leaf tag, node tag, write number, read tag, read number.
pub const OF_TOKENS: &str = "
leaf tag                  | leaf tag, return 0                                   | room 1                       | ended, units 2, wrote 01
node tag                  | node tag, return 0                                   | room 1                       | ended, units 2, wrote 02
tags leave the words      | push 3, leaf tag, node tag, return 1                 | room 2                       | ended with 3, units 4, wrote 01 02
tags one after another    | node tag, node tag, leaf tag, return 0               | room 5                       | ended, units 4, wrote 02 02 01
write number              | push 1, write number, return 0                       | room 4                       | ended, units 3, wrote 01 00 00 00
write a negative number   | push -2, write number, return 0                      | room 4                       | ended, units 3, wrote fe ff ff ff
write the least           | push -2147483648, write number, return 0             | room 4                       | ended, units 3, wrote 00 00 00 80
write the greatest        | push 2147483647, write number, return 0              | room 4                       | ended, units 3, wrote ff ff ff 7f
write number pops         | push 3, push 4, write number, return 1               | room 4                       | ended with 3, units 4, wrote 04 00 00 00
numbers in order          | push 3, push 4, write number, write number, return 0 | room 9                       | ended, units 5, wrote 04 00 00 00 03 00 00 00
a label before its tag    | push 3, write number, leaf tag, return 0             | room 5                       | ended, units 4, wrote 03 00 00 00 01
read tag goes on          | read tag 3, push 8, return 1, push 9, return 1       | input 01                     | ended with 8, units 3, read 1
read tag goes             | read tag 3, push 8, return 1, push 9, return 1       | input 02                     | ended with 9, units 3, read 1
read tag goes back        | jump 3, push 9, return 1, read tag 1, return 0       | input 02                     | ended with 9, units 4, read 1
read tag reads one byte   | read tag 2, return 0, return 0                       | input 01 02 03               | ended, units 2, read 1
read tag leaves the words | push 8, read tag 2, return 1                         | input 02                     | ended with 8, units 3, read 1
read number               | read number, return 1                                | input 01 02 03 04            | ended with 67305985, units 2, read 4
read a negative number    | read number, return 1                                | input fe ff ff ff            | ended with -2, units 2, read 4
read the least            | read number, return 1                                | input 00 00 00 80            | ended with -2147483648, units 2, read 4
read four bytes           | read number, return 1                                | input 07 00 00 00 09         | ended with 7, units 2, read 4
read number pushes        | push 3, read number, drop, return 1                  | input 07 00 00 00            | ended with 3, units 4, read 4
numbers read in order     | read number, read number, slide, return 1            | input 07 00 00 00 09 00 00 00 | ended with 9, units 4, read 8
no tag is looked for      | read number, read tag 3, return 1, return 0          | input 02 02 02 02 01         | ended with 33686018, units 3, read 5
input is not needed       | push 3, return 1                                     | input 03 03                  | ended with 3, units 2
";
