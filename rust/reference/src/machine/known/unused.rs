//! "Unused fields are written zero and not looked at."

pub const FIELDS: &str = "
unused fields of push          | raw 0 255 65535 5, return 1                                | | ended with 5, units 2
unused fields of get           | push 5, raw 1 255 0 -1, return 1                           | | ended with 5, units 3
unused fields of add           | push 5, push 7, raw 2 255 65535 -1, return 1               | | ended with 12, units 4
unused fields of ifnot         | push 1, raw 3 255 3 -1, return 0, push 5, return 1         | | ended with 5, units 4
unused fields of jump          | raw 4 255 2 -1, return 0, push 5, return 1                 | | ended with 5, units 3
unused fields of slide         | push 5, push 7, raw 5 255 65535 -1, return 1               | | ended with 7, units 4
unused fields of drop          | push 5, push 7, raw 6 255 65535 -1, return 1               | | ended with 5, units 4
unused fields of leaf tag      | raw 7 255 65535 -1, return 0                               | room 1 | ended, units 2, wrote 01
unused fields of node tag      | raw 8 255 65535 -1, return 0                               | room 1 | ended, units 2, wrote 02
unused fields of write number  | push 5, raw 9 255 65535 -1, return 0                       | room 4 | ended, units 3, wrote 05 00 00 00
unused fields of read tag      | raw 10 255 2 -1, return 0, push 5, return 1                | input 02 | ended with 5, units 3, read 1
unused fields of read number   | raw 11 255 65535 -1, return 1                              | input 05 00 00 00 | ended with 5, units 2, read 4
unused field of call           | raw 12 0 2 -1, return 1, push 5, return 1                  | | ended with 5, units 4
unused fields of return        | push 5, raw 13 1 65535 -1                                  | | ended with 5, units 2
unused fields of return, none  | push 5, raw 13 0 65535 -1                                  | | ended, units 2
unused fields of an inner one  | call 2 with 0, return 1, push 5, raw 13 1 65535 -1         | | ended with 5, units 4
";
