//! Document 01's worked cases for the stream run, and its programs on other
//! trees.

pub const CASES: &str = "
Grow on T                  | Grow         | input 02 01 05 00 00 00 01 07 00 00 00, room 11, fuel 25 | ended, units 25, read 11, wrote 02 01 06 00 00 00 01 08 00 00 00
Grow on T, fuel 24         | Grow         | input 02 01 05 00 00 00 01 07 00 00 00, room 11, fuel 24 | FuelUsedUp, units 24, read 11, wrote 02 01 06 00 00 00 01 08 00 00 00
Grow on T, fuel 2          | Grow         | input 02 01 05 00 00 00 01 07 00 00 00, room 11, fuel 2  | FuelUsedUp, units 2, read 1, wrote 02
Grow on T, fuel 0          | Grow         | input 02 01 05 00 00 00 01 07 00 00 00, room 11, fuel 0  | NoFuel, units 0
Grow on T, output of 10    | Grow         | input 02 01 05 00 00 00 01 07 00 00 00, room 10, fuel 25 | OutputShort at write number, units 20, read 11, wrote 02 01 06 00 00 00 01
Grow on no input           | Grow         | room 11, fuel 1                                          | InputEnded at read tag, units 0
Grow on a label not whole  | Grow         | input 01 05 00 00, room 11, fuel 25                      | LabelNotWhole at read number, units 1, read 1
Grow on no tag             | Grow         | input 03, room 11, fuel 25                               | NotATag at read tag, units 0
Call 0 on 0, fuel 1,023    | endless      | fuel 1023                                                | FuelUsedUp over CallsOpen at call, units 1023
Call 0 on 0, fuel 1,024    | endless      | fuel 1024                                                | CallsOpen at call, units 1023
a tree by it, fuel 1,023   | endless tree | fuel 1023                                                | FuelUsedUp over CallsOpen at call, units 1023
a tree by it, fuel 1,024   | endless tree | fuel 1024                                                | CallsOpen at call, units 1023
Sum                        | Sum          | input 02 01 ff ff ff 7f 01 01 00 00 00, fuel 17          | SumOutOfRange at add, units 15, read 11
";

pub const OTHERS: &str = "
Grow on a leaf             | Grow         | input 01 ff ff ff ff, room 5                             | ended, units 10, read 5, wrote 01 00 00 00 00
a label made of tags       | Grow         | input 01 02 02 02 02, room 5                             | ended, units 10, read 5, wrote 01 03 02 02 02
bytes after the tree       | Grow         | input 01 00 00 00 00 03 03, room 5                       | ended, units 10, read 5, wrote 01 01 00 00 00
room after the tree        | Grow         | input 01 00 00 00 00, room 9                             | ended, units 10, read 5, wrote 01 01 00 00 00
the left tree missing      | Grow         | input 02, room 11                                        | InputEnded at read tag, units 3, read 1, wrote 02
the right tree missing     | Grow         | input 02 01 00 00 00 00, room 11                         | InputEnded at read tag, units 14, read 6, wrote 02 01 01 00 00 00
no tag at the right        | Grow         | input 02 01 00 00 00 00 00, room 11                      | NotATag at read tag, units 14, read 6, wrote 02 01 01 00 00 00
the label missing          | Grow         | input 01, room 5                                         | InputEnded at read number, units 1, read 1
no room for the node tag   | Grow         | input 02, room 0                                         | OutputFull at node tag, units 1, read 1
no room for the leaf tag   | Grow         | input 01 00 00 00 00, room 0                             | OutputFull at leaf tag, units 2, read 5
no room for the label      | Grow         | input 01 00 00 00 00, room 1                             | OutputFull at write number, units 6, read 5, wrote 01
Sum, fuel 16               | Sum          | input 02 01 ff ff ff 7f 01 01 00 00 00, fuel 16          | SumOutOfRange at add, units 15, read 11
Sum, fuel 15               | Sum          | input 02 01 ff ff ff 7f 01 01 00 00 00, fuel 15          | FuelUsedUp over SumOutOfRange at add, units 15, read 11
Sum to the greatest        | Sum          | input 02 01 fe ff ff 7f 01 01 00 00 00, fuel 17          | ended with 2147483647, units 17, read 11
Sum to the least           | Sum          | input 02 01 00 00 00 c0 01 00 00 00 c0, fuel 17          | ended with -2147483648, units 17, read 11
Grow on the greatest       | Grow         | input 02 01 05 00 00 00 01 ff ff ff 7f, room 11          | SumOutOfRange at add, units 19, read 11, wrote 02 01 06 00 00 00 01
Grow next to the greatest  | Grow         | input 01 fe ff ff 7f, room 5                             | ended, units 10, read 5, wrote 01 ff ff ff 7f
Sum of a leaf              | Sum          | input 01 fe ff ff ff, fuel 6                             | ended with -2, units 6, read 5
Sum of three leaves        | Sum          | input 02 02 01 01 00 00 00 01 02 00 00 00 01 04 00 00 00 | ended with 7, units 28, read 17
Fill                       | Fill         | input 02 01 00 00 00 00 01 07 00 00 00, room 11, fuel 35 | ended, units 35, read 11, wrote 02 01 0b 00 00 00 01 07 00 00 00
Fill on a leaf             | Fill         | input 01 00 00 00 00, room 5                             | ended, units 14, read 5, wrote 01 0a 00 00 00
";
