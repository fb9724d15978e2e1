//! One refusal before another.

/// "Fuel is looked at first."
pub const FUEL: &str = "
14 before the end          | return 0                        | fuel 0           | NoFuel, units 0
14 before the end of code  |                                 | fuel 0           | NoFuel over PastTheEnd, units 0
14 before 7 bytes          | bytes 00*7                      | fuel 0           | NoFuel over InstructionNotWhole, units 0
14 before 4,128            | jump 4128, 4128 times push 1    | fuel 1           | FuelUsedUp over AddressTooHigh, units 1
14 before the opcode       | raw 14 0 0 0                    | fuel 0           | NoFuel over NotAnOpcode, units 0
14 before the return byte  | push 1, return 2                | fuel 1           | FuelUsedUp over ReturnByte at return, units 1
14 before missing words    | drop                            | fuel 0           | NoFuel over MissingWords at drop, units 0
14 before the base         | push 1, call 2 with 0, drop     | fuel 2           | FuelUsedUp over WordsBelowBase at drop, units 2
14 before surplus words    | push 7, jump 0                  | fuel 32768       | FuelUsedUp over SurplusWords at push, units 32768
14 before no input         | read tag 0                      | fuel 0           | NoFuel over InputEnded at read tag, units 0
14 before no label         | read number                     | fuel 0           | NoFuel over InputEnded at read number, units 0
14 before 3 bytes          | read number                     | input 01 02 03, fuel 0 | NoFuel over LabelNotWhole at read number, units 0
14 before no tag           | read tag 1, read tag 0          | input 01 00, fuel 1    | FuelUsedUp over NotATag at read tag, units 1, read 1
14 before no room          | leaf tag, node tag              | room 1, fuel 1   | FuelUsedUp over OutputFull at node tag, units 1, wrote 01
14 before no room, leaf    | leaf tag                        | fuel 0           | NoFuel over OutputFull at leaf tag, units 0
14 before little room      | push 1, write number            | room 3, fuel 1   | FuelUsedUp over OutputShort at write number, units 1
14 before two of them      | write number                    | room 3, fuel 0   | NoFuel over MissingWords at write number, units 0
14 before 21               | push 2147483647, push 1, add    | fuel 2           | FuelUsedUp over SumOutOfRange at add, units 2
21 with a unit             | push 2147483647, push 1, add    | fuel 3           | SumOutOfRange at add, units 2
fuel is enough             | push 1, return 1                | fuel 2           | ended with 1, units 2
fuel is more than enough   | push 1, return 1                | fuel 3           | ended with 1, units 2
";

/// "At one instruction 19 comes before 15 to 18", and before 21.
pub const WORDS: &str = "
19 before 17, no room      | write number                                                      | | MissingWords at write number over OutputFull at write number, units 0
19 before 17, 3 bytes      | write number                                                      | room 3 | MissingWords at write number over OutputShort at write number, units 0
the base before 17         | push 1, call 3 with 0, return 0, write number                     | | WordsBelowBase at write number over OutputFull at write number, units 2
the base before 3 bytes    | push 1, call 3 with 0, return 0, write number                     | room 3 | WordsBelowBase at write number over OutputShort at write number, units 2
19 before 15, no byte      | read number, jump 0                                               | input 00*65536 | SurplusWords at read number over InputEnded at read number, units 32768, read 65536
19 before 15, 3 bytes      | read number, jump 0                                               | input 00*65539 | SurplusWords at read number over LabelNotWhole at read number, units 32768, read 65536
19 before 18               | read tag 3, call 0 with 0, return 0, call 2 with 1                | input 01*1023 02 | MissingWords at call over CallsOpen at call, units 2047, read 1024
the base before 18         | push 7, read tag 4, call 1 with 0, return 0, call 3 with 1        | input 01*1023 02 | WordsBelowBase at call over CallsOpen at call, units 2048, read 1024
18 where the words stand   | push 7, read tag 4, call 1 with 1, return 0, call 3 with 1        | input 01*1023 02 | CallsOpen at call, units 2048, read 1024
19 before 21               | push 2147483647, push 1, call 4 with 0, return 0, add             | | WordsBelowBase at add over SumOutOfRange at add, units 3
19 before 21, one word     | push 2147483647, push 1, call 4 with 1, return 0, add             | | WordsBelowBase at add over SumOutOfRange at add, units 3
19 before a sum that fits  | push 2147483647, push -1, call 4 with 1, return 0, add            | | WordsBelowBase at add, units 3
19 for a missing word      | push 2147483647, add                                              | | MissingWords at add, units 1
14 before 19 before 21     | push 2147483647, push 1, call 4 with 1, return 0, add             | fuel 3 | FuelUsedUp over WordsBelowBase at add, units 3
21 where the words stand   | push 2147483647, push 1, call 4 with 2, return 0, add             | | SumOutOfRange at add, units 3
17 where the word stands   | push 7, write number                                              | room 3 | OutputShort at write number, units 1
";
