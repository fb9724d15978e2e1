//! The limits of words and calls. Leaf tags in the input say how often a loop
//! goes round.

/// "surplus above 16,384". The loop reads labels until a node tag comes; each
/// is 16,843,009.
pub const OF_WORDS: &str = "
16,384 words               | read tag 3, read number, jump 0, return 1                         | input 01*81920 02 | ended with 16843009, units 49154, read 81921
push with 16,384           | read tag 3, read number, jump 0, push 1, return 1                 | input 01*81920 02 | SurplusWords at push, units 49153, read 81921
push with 16,383           | read tag 3, read number, jump 0, push 1, return 1                 | input 01*81915 02 | ended with 1, units 49152, read 81916
a second push              | read tag 3, read number, jump 0, push 1, push 2, return 1         | input 01*81915 02 | SurplusWords at push, units 49151, read 81916
push after a drop          | read tag 3, read number, jump 0, drop, push 1, return 1           | input 01*81920 02 | ended with 1, units 49156, read 81921
push after an add          | read tag 3, read number, jump 0, add, push 1, return 1            | input 01*81920 02 | ended with 1, units 49156, read 81921
push after a slide         | read tag 3, read number, jump 0, slide, push 1, return 1          | input 01*81920 02 | ended with 1, units 49156, read 81921
push after an ifnot        | read tag 3, read number, jump 0, ifnot 4, push 1, return 1        | input 01*81920 02 | ended with 1, units 49156, read 81921
push after a write number  | read tag 3, read number, jump 0, write number, push 1, return 1   | input 01*81920 02, room 4 | ended with 1, units 49156, read 81921, wrote 01 01 01 01
get with 16,384            | read tag 3, read number, jump 0, get 0, return 1                  | input 01*81920 02 | SurplusWords at get, units 49153, read 81921
get the top with 16,384    | read tag 3, read number, jump 0, get 16383, return 1              | input 01*81920 02 | SurplusWords at get, units 49153, read 81921
get missing and surplus    | read tag 3, read number, jump 0, get 16384, return 1              | input 01*81920 02 | MissingWords at get, units 49153, read 81921
get with 16,383            | read tag 3, read number, jump 0, get 16382, return 1              | input 01*81915 02 | ended with 16843009, units 49152, read 81916
get missing with 16,383    | read tag 3, read number, jump 0, get 16383, return 1              | input 01*81915 02 | MissingWords at get, units 49150, read 81916
read number with 16,384    | read tag 3, read number, jump 0, read number, return 1            | input 01*81920 02 07 00 00 00 | SurplusWords at read number, units 49153, read 81921
read number with 16,383    | read tag 3, read number, jump 0, read number, return 1            | input 01*81915 02 07 00 00 00 | ended with 7, units 49152, read 81920
add with 16,384            | read tag 3, read number, jump 0, add, return 1                    | input 01*81920 02 | ended with 33686018, units 49155, read 81921
tags with 16,384           | read tag 3, read number, jump 0, leaf tag, node tag, return 0     | input 01*81920 02, room 2 | ended, units 49156, read 81921, wrote 01 02
call with 16,384           | read tag 3, read number, jump 0, call 5 with 0, return 1, return 0   | input 01*81920 02 | ended with 16843009, units 49156, read 81921
return with 16,384         | read tag 3, read number, jump 0, call 5 with 1, return 1, return 1   | input 01*81920 02 | ended with 16843009, units 49156, read 81921
push in a call             | read tag 3, read number, jump 0, call 5 with 0, return 1, push 1     | input 01*81920 02 | SurplusWords at push, units 49154, read 81921
push in a call with 255    | read tag 3, read number, jump 0, call 5 with 255, return 1, push 1   | input 01*81920 02 | SurplusWords at push, units 49154, read 81921
get in a call, 16,384      | read tag 3, read number, jump 0, call 5 with 1, return 1, get 0      | input 01*81920 02 | SurplusWords at get, units 49154, read 81921
get below the base, 16,384 | read tag 3, read number, jump 0, call 5 with 1, return 1, get 1      | input 01*81920 02 | WordsBelowBase at get, units 49154, read 81921
read number in a call      | read tag 3, read number, jump 0, call 5 with 1, return 1, read number | input 01*81920 02 07 00 00 00 | SurplusWords at read number, units 49154, read 81921
push after the call        | read tag 3, read number, jump 0, call 6 with 1, push 1, return 1, return 0 | input 01*81920 02 | ended with 1, units 49157, read 81921
16,385 pushes              | push 7, jump 0                                                    | | SurplusWords at push, units 32768
16,384 gets                | push 7, get 0, jump 1                                             | | SurplusWords at get, units 32767
16,385 numbers             | read number, jump 0                                               | input 00*65540 | SurplusWords at read number, units 32768, read 65536
a long loop                | push 1, drop, jump 0                                              | fuel 60000 | FuelUsedUp, units 60000
";

/// "surplus above 16,384", of all frames together.
pub const OF_FRAMES: &str = "
1,024 frames of 16 words   | 16 times push 7, read tag 19, call 0 with 0, return 1, return 1   | input 01*1023 02 | ended with 7, units 19455, read 1024
frames of 17 words         | 17 times push 7, read tag 20, call 0 with 0, return 1, return 1   | input 01*1023 02 | SurplusWords at push, units 18310, read 963
and one word more          | 16 times push 7, read tag 19, call 0 with 0, return 1, push 1     | input 01*1023 02 | SurplusWords at push, units 18431, read 1024
16 arguments handed on     | 16 times push 7, read tag 19, call 16 with 16, return 1, return 1 | input 01*1023 02 | ended with 7, units 3087, read 1024
255 arguments handed on    | 255 times push 7, read tag 258, call 255 with 255, return 1, push 8, return 1 | input 01*1023 02 | ended with 8, units 3327, read 1024
frames cut again and again | call 2 with 0, jump 0, 255 times push 7, return 0                 | fuel 51600 | FuelUsedUp, units 51600
";

/// "18 a call with 1,024 open (the first frame counts)"
pub const OF_CALLS: &str = "
1,023 calls above          | read tag 3, call 0 with 0, return 0, return 0                     | input 01*1023 02 | ended, units 3071, read 1024
one call more              | read tag 3, call 0 with 0, return 0, return 0                     | input 01*1024 02 | CallsOpen at call, units 2047, read 1024
one call with a word       | push 7, read tag 5, call 1 with 1, return 1, return 1, return 1   | input 01*1024 02 | CallsOpen at call, units 2048, read 1024
another call inside        | read tag 3, call 0 with 0, return 0, call 2 with 0                | input 01*1023 02 | CallsOpen at call, units 2047, read 1024
a call after a return      | read tag 4, call 0 with 0, call 3 with 0, return 0, return 0      | input 01*1023 02 | ended, units 5117, read 1024
many calls in turn         | call 2 with 0, jump 0, return 0                                   | fuel 30000 | FuelUsedUp, units 30000
a call to a bad address    | read tag 3, call 0 with 0, return 0, call 65535 with 0            | input 01*1023 02 | CallsOpen at call, units 2047, read 1024
the last call to it        | read tag 3, call 0 with 0, return 0, call 65535 with 0            | input 01*1022 02 | PastTheEnd, units 2046, read 1023
the results of 1,023 calls | read tag 5, call 0 with 0, push 1, add, return 1, push 1, return 1 | input 01*1023 02 | ended with 1024, units 5118, read 1024
1,024 open, words written  | leaf tag, call 0 with 0                                           | room 1030 | CallsOpen at call, units 2047, wrote 01*1024
";
