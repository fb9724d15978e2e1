//! What each refusal means: the reference's table of refusals in words.

/// One number of the table "Where each refusal arises".
pub struct Refusal {
    pub number: u32,
    pub name: &'static str,
    pub meaning: &'static str,
    /// What the position counts.
    pub position: &'static str,
    /// An input that is refused so, and the line that reports it. Where a line
    /// with a command stands before it, that command prints it.
    pub example: &'static str,
}

/// All refusals, by number. Examples of program records name them from the
/// header, record 0; a program of one function has its first node in record 2.
pub const REFUSALS: &[Refusal] = &[
    Refusal {
        number: 1,
        name: "length of the program file",
        meaning: "\
A program file has 1 to 17 whole blocks of 512 bytes. This one is empty, longer
than 8,704 bytes, or ends inside a block.",
        position: "always 0.",
        example: "\
an empty program file:
  refused 1 0",
    },
    Refusal {
        number: 2,
        name: "check of a block",
        meaning: "\
The 256 16-bit words of a block, low byte first, do not sum to 65,535 modulo
65,536: some byte of the block is not as it was written.",
        position: "the block, counted from 0 at the start of the file.",
        example: "\
a file of two blocks, with one byte of the second changed:
  refused 2 1",
    },
    Refusal {
        number: 3,
        name: "field of a block",
        meaning: "\
A block's check is right and another field is not. Its block number is not its
place in the file, its number of blocks is not the file's, its records used are
not 1 to 63 (in all blocks but the last: not 63), or a record that it does not
use is not zero.",
        position: "the block, counted from 0 at the start of the file.",
        example: "\
a file of one block that says there are two, its check being right:
  refused 3 0",
    },
    Refusal {
        number: 4,
        name: "header",
        meaning: "\
In record 0 the edition is not 1, the functions are not 1 to 32, the nodes are
not 1 to 1,024, or bytes 4 to 7 are not zero; or there are not exactly
1 + functions + nodes records of 8 bytes.",
        position: "always 0, the header's record.",
        example: "\
a header of 1 function and 8 nodes, with 7 node records in all:
  refused 4 0",
    },
    Refusal {
        number: 5,
        name: "function record",
        meaning: "\
A function's result is not 0 or 1, its number parameters are more than 4 (or
any, in function 0), its node count is 0, or bytes 4 to 7 are not zero; or the
node counts of all functions do not sum to the header's.",
        position: "\
the record; the header is record 0, function 0 has record 1. A wrong
sum is reported at the last function record.",
        example: "\
a header of 1 function and 8 nodes, and a function that counts 7:
  refused 5 1",
    },
    Refusal {
        number: 6,
        name: "node record",
        meaning: "\
A node's kind is above 8, a field that its kind does not use is not zero, or a
Call's function is not below the number of functions.",
        position: "the record; the header is record 0.",
        example: "\
one function, its first node of kind 9:
  refused 6 2",
    },
    Refusal {
        number: 7,
        name: "prefix form",
        meaning: "\
The node records of a function are not exactly one expression: parts are
missing, or records are left over.",
        position: "the record of the function's first node; the header is record 0.",
        example: "\
one function, whose only node is Add:
  refused 7 2",
    },
    Refusal {
        number: 8,
        name: "type",
        meaning: "\
A number stands where a tree is expected, or a tree where a number is.",
        position: "the record; the header is record 0.",
        example: "\
one function, which gives a tree and has the only node Const 1:
  refused 8 2",
    },
    Refusal {
        number: 9,
        name: "name not bound",
        meaning: "\
A Var names a number, or a Case or Call names a tree, that is not bound where
it stands.",
        position: "the record; the header is record 0.",
        example: "\
one function, whose only node is Var 0:
  refused 9 2",
    },
    Refusal {
        number: 10,
        name: "words",
        meaning: "\
The function holds 16 words already where a Const, a Var, a Case, or a Call
that gives a number and has no arguments needs one more. 16 is the most.",
        position: "the record; the header is record 0.",
        example: "\
one function, which gives a number: 16 times Let with Const 1 as its
number, each the body of the one before, and Const 1 as the last body:
  refused 10 34",
    },
    Refusal {
        number: 11,
        name: "order of the trees",
        meaning: "\
Trees are not taken in the order in which they come in the input, each once. A
Case or Call names a tree that is not the head of the pending ones, or none is
pending; the branches of a Case or IfZero leave different trees pending; or a
function leaves a tree. The source run does not need this order: 'source' never
reports it.",
        position: "\
the record of that Case or Call, of the Case or IfZero with those
branches, or of the first node of that function; the header is record 0.",
        example: "\
one function, which takes the right part first, Case 0, Leaf, Var 0,
Node, Call 0 on 2, Call 0 on 1; run, listing and check refuse it:
  $ ./hogvax run samples/programs/swap.program samples/small.tokens
  refused 11 6 units 0 read 0 written 0 number 0
  $ ./hogvax listing samples/programs/swap.program
  refused 11 6
  $ ./hogvax check samples/programs/swap.program
  refused 11 6",
    },
    Refusal {
        number: 12,
        name: "pending trees",
        meaning: "\
A Case stands where 16 trees are pending. It would take one and put two in
front, and 16 is the most. The source run has no pending trees: 'source' never
reports it.",
        position: "the record of the Case; the header is record 0.",
        example: "\
one function, which gives a number: 16 times Case with Const 1 as its
leaf part, each the node part of the one before and on its left tree, and
Const 1 as the last node part:
  refused 12 32",
    },
    Refusal {
        number: 13,
        name: "lent space",
        meaning: "\
A buffer that the caller lends for code, for a file, for records, for work
words or for the answer is shorter than the call needs. Code takes 8 bytes for
each instruction of the program at hand. A run always needs 16,384 value words
and 2,048 return words. A short answer is reported before all else, the others
after all faults of the program and before the input is looked at or anything
is written. This command lends enough; a program that calls the library may
meet it.",
        position: "always 0.",
        example: "\
a stream run that is lent 16,383 value words:
  refused 13 0 units 0 read 0 written 0 number 0",
    },
    Refusal {
        number: 14,
        name: "fuel used up",
        meaning: "\
The run is not at its end, and its fuel is spent. The stream run spends a unit
on each instruction performed, the source run on each expression begun; before
each, the fuel is looked at first.",
        position: "in the stream run the bytes read, in the source run 0.",
        example: "\
the sample program Grow on the sample tree, a stream run of 25 units,
with fuel 24, and the same of its code; its source run begins 14 expressions:
  $ ./hogvax run samples/programs/grow.program samples/small.tokens --fuel 24
  refused 14 11 units 24 read 11 written 11 number 0
  $ ./hogvax perform samples/code/grow.code samples/small.tokens --fuel 24
  refused 14 11 units 24 read 11 written 11 number 0
  $ ./hogvax source samples/programs/grow.program samples/small.tokens --fuel 13
  refused 14 0 begun 13 written 0 number 0 tips 0 depth 0",
    },
    Refusal {
        number: 15,
        name: "input ended",
        meaning: "\
The input ends where a tag is to be read, or fewer than 4 bytes are left where
a label is. The tree reader reads to the end of one tree, and so does the
source run before it begins; a stream run reads as far as its code goes.",
        position: "\
the byte at which that tag or label begins, counted from 0; in the
stream run this is the bytes read.",
        example: "\
the input 01 05 00 00, a leaf whose label has 3 bytes, for the tree
reader, in a stream run and in a source run:
  $ printf '\\1\\5\\0\\0' | ./hogvax tree
  refused 15 1
  $ printf '\\1\\5\\0\\0' | ./hogvax perform samples/code/grow.code --fuel 25
  refused 15 1 units 1 read 1 written 0 number 0
  $ printf '\\1\\5\\0\\0' | ./hogvax source samples/programs/grow.program
  refused 15 1 begun 0 written 0 number 0 tips 0 depth 0",
    },
    Refusal {
        number: 16,
        name: "byte not 1 or 2",
        meaning: "\
A tag is to be read, 1 for a leaf or 2 for a node, and another byte stands
there. Newick text is refused so: 'hogvax tokens' turns it into tokens.",
        position: "\
that byte, counted from 0; in the stream run this is the bytes read.",
        example: "\
the input 03, for the tree reader, in a stream run and in a source run:
  $ printf '\\3' | ./hogvax tree
  refused 16 0
  $ printf '\\3' | ./hogvax perform samples/code/grow.code --fuel 25
  refused 16 0 units 0 read 0 written 0 number 0
  $ printf '\\3' | ./hogvax source samples/programs/grow.program
  refused 16 0 begun 0 written 0 number 0 tips 0 depth 0",
    },
    Refusal {
        number: 17,
        name: "output full",
        meaning: "\
In the stream run the output has no room for the next tag or label; what was
written before stays, and --partial hands it out. In the source run the output
is shorter than the result; nothing is written.",
        position: "in the stream run the bytes read, in the source run 0.",
        example: "\
the sample program Grow on the sample tree, a stream run with an output
of 10 bytes, of which it writes 7, and the same of its code; its source run
writes none:
  $ ./hogvax run samples/programs/grow.program samples/small.tokens --space 10
  refused 17 11 units 20 read 11 written 7 number 0
  $ ./hogvax perform samples/code/grow.code samples/small.tokens \\
    --fuel 25 --space 10
  refused 17 11 units 20 read 11 written 7 number 0
  $ ./hogvax source samples/programs/grow.program samples/small.tokens \\
    --space 10
  refused 17 0 begun 14 written 0 number 0 tips 0 depth 0",
    },
    Refusal {
        number: 18,
        name: "open calls",
        meaning: "\
A call is to be made and 1,024 are open, the run's own first one counted. The
tree is too deep for the program, or the program calls itself without end; more
fuel or space does not help.",
        position: "in the stream run the bytes read, in the source run 0.",
        example: "\
one function, whose only node is Call 0 on 0. Its source run begins
1,024 expressions. Its stream run has fuel 1,024 here; its first instruction
calls address 0 again and again:
  $ printf '\\14\\0\\0\\0\\0\\0\\0\\0' |
    ./hogvax perform - samples/small.tokens --fuel 1024
  refused 18 0 units 1023 read 0 written 0 number 0",
    },
    Refusal {
        number: 19,
        name: "instruction that can't be performed",
        meaning: "\
An opcode is above 13; an address is above 4,127 or has no 8 whole bytes of
code; a return's byte 1 is not 0 or 1; words are missing above the frame's
base; or more than 16,384 words would stand. It comes before 15 to 18 and 21.
'perform' may meet it, with code that is no program's; 'run' never does.",
        position: "the bytes read.",
        example: "\
an empty code buffer, fuel 1:
  $ printf '' | ./hogvax perform - samples/small.tokens --fuel 1
  refused 19 0 units 0 read 0 written 0 number 0",
    },
    Refusal {
        number: 20,
        name: "too deep",
        meaning: "\
A node tag stands under 1,024 other nodes. A leaf may stand there, so a tree of
depth 1,024 is read. The tree reader reports it, and so does the source run; a
stream run has no such limit.",
        position: "the byte of that tag, counted from 0.",
        example: "\
1,025 times the byte 02:
  refused 20 1024
  $ head -c 1025 /dev/zero | tr '\\0' '\\2' |
    ./hogvax source samples/programs/grow.program
  refused 20 1024 begun 0 written 0 number 0 tips 0 depth 0",
    },
    Refusal {
        number: 21,
        name: "sum out of range",
        meaning: "\
Numbers have 32 bits: they are -2147483648 to 2147483647. The exact sum of the
two numbers of an Add lies outside, so the program has no result on this tree,
and more fuel or space does not help. Sum smaller labels, such as thousands in
place of ones, or fewer at a time: samples/texts/sum-clades-depth-2.txt sums
clade by clade. 'source' says which Add it is, and its two numbers; so does
'run', if 'tree' takes the tree. It comes after 14 and, in the stream run, after
19.",
        position: "\
in the stream run the bytes read, in the source run the record of the
Add; the header is record 0.",
        example: "\
the sample program Sum on a tree of read counts, its stream run, its
code's and its source run; the first line of each, more is said after it:
  $ ./hogvax run samples/programs/sum.program samples/trees/reads.tokens
  refused 21 35 units 59 read 35 written 0 number 0
  $ ./hogvax perform samples/code/sum.code samples/trees/reads.tokens --fuel 99
  refused 21 35 units 59 read 35 written 0 number 0
  $ ./hogvax source samples/programs/sum.program samples/trees/reads.tokens
  refused 21 4 begun 32 written 0 number 0 tips 0 depth 0",
    },
];
