use super::*;

#[test]
fn fields_by_their_bytes() {
    let bytes = [1, 2, 3, 4, 5, 6, 7, 8];
    let instruction = Instruction::from_bytes(bytes);
    let fields = (instruction.opcode, instruction.byte1);
    assert_eq!(fields, (1, 2));
    assert_eq!(instruction.operand, 0x0403);
    assert_eq!(instruction.number, 0x0807_0605);
    assert_eq!(instruction.to_bytes(), bytes);
}

#[test]
fn any_eight_bytes_come_back() {
    let mut random = Random::new(1);
    for _ in 0..1000 {
        let bytes = random.next_u64().to_le_bytes();
        assert_eq!(Instruction::from_bytes(bytes).to_bytes(), bytes);
    }
}

#[test]
fn instructions_by_name() {
    use mnemonic::*;
    let named = [
        (push(-1), [0, 0, 0, 0, 255, 255, 255, 255]),
        (get(258), [1, 0, 2, 1, 0, 0, 0, 0]),
        (add(), [2, 0, 0, 0, 0, 0, 0, 0]),
        (ifnot(258), [3, 0, 2, 1, 0, 0, 0, 0]),
        (jump(258), [4, 0, 2, 1, 0, 0, 0, 0]),
        (slide(), [5, 0, 0, 0, 0, 0, 0, 0]),
        (drop_word(), [6, 0, 0, 0, 0, 0, 0, 0]),
        (leaf_tag(), [7, 0, 0, 0, 0, 0, 0, 0]),
        (node_tag(), [8, 0, 0, 0, 0, 0, 0, 0]),
        (write_number(), [9, 0, 0, 0, 0, 0, 0, 0]),
        (read_tag(258), [10, 0, 2, 1, 0, 0, 0, 0]),
        (read_number(), [11, 0, 0, 0, 0, 0, 0, 0]),
        (call(258, 3), [12, 3, 2, 1, 0, 0, 0, 0]),
        (ret(1), [13, 1, 0, 0, 0, 0, 0, 0]),
    ];
    for (instruction, bytes) in named {
        assert_eq!(instruction.to_bytes(), bytes);
    }
}

#[test]
fn addresses_that_hold_an_instruction() {
    let code = assemble(&[mnemonic::ret(0); INSTRUCTION_LIMIT + 2]);
    let held = |bytes: usize| {
        let holds = |address: &usize| instruction_at(&code[..bytes], *address).is_some();
        (0..INSTRUCTION_LIMIT + 9).filter(holds).count()
    };
    let lengths = [0, 7, 8, 15, 16, 33_023, 33_024, 33_031, 33_032, 33_040];
    let counts = [0, 0, 1, 1, 2, 4_127, 4_128, 4_128, 4_128, 4_128];
    assert_eq!(lengths.map(held), counts);
    assert_eq!(instruction_at(&code, 4_127), Some(mnemonic::ret(0)));
    assert_eq!(instruction_at(&code, usize::MAX), None);
}

#[test]
fn each_cause_is_listed_once_and_has_its_number() {
    let mut all = Cause::ALL.to_vec();
    all.sort();
    all.dedup();
    assert_eq!(all.len(), Cause::ALL.len());
    let of = |number| {
        let causes = Cause::ALL.into_iter();
        causes.filter(|cause| cause.number() == number).count()
    };
    let numbers = [None, Some(13), Some(14), Some(15), Some(16)];
    assert_eq!(numbers.map(of), [2, 1, 2, 2, 1]);
    let numbers = [Some(17), Some(18), Some(19), Some(21)];
    assert_eq!(numbers.map(of), [2, 1, 8, 1]);
}

/// The listings stand in the order of the table, by their opcodes.
#[test]
fn listings() {
    use known::programs::*;
    let lengths = [GROW, SUM, FOREVER, FOREVER_TREE, FILL].map(|text| listed(text).len());
    assert_eq!(lengths, [13, 9, 2, 2, 26]);
    assert_eq!(listed(FOREVER), [mnemonic::call(0, 0), mnemonic::ret(1)]);
    assert_eq!(listed(GROW)[4], mnemonic::push(1));
}
