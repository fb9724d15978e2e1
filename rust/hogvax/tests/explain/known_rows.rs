//! Known explanations of texts that are no program: refusals 4 to 7.

use super::*;

// Header and functions

#[test]
fn no_function_is_told() {
    let expected = "refused 4 0: there is no function; a program has 1 to 32\n";
    assert_eq!(told_of("# nothing\n"), expected);
}

#[test]
fn too_many_functions_are_told() {
    let functions = |count| {
        let functions = (0..count).map(|k| format!("function {k} takes tree 0 gives tree\nNode\n"));
        functions.collect::<String>()
    };
    let expected = "\
refused 4 0: there are 33 functions; a program has at most 32
  function 32 is the first too many (line 65)
";
    assert_eq!(told_of(&functions(33)), expected);
    assert!(told_of(&functions(255)).contains("255 functions"));
    assert!(told_of(&functions(32)).starts_with("refused 7 33: "));
}

#[test]
fn too_few_and_too_many_records_are_told() {
    let records = |count| function("tree", &["Leaf"; 2_000][..count].join(", "));
    let expected = "refused 4 0: no function has a record; a program has 1 to 1,024\n";
    assert_eq!(told_of("function 0 takes tree 0 gives tree\n"), expected);
    let expected = "\
refused 4 0: the functions have 1,025 records; a program has at most 1,024
  record 1026 is the first too many (line 1026)
";
    assert_eq!(told_of(&records(1_025)), expected);
    assert!(told_of(&records(1_024)).starts_with("refused 7 2: "));
}

#[test]
fn wrong_function_lines_are_told() {
    let numbers = "number 0, number 1, number 2, number 3, number 4";
    for (text, expected) in [
        (
            "function 0 takes tree 0, number 0 gives tree\nVar 0\n".to_owned(),
            "refused 5 1: function 0 has 1 number parameter, and it may have none\n",
        ),
        (
            format!("function 0 takes tree 0, {numbers} gives tree\nVar 0\n"),
            "refused 5 1: function 0 has 5 number parameters, and it may have none\n",
        ),
        (
            function("tree", "Call 0 on 0")
                + &format!("function 1 takes tree 0, {numbers} gives number\nVar 0\n"),
            "refused 5 2: function 1 has 5 number parameters, and 4 is the most\n",
        ),
        (
            function("tree", "Call 0 on 0") + "function 1 takes tree 0 gives number\n",
            "refused 5 2: function 1 has no records, and has to be one expression\n",
        ),
    ] {
        assert_eq!(told_of(&text), expected);
    }
}

// Nodes and prefix form

#[test]
fn a_function_that_is_not_there_is_told() {
    let others = |count| {
        let others = (1..count).map(|k| format!("function {k} takes tree 0 gives tree\nNode\n"));
        function("tree", "Call 65535 on 255") + &others.collect::<String>()
    };
    for (count, expected) in [
        (
            1,
            "refused 6 2: there is no function 65535; function 0 is the only one\n",
        ),
        (
            2,
            "refused 6 3: there is no function 65535; there are functions 0 and 1\n",
        ),
        (
            3,
            "refused 6 4: there is no function 65535; there are functions 0 to 2\n",
        ),
    ] {
        assert_eq!(told_of(&others(count)), expected);
    }
}

#[test]
fn records_left_over_are_told() {
    let expected = "\
refused 7 2: the records of function 0 are more than one expression
  the expression is whole at record 6, 'Var 0' (line 6)
  record 7, 'Call 0 on 2', begins another (line 7)
";
    let text = function(
        "number",
        "Case 0, Var 0, Add, Call 0 on 1, Var 0, Call 0 on 2",
    );
    assert_eq!(told_of(&text), expected);
}

#[test]
fn missing_parts_are_told() {
    let expected = "\
refused 7 3: the records of function 0 end before its expression is whole
  'Call 1 on 0' lacks its 3 arguments (line 8)
  'Call 1 on 0' has 2 of its 3 arguments (line 6)
  'Add' lacks its second number (line 5)
  'IfZero' lacks its zero part and its other part (line 4)
";
    let records = "Leaf, Leaf, IfZero, Add, Call 1 on 0, Var 0, Call 1 on 0";
    let called = "function 1 takes tree 0, number 0, number 1, number 2 gives number\nVar 0\n";
    let text = function("tree", records) + called;
    assert_eq!(told_of(&text), expected);
    let expected = "\
refused 7 3: the records of function 0 end before its expression is whole
  'Call 1 on 0' lacks its argument (line 4)
  'Case 0' lacks its node part (line 2)
";
    let called = "function 1 takes tree 0, number 0 gives number\nVar 0\n";
    let text = function("tree", "Case 0, Leaf, Call 1 on 0") + called;
    assert_eq!(told_of(&text), expected);
}

#[test]
fn of_many_missing_parts_the_innermost_are_told() {
    let text = function("number", &["Add"; 1_024].join(", "));
    let told = told_of(&text);
    let lines: Vec<&str> = told.lines().collect();
    assert_eq!(lines.len(), 18);
    let innermost = "  'Add' lacks its first number and its second number (line 1025)";
    assert_eq!(lines[1], innermost);
    assert_eq!(lines[17], "  and 1,008 more");
}
