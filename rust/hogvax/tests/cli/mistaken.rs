//! Newick text where tokens are expected: people have their trees so.

use super::*;

/// What is said of it, read from this file.
fn notice(name: &str) -> String {
    format!("notice: {name} looks like Newick text, which 'hogvax tokens' turns into tokens\n")
}

/// Words of a run of Grow, and the counts that it tells where it is refused.
fn runs() -> [(Vec<String>, &'static str); 3] {
    let words = |words: [&str; 4]| words.map(str::to_owned).to_vec();
    let (program, code) = (sample("programs/grow.program"), sample("code/grow.code"));
    let stream = "units 0 read 0 written 0 number 0";
    [
        (words(["run", &program, "--fuel", "9"]), stream),
        (words(["perform", &code, "--fuel", "9"]), stream),
        (
            words(["source", &program, "--fuel", "9"]),
            "begun 0 written 0 number 0 tips 0 depth 0",
        ),
    ]
}

#[test]
fn newick_text_is_noticed_where_tokens_are_expected() {
    let file = folder("mistaken").join("trees.nwk");
    let file = file.to_str().unwrap();
    for text in ["(5,7);", "[a comment] (5,7);"] {
        fs::write(file, text).unwrap();
        for verb in ["tree", "newick", "draw"] {
            for (output, name) in [
                (run(&[verb, file]), file),
                (run_on(&[verb], text.as_bytes()), "standard input"),
            ] {
                assert_gives(&output, 1, b"refused 16 0\n", &notice(name));
            }
        }
        for (words, counts) in runs() {
            let mut words: Vec<&str> = words.iter().map(String::as_str).collect();
            words.push(file);
            let line = format!("refused 16 0 {counts}\n{}", notice(file));
            assert_gives(&run(&words), 1, &[], &line);
        }
    }
}

/// Other bytes, or one further on, are damage.
#[test]
fn other_bytes_are_not_noticed() {
    for (input, position) in [(&b"3;"[..], 0), (b"\n(5,7);", 0), (b"\x02(5,7);", 1)] {
        for verb in ["tree", "newick", "draw"] {
            let line = format!("refused 16 {position}\n");
            assert_says(&run_on(&[verb], input), 1, &line);
        }
        for (words, _) in runs() {
            let words: Vec<&str> = words.iter().map(String::as_str).collect();
            let said = run_on(&words, input).stderr;
            assert_eq!(String::from_utf8(said).unwrap().lines().count(), 1);
        }
    }
}
