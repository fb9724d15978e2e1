//! Programs with known answers: document 01's worked programs and traps, the
//! limits, and the greatest depth.

use reference::order::known;

use super::*;

#[test]
fn known_programs_have_their_answers() {
    let mut seen = [0; 13];
    for known in known::all() {
        let answer = answer_program(&known.program);
        assert_eq!(answer, known.answer.map_err(told), "{}", known.name);
        seen[number(answer)] += 1;
    }
    for number in [0, 8, 9, 10, 11, 12] {
        assert!(seen[number] >= 4, "answer {number}: {} times", seen[number]);
    }
}
