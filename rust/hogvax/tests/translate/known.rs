//! Programs with their code by hand: document 01's worked programs and traps,
//! and the limits; and a file for each refusal.

use reference::translate::known;

use super::*;

#[test]
fn known_files_have_their_code() {
    let mut translate = Checked::new(&TRANSLATE);
    for known in known::all() {
        let answer = translate.answer(&known.file);
        let expected = known
            .answer
            .or_else(|refusal| refused(refusal.number, refusal.position));
        assert_eq!(answer, expected, "{}", known.name);
    }
    translate.assert_all_seen(1);
}
