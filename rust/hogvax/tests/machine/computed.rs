//! Worked programs held against what they compute.

use reference::machine::known::computed::Computed;
use reference::{Refusal, Tree};

use super::cases::worked;
use super::*;

/// The program ends so with fuel for its units, or is refused so with a unit
/// more, and gives 14 with a unit less, the same being read and written. What
/// stands after the tree is not read.
pub fn check(lent: &mut Lent, tree: &Tree, computed: &Computed, behind: &[u8]) {
    let tokens = tree.tokens();
    let Computed {
        listing,
        wrote,
        ran,
    } = computed;
    let input = [&tokens, behind].concat();
    let least = ran.units + u64::from(ran.refusal.is_some());
    let case = worked(listing, input, least, wrote.len() + behind.len());
    let output = [&wrote[..], &vec![FILLER; behind.len()]].concat();
    let expected = Gave::told(*ran, output.clone(), vec![]);
    assert_eq!(lent.call(&case), expected, "{case:?}");
    assert_eq!(lent.call(&case.with_fuel(u64::MAX)), expected);
    let cut = reference::Ran {
        refusal: Some(Refusal {
            number: 14,
            position: ran.read,
        }),
        units: least - 1,
        number: 0,
        ..*ran
    };
    let expected = Gave::told(cut, output, vec![]);
    assert_eq!(lent.call(&case.with_fuel(least - 1)), expected);
}
