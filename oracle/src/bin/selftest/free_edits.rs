//! "On another page that fits": what the oracle answers there is among what document 01 allows.

use crate::tally::Tally;
use oracle::generate::free::free_edit;
use oracle::generate::Random;

/// One edit of one page that is, but for chance, not faithful.
pub fn check(tally: &mut Tally, random: &mut Random) {
    let free = free_edit(random);
    let mut after = free.page.clone();
    let reply = free.edit.apply(&mut after);
    let allowed = free.allows(&after, &reply);
    tally.expect(allowed, || format!("{free:?} gave {reply:?}"));
}
