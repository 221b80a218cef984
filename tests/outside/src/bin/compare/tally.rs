//! The tally. The exported function takes a 32-bit verdict: 0 is false, anything else true.

use crate::calls::Call;
use crate::exported;
use crate::kept::Kept;
use crate::lent::Lent;
use crate::random::Random;
use crate::run::Run;
use outside::tally::{count, Tally};

pub fn input(run: &mut Run, random: &mut Random) {
    let mut tally = balanced(random);
    match random.below(6) {
        0 => tally.selected = tally.selected.wrapping_add(random.pick(&[1, u32::MAX])),
        1 => tally.passed_over = tally.passed_over.wrapping_add(random.pick(&[1, u32::MAX])),
        2 => tally.seen = near(random),
        3 => wrap(random, &mut tally),
        _ => {}
    }
    let verdict = if random.chance(1, 4) { random.next() as u32 } else { random.pick(&[0, 1, 1, 2, 256, 1 << 31]) };
    compare(run, random, tally, verdict);
}

fn near(random: &mut Random) -> u32 {
    random.pick(&[0, 1, 2, 255, 65_535, 1 << 31, u32::MAX - 2, u32::MAX - 1, u32::MAX])
}

/// A tally whose sum is exact, often at the limits.
fn balanced(random: &mut Random) -> Tally {
    let seen = if random.chance(1, 2) { near(random) } else { random.next() as u32 };
    let selected = match random.below(3) {
        0 => 0,
        1 => seen,
        _ => (random.next() % (u64::from(seen) + 1)) as u32,
    };
    Tally { seen, selected, passed_over: seen - selected }
}

/// A tally whose sum is right in its low 32 bits only.
fn wrap(random: &mut Random, tally: &mut Tally) {
    tally.seen = tally.seen.min(u32::MAX - 1);
    tally.selected = tally.seen + 1 + (random.next() % u64::from(u32::MAX - tally.seen)) as u32;
    tally.passed_over = tally.seen.wrapping_sub(tally.selected);
}

fn compare(run: &mut Run, random: &mut Random, tally: Tally, verdict: u32) {
    let numbers = |tally: Tally| [tally.seen, tally.selected, tally.passed_over];
    let mut after = tally;
    let (due, causes) = count(&mut after, verdict != 0);
    let mut lent = Lent::numbers(random, &numbers(tally));
    let number = exported::tally(&mut lent, verdict);
    let found = (number, lent.content().to_vec(), lent.guards_kept());
    let input = || format!("  {tally:?}, verdict {verdict}");
    run.same(Call::Tally, (due, numbers(after).to_vec(), true), found, input);
    let [before, after] = [tally, after].map(|tally| numbers(tally).map(u32::to_le_bytes).concat());
    let answer = [due, 0, 0, 0];
    run.keep(&Kept {
        call: Call::Tally,
        argument: verdict,
        answer,
        rule: &[],
        report: &[],
        before: &before,
        after: &after,
    });
    run.met(Call::Tally, &causes);
}
