//! Random lists of losses: sound ones of any length, with any words in the slots behind their
//! entries, and damaged ones.

use compare::chains::{any_word, within};
use compare::random::Random;
use compare::states::Plan;
use yardstick::{Chain, Loss, Losses, MAX_LOSSES, MAX_QUEUES};

/// The most tokens of an entry that is like those of small chains.
const FEW_TOKENS: u32 = 6;

/// How a list is damaged, other than by its sums.
#[derive(Clone, Copy)]
pub enum ListDamage {
    /// It has an entry more than it may.
    Long,
    /// It has as many as a word can say.
    Longest,
    /// Its first or its last entry names no queue of the chain, or any one does.
    StrayFirst,
    StrayLast,
    StrayAny,
}

/// All damages.
pub const LIST_DAMAGES: [ListDamage; 5] = [
    ListDamage::Long,
    ListDamage::Longest,
    ListDamage::StrayFirst,
    ListDamage::StrayLast,
    ListDamage::StrayAny,
];

/// A list of so many entries of a chain of n queues.
pub fn list(random: &mut Random, n: usize, count: usize) -> Losses {
    let mut losses = Losses {
        count: count as u32,
        ..Losses::default()
    };
    let (entries, behind) = losses.entries.split_at_mut(count);
    entries.fill_with(|| Loss {
        tick: any_word(random),
        queue: random.below(n) as u32,
        tokens: within(random, 0..=FEW_TOKENS),
    });
    behind.fill_with(|| Loss {
        tick: any_word(random),
        queue: any_word(random),
        tokens: any_word(random),
    });
    losses
}

/// How many entries a list has: none, few, all or nearly all that it may, or any number.
pub fn any_length(random: &mut Random) -> usize {
    match random.below(8) {
        0 => 0,
        1 | 2 => random.below(8),
        3..=5 => MAX_LOSSES - random.below(4),
        _ => random.below(MAX_LOSSES + 1),
    }
}

/// Damages a list of a chain of n queues, which gets an entry if it has none.
pub fn damage_list(random: &mut Random, n: usize, losses: &mut Losses, damage: ListDamage) {
    let last = (losses.count as usize).saturating_sub(1);
    let any = random.below(last + 1);
    losses.count = losses.count.max(1);
    let stray = random.pick(&[n as u32, MAX_QUEUES as u32, u32::MAX, n as u32 + (1 << 8)]);
    match damage {
        ListDamage::Long => losses.count = MAX_LOSSES as u32 + 1,
        ListDamage::Longest => losses.count = u32::MAX,
        ListDamage::StrayFirst => losses.entries[0].queue = stray,
        ListDamage::StrayLast => losses.entries[last].queue = stray,
        ListDamage::StrayAny => losses.entries[any].queue = stray,
    }
}

/// The tokens that each queue has lost by the entries of a list that name one of the 16; a list that
/// is too long has no more entries than it may.
pub fn sums(losses: &Losses) -> [u64; MAX_QUEUES] {
    let mut sums = [0; MAX_QUEUES];
    for entry in entries(losses) {
        if let Some(sum) = sums.get_mut(entry.queue as usize) {
            *sum += u64::from(entry.tokens);
        }
    }
    sums
}

/// The entries of a list, no more than it may have.
pub fn entries(losses: &Losses) -> &[Loss] {
    &losses.entries[..MAX_LOSSES.min(losses.count as usize)]
}

/// The plan of a state of an accepted chain that passes check 17 with a list, in which a node has
/// fired so often.
pub fn plan_with(chain: &Chain, node: usize, count: u32, losses: &Losses) -> Plan {
    let mut plan = Plan::sound(chain, node, count);
    for (off, lost) in plan.off.iter_mut().zip(sums(losses)) {
        *off = -(lost as i64);
    }
    plan
}
