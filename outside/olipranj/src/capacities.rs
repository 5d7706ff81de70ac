//! How much each plan holds.

/// The capacities of the plans' nodes, the plans from 1 on.
const CAPACITIES: [&[u32]; 3] = [&[8, 16, 32, 64], &[8, 32, 32], &[8, 16, 16, 64]];

/// The capacities of a plan's nodes; none for a number that no plan has.
pub fn capacities(plan: u32) -> &'static [u32] {
    let place = plan.checked_sub(1).and_then(|place| usize::try_from(place).ok());
    place.and_then(|place| CAPACITIES.get(place)).copied().unwrap_or(&[])
}

/// How many copies a store of the plan holds at most, in all its nodes: 120, 72 and 104.
pub fn most_copies(plan: u32) -> u32 {
    capacities(plan).iter().sum()
}
