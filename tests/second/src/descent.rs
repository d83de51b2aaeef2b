//! The inputs that a refutation rests on.

/// The numbers of a step's used parents.
pub(crate) type Parents = [Option<usize>; 2];

/// V30: "the input clauses from which its first empty clause descends. A clause
/// descends from itself, and the clause of a step descends from what a used
/// parent (R6) of the step descends from. The numbers are given rising, each
/// once." The clauses below `inputs` are the inputs, and `parents` has those of
/// each step behind them.
///
/// A parent's number is below its step's own, so one walk from the empty clause
/// back to the first step comes to each clause after all that use it.
pub(crate) fn rests_on(empty: usize, inputs: usize, parents: &[Parents]) -> Vec<usize> {
    let mut reached = vec![false; empty + 1];
    reached[empty] = true;
    for step in (inputs..=empty).rev() {
        if reached[step] {
            for parent in parents[step - inputs].into_iter().flatten() {
                reached[parent] = true;
            }
        }
    }
    let numbers = 0..inputs.min(reached.len());
    numbers.filter(|&number| reached[number]).collect()
}
