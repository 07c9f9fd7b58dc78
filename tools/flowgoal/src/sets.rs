//! The sets of a goal that a context or an event is in, by their names in paper 01.
use second_search::goal::Goal;
use second_search::policy::{Context, Event};

/// The names of the σ sets that a context is in: σ0 to σn, then σe.
pub fn of_context(goal: &Goal, x: Context) -> Vec<String> {
    let mut sets: Vec<String> = (0..=goal.n).filter(|&i| goal.sigma(i, x)).map(|i| format!("σ{i}")).collect();
    sets.extend(goal.sigma_e(x).then(|| "σe".to_string()));
    sets
}

/// The names of the γ sets that an event is in: γ0 to γ(n−1), then γe.
pub fn of_event(goal: &Goal, e: Event) -> Vec<String> {
    let mut sets: Vec<String> = (0..goal.n).filter(|&i| goal.gamma(i, e)).map(|i| format!("γ{i}")).collect();
    sets.extend(goal.gamma_e(e).then(|| "γe".to_string()));
    sets
}

/// Things one after the other, as a sentence has them: `1`, `1 and 2`, `1, 2 and 3`.
pub fn listed<T: ToString>(things: &[T]) -> String {
    let words: Vec<String> = things.iter().map(T::to_string).collect();
    match &words[..] {
        [] => "none".to_string(),
        [one] => one.clone(),
        [most @ .., last] => format!("{} and {last}", most.join(", ")),
    }
}
