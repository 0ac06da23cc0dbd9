//! What a mistyped name may have meant.

/// The name that is nearest to a mistyped one: with one or two letters wrong, missing, too many or exchanged, or cut short.
pub fn of<'a>(typed: &str, names: &[&'a str]) -> Option<&'a str> {
    let letters = |name: &str| -> Vec<char> { name.chars().skip_while(|c| !c.is_alphanumeric()).collect() };
    let typed = letters(typed);
    let far = |name: &str| {
        let name = letters(name);
        if !typed.is_empty() && name.starts_with(&typed) {
            1
        } else {
            distance(&typed, &name)
        }
    };
    let near = names.iter().map(|name| (far(name), *name)).min_by_key(|(far, _)| *far);
    near.filter(|(far, _)| *far <= typed.len().div_ceil(3).min(2)).map(|(_, name)| name)
}

/// How many letters have to be put, taken, changed or exchanged with the next one.
fn distance(from: &[char], to: &[char]) -> usize {
    let mut table = vec![vec![0; to.len() + 1]; from.len() + 1];
    for i in 0..=from.len() {
        for j in 0..=to.len() {
            let changed = || table[i - 1][j - 1] + usize::from(from[i - 1] != to[j - 1]);
            let exchanged = i > 1 && j > 1 && from[i - 1] == to[j - 2] && from[i - 2] == to[j - 1];
            table[i][j] = match (i, j) {
                (_, 0) | (0, _) => i + j,
                _ if exchanged => (table[i - 2][j - 2] + 1).min(changed()),
                _ => changed().min(table[i - 1][j] + 1).min(table[i][j - 1] + 1),
            };
        }
    }
    table[from.len()][to.len()]
}

/// The names in a sentence, the last one behind `last`.
pub fn listed(names: &[&str], last: &str) -> String {
    match names {
        [] => String::new(),
        [one] => one.to_string(),
        [front @ .., end] => format!("{} {last} {end}", front.join(", ")),
    }
}
