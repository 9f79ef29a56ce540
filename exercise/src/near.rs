//! Names that somebody may have meant.

/// Up to three things whose names are like a word: it is a part of them; else the nearest, where they
/// are near enough to have been meant; else those that begin with it, or it with them.
pub fn near<'a, T: Copy + PartialEq>(
    word: &str,
    names: impl Iterator<Item = (&'a str, T)> + Clone,
) -> Vec<T> {
    let word = word.to_ascii_uppercase();
    if word.chars().count() < 2 {
        return Vec::new();
    }
    let capitals = names.map(|(name, thing)| (name.to_ascii_uppercase(), thing));
    let part =
        |(name, _): &(String, T)| name.contains('.') && name.split('.').any(|part| part == word);
    let begins = |(name, _): &(String, T)| {
        let (short, long) = if name.len() < word.len() { (name, &word) } else { (&word, name) };
        short.len() > 2 && long.starts_with(short.as_str())
    };
    let parts = first(capitals.clone().filter(part));
    let or =
        |found: Vec<T>, next: &dyn Fn() -> Vec<T>| if found.is_empty() { next() } else { found };
    let near = or(parts, &|| first(nearest(&word, capitals.clone()).into_iter()));
    or(near, &|| first(capitals.clone().filter(begins)))
}

/// The first three different things.
fn first<T: Copy + PartialEq>(names: impl Iterator<Item = (String, T)>) -> Vec<T> {
    let mut things = Vec::new();
    for (_, thing) in names {
        if things.len() < 3 && !things.contains(&thing) {
            things.push(thing);
        }
    }
    things
}

fn nearest<T: Copy>(word: &str, names: impl Iterator<Item = (String, T)>) -> Vec<(String, T)> {
    let word: Vec<char> = word.chars().collect();
    let mut least = 2 * (word.len() / 4).clamp(1, 3);
    let mut found = Vec::new();
    for (name, thing) in names {
        let other: Vec<char> = name.chars().collect();
        if 2 * word.len().abs_diff(other.len()) > least {
            continue;
        }
        let steps = distance(&word, &other);
        if steps < least {
            found.clear();
            least = steps;
        }
        if steps == least {
            found.push((name, thing));
        }
    }
    found
}

/// Where the keys of a keyboard stand, in rows that do not touch: a key is easily taken for the one
/// beside it.
const KEYS: [u8; 128] = {
    let rows = *b"QWERTYUIOP  ASDFGHJKL  ZXCVBNM";
    let mut places = [0; 128];
    let mut at = 0;
    while at < rows.len() {
        places[rows[at] as usize] = 100 + at as u8;
        at += 1;
    }
    places
};

/// What it costs to take one letter for another.
fn replaced(a: char, b: char) -> usize {
    let place = |c: char| KEYS.get(c as usize).copied().unwrap_or(0);
    match (a == b, place(a).abs_diff(place(b))) {
        (true, _) => 0,
        (false, 1) => 1,
        (false, _) => 2,
    }
}

/// Letters that are put in, left out, replaced or swapped with their neighbour, 2 for each.
fn distance(a: &[char], b: &[char]) -> usize {
    let mut rows = vec![(0..=b.len()).map(|j| 2 * j).collect::<Vec<usize>>()];
    for i in 1..=a.len() {
        let mut row = vec![2 * i];
        for j in 1..=b.len() {
            let replaced = rows[i - 1][j - 1] + replaced(a[i - 1], b[j - 1]);
            let mut least = replaced.min(rows[i - 1][j] + 2).min(row[j - 1] + 2);
            if i > 1 && j > 1 && a[i - 1] == b[j - 2] && a[i - 2] == b[j - 1] {
                least = least.min(rows[i - 2][j - 2] + 2);
            }
            row.push(least);
        }
        rows.push(row);
    }
    rows[a.len()][b.len()]
}

/// A question that names them, or nothing.
pub fn meant(names: &[String]) -> String {
    match names.split_last() {
        None => String::new(),
        Some((one, [])) => format!("did you mean `{one}`?"),
        Some((last, others)) => format!("did you mean `{}` or `{last}`?", others.join("`, `")),
    }
}

/// The same of words that are their own names.
pub fn meant_of(word: &str, names: &[&'static str]) -> String {
    let found = near(word, names.iter().map(|name| (*name, *name)));
    meant(&found.iter().map(|name| name.to_string()).collect::<Vec<_>>())
}

#[cfg(test)]
mod tests {
    use super::*;

    const NAMES: [&str; 6] =
        ["PMUSERENR.EN", "PMUSERENR.ER", "PMUSERENR.UEN", "N", "MDCR_EL2.TPM", "TPMS"];

    fn found(word: &str) -> Vec<&'static str> {
        near(word, NAMES.into_iter().map(|name| (name, name)))
    }

    #[test]
    fn the_nearest_are_proposed() {
        assert_eq!(found("PMUSERENR.EM"), ["PMUSERENR.EN"]);
        assert_eq!(found("PMUSERENR.EX"), ["PMUSERENR.EN", "PMUSERENR.ER"]);
        assert_eq!(found("pmusernr.uen"), ["PMUSERENR.UEN"]);
        assert_eq!(found("PMUESRENR.UEN"), ["PMUSERENR.UEN"]);
        assert_eq!(found("SCTLR.M"), Vec::<&str>::new());
        assert_eq!(found("M"), Vec::<&str>::new());
    }

    #[test]
    fn so_are_parts_and_beginnings() {
        assert_eq!(found("tpm"), ["MDCR_EL2.TPM"]);
        assert_eq!(found("PMUSERENR"), ["PMUSERENR.EN", "PMUSERENR.ER", "PMUSERENR.UEN"]);
        assert_eq!(found("MDCR"), ["MDCR_EL2.TPM"]);
        assert_eq!(found("TPMS of EL2"), ["TPMS"]);
    }

    #[test]
    fn a_question_names_them() {
        let list = ["a", "b", "c"].map(String::from);
        assert_eq!(meant(&list), "did you mean `a`, `b` or `c`?");
        assert_eq!(meant(&list[..1]), "did you mean `a`?");
        assert_eq!(meant(&[]), "");
        assert_eq!(meant_of("prohibted", &["prohibited"]), "did you mean `prohibited`?");
    }
}
