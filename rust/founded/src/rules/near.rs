//! The name that a misspelt one was meant to be.

/// How many letters are to be changed, left out, put in or exchanged with their neighbour to make one name of the other; None above `most`.
fn distance(one: &[char], other: &[char], most: usize) -> Option<usize> {
    if one.len().abs_diff(other.len()) > most {
        return None;
    }
    let mut before = vec![0; other.len() + 1];
    let mut last: Vec<usize> = (0..=other.len()).collect();
    for i in 1..=one.len() {
        let mut row = vec![i; other.len() + 1];
        for j in 1..=other.len() {
            let changed = usize::from(one[i - 1] != other[j - 1]);
            row[j] = (last[j - 1] + changed).min(last[j] + 1).min(row[j - 1] + 1);
            let swapped =
                i > 1 && j > 1 && one[i - 1] == other[j - 2] && one[i - 2] == other[j - 1];
            if swapped {
                row[j] = row[j].min(before[j - 2] + 1);
            }
        }
        before = std::mem::replace(&mut last, row);
    }
    last.last().copied().filter(|&steps| steps <= most)
}

/// The nearest of these names, if one is near: of a letter alone none is, and else at most a letter in three differs, but one may, and no more than three.
pub fn nearest<'a>(name: &str, known: impl Iterator<Item = &'a str>) -> Option<&'a str> {
    let letters: Vec<char> = name.chars().collect();
    if letters.len() < 2 {
        return None;
    }
    let most = (letters.len() / 3).clamp(1, 3);
    known
        .filter_map(|other| {
            let others: Vec<char> = other.chars().take(letters.len() + most + 1).collect();
            Some((distance(&letters, &others, most)?, other))
        })
        .min_by_key(|&(steps, _)| steps)
        .map(|(_, other)| other)
}

/// `; did you mean ..?`, or nothing.
pub fn hint<'a>(name: &str, known: impl Iterator<Item = &'a str>) -> String {
    nearest(name, known).map_or_else(String::new, |near| format!("; did you mean `{near}`?"))
}

#[cfg(test)]
mod tests {
    use super::nearest;

    #[test]
    fn near_names() {
        let known = ["latch", "heater", "heater(2)", "sun"];
        let near = |name| nearest(name, known.into_iter());
        assert_eq!(near("lacth"), Some("latch"));
        assert_eq!(near("heatr"), Some("heater"));
        assert_eq!(near("heater(1)"), Some("heater(2)"));
        assert_eq!(near("son"), Some("sun"));
        assert_eq!(near("moon"), None);
        assert_eq!((near("s"), near("")), (None, None));
    }
}
