//! The names that someone may have meant.

/// The names nearest to one that is none of them: at most three, in their order, and none that is too far to help.
pub fn nearest<'a>(name: &str, names: impl Iterator<Item = &'a str>) -> Vec<&'a str> {
    let length = name.chars().count();
    let far = ((length + 1) / 3).min(3);
    // each step changes the length by one at most: a name that is much longer than all others need not be held against them
    let like = names.filter(|other| length.abs_diff(other.chars().count()) <= far);
    let steps: Vec<(usize, &str)> = like.map(|other| (distance(name, other), other)).collect();
    let least = steps.iter().map(|(steps, _)| *steps).min().filter(|least| *least <= far);
    steps.into_iter().filter(|(steps, _)| Some(*steps) == least).take(3).map(|(_, other)| other).collect()
}

/// The same as the end of a sentence: "; the nearest names are `a`, `b` and `c`", or nothing.
pub fn offered<'a>(name: &str, names: impl Iterator<Item = &'a str>) -> String {
    let quoted: Vec<String> = nearest(name, names).into_iter().map(|name| format!("`{name}`")).collect();
    match quoted.split_last() {
        None => String::new(),
        Some((only, [])) => format!("; the nearest name is {only}"),
        Some((last, others)) => format!("; the nearest names are {} and {last}", others.join(", ")),
    }
}

/// How many letters must be put in, left out or changed to make one name the other. A letter in the other case is no change.
fn distance(one: &str, other: &str) -> usize {
    let letters = |name: &str| -> Vec<char> { name.chars().map(|letter| letter.to_ascii_lowercase()).collect() };
    let (one, other) = (letters(one), letters(other));
    // from the letters of `one` so far to each beginning of `other`
    let mut steps: Vec<usize> = (0..=other.len()).collect();
    for (k, letter) in one.iter().enumerate() {
        let before = std::mem::replace(&mut steps[0], k + 1);
        other.iter().enumerate().fold(before, |diagonal, (j, with)| {
            let above = steps[j + 1];
            steps[j + 1] = (above.min(steps[j]) + 1).min(diagonal + usize::from(letter != with));
            above
        });
    }
    steps[other.len()]
}
