//! Names that somebody may have meant.

use strsim::damerau_levenshtein;

/// The nearest of the names, if it is near: a third of its letters may differ, and case counts little.
pub fn nearest<'a>(name: &str, names: impl IntoIterator<Item = &'a str>) -> Option<&'a str> {
    let lower = name.to_lowercase();
    let scored = names.into_iter().filter(|known| *known != name).map(|known| {
        let distance = damerau_levenshtein(&lower, &known.to_lowercase());
        (distance, damerau_levenshtein(name, known), known)
    });
    let (distance, _, known) = scored.min()?;
    let most = name.chars().count().max(known.chars().count()) / 3;
    (distance <= most.max(usize::from(known.len() > 2))).then_some(known)
}

#[cfg(test)]
mod tests {
    use super::*;

    #[test]
    fn near_and_far() {
        let names = ["button", "open", "lamp[0]", "lamp[1]", "G"];
        assert_eq!(nearest("buton", names), Some("button"));
        assert_eq!(nearest("opne", names), Some("open"));
        assert_eq!(nearest("BUTTON", names), Some("button"));
        assert_eq!(nearest("lamp[2]", names), Some("lamp[0]"));
        assert_eq!(nearest("q", names), None);
        assert_eq!(nearest("velocity", names), None);
    }
}
