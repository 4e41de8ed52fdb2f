//! The pages of docs/REFUSALS.md, the one source of what is told about a refusal.

use std::sync::OnceLock;

const PAGES: &str = include_str!("../../docs/REFUSALS.md");
const PLACE: &str = "Place: ";
const MEND: &str = "To mend it: ";

/// The page of a refusal.
#[derive(Clone, Copy)]
pub struct Page {
    pub number: u32,
    pub title: &'static str,
    pub text: &'static str,
}

impl Page {
    /// The rule in one paragraph.
    pub fn rule(&self) -> &'static str {
        self.text.split("\n\n").nth(1).unwrap_or_default().trim()
    }

    pub fn mend(&self) -> &'static str {
        self.line_after(MEND)
    }

    /// Whether the place tells nothing about the text.
    pub fn has_no_place(&self) -> bool {
        self.line_after(PLACE).starts_with("Always 0")
    }

    pub fn has_example(&self) -> bool {
        self.text.contains("\n```")
    }

    fn line_after(&self, start: &str) -> &'static str {
        self.text.lines().find_map(|line| line.strip_prefix(start)).unwrap_or_default()
    }
}

/// All pages, found once: a day has hundreds of refusals.
pub fn pages() -> impl Iterator<Item = Page> {
    static FOUND: OnceLock<Vec<Page>> = OnceLock::new();
    let found = FOUND.get_or_init(|| PAGES.split("\n## ").skip(1).filter_map(page).collect());
    found.iter().copied()
}

pub fn page_of(number: u32) -> Option<Page> {
    pages().find(|page| page.number == number)
}

fn page(text: &'static str) -> Option<Page> {
    let (number, title) = text.lines().next()?.split_once(". ")?;
    Some(Page {
        number: number.parse().ok()?,
        title,
        text,
    })
}

#[cfg(test)]
mod tests {
    use super::*;

    #[test]
    fn every_refusal_has_a_whole_page() {
        let numbers: Vec<u32> = pages().map(|page| page.number).collect();
        assert_eq!(numbers, (1..=23).collect::<Vec<u32>>());
        for page in pages() {
            assert!(
                !page.title.is_empty() && !page.rule().is_empty() && !page.mend().is_empty(),
                "{}",
                page.number
            );
        }
        let without: Vec<u32> = pages().filter(Page::has_no_place).map(|page| page.number).collect();
        assert_eq!(without, [16, 17, 18, 21, 23]);
        let examples: Vec<u32> = pages().filter(Page::has_example).map(|page| page.number).collect();
        assert_eq!(examples, (1..=16).chain([22, 23]).collect::<Vec<u32>>());
    }
}
