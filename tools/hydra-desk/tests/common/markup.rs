//! As much of XML as a page is held to: elements that close, attributes in quotes, no loose marks.

use std::collections::BTreeSet;

pub struct Element {
    pub name: String,
    pub attributes: Vec<(String, String)>,
}

impl Element {
    pub fn attribute(&self, name: &str) -> Option<&str> {
        self.attributes
            .iter()
            .find(|(known, _)| known == name)
            .map(|(_, value)| value.as_str())
    }

    pub fn has_class(&self, class: &str) -> bool {
        self.attribute("class")
            .is_some_and(|classes| classes.split(' ').any(|known| known == class))
    }
}

pub struct Page {
    pub elements: Vec<Element>,
    /// The texts between tags, one by one, with the name of the element they stand in.
    pub texts: Vec<(String, String)>,
}

impl Page {
    pub fn count(&self, holds: impl Fn(&Element) -> bool) -> usize {
        self.elements
            .iter()
            .filter(|element| holds(element))
            .count()
    }
}

/// Reads a page, and fails where it is not well formed.
pub fn read(text: &str) -> Page {
    let mut page = Page {
        elements: Vec::new(),
        texts: Vec::new(),
    };
    let mut open: Vec<String> = Vec::new();
    let mut rest = text.strip_prefix("<!doctype html>\n").unwrap_or(text);
    while let Some(start) = rest.find('<') {
        let (before, behind) = rest.split_at(start);
        let end = behind.find('>').expect("a tag ends");
        let (tag, after) = (&behind[1..end], &behind[end + 1..]);
        let plain = unescaped(before);
        if let (false, Some(inside)) = (plain.trim().is_empty(), open.last()) {
            page.texts.push((inside.clone(), plain));
        }
        rest = after;
        if let Some(name) = tag.strip_prefix('/') {
            assert_eq!(
                open.pop().as_deref(),
                Some(name),
                "an element is closed that is not open"
            );
            continue;
        }
        let (tag, closed) = match tag.strip_suffix('/') {
            Some(tag) => (tag, true),
            None => (tag, false),
        };
        let element = element(tag);
        if !closed {
            open.push(element.name.clone());
        }
        page.elements.push(element);
    }
    assert!(open.is_empty(), "not closed: {open:?}");
    assert_eq!(rest.trim(), "");
    let ids: Vec<&str> = page
        .elements
        .iter()
        .filter_map(|element| element.attribute("id"))
        .collect();
    let different: BTreeSet<&str> = ids.iter().copied().collect();
    assert_eq!(ids.len(), different.len(), "an id is there twice");
    for element in &page.elements {
        if let Some(target) = element.attribute("href") {
            let id = target.strip_prefix('#').expect("links stay on the page");
            assert!(different.contains(id), "{target} leads nowhere");
        }
    }
    page
}

fn element(tag: &str) -> Element {
    let (name, mut rest) = tag.split_once(' ').unwrap_or((tag, ""));
    assert!(name.chars().all(|c| c.is_ascii_alphanumeric()), "{name}");
    let mut attributes: Vec<(String, String)> = Vec::new();
    while !rest.trim().is_empty() {
        let (key, behind) = rest
            .split_once("=\"")
            .unwrap_or_else(|| panic!("attributes have values: {tag}"));
        let (value, after) = behind.split_once('"').expect("a value ends");
        let key = key.trim().to_string();
        assert!(
            attributes.iter().all(|(known, _)| *known != key),
            "{key} is there twice: {tag}"
        );
        attributes.push((key, unescaped(value)));
        rest = after;
    }
    Element {
        name: name.to_string(),
        attributes,
    }
}

fn unescaped(text: &str) -> String {
    let plain = text
        .replace("&lt;", "<")
        .replace("&gt;", ">")
        .replace("&quot;", "\"");
    let loose = plain.replace("&amp;", "");
    assert!(!loose.contains('&'), "a loose mark: {text}");
    plain.replace("&amp;", "&")
}
