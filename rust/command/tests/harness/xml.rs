//! A small reader of XML, which takes nothing that is not well-formed. Of declarations it knows the first line alone.

#[derive(Clone, Debug, PartialEq, Eq)]
pub struct Element {
    pub name: String,
    attributes: Vec<(String, String)>,
    pub children: Vec<Element>,
    /// The text in it, without that of its children.
    pub text: String,
}

impl Element {
    /// The whole text is one element.
    pub fn read(text: &str) -> Element {
        let rest = text.strip_prefix("<?xml version=\"1.0\" encoding=\"UTF-8\"?>\n").expect("a declaration");
        let legal =
            |letter: char| matches!(letter, '\n' | ' '..='\u{d7ff}' | '\u{e000}'..='\u{fffd}' | '\u{10000}'..) && letter != '\u{7f}';
        assert!(rest.chars().all(legal), "a letter that XML does not have");
        let mut reader = Reader { rest };
        let element = reader.element();
        assert_eq!(reader.rest.trim_start(), "", "nothing follows");
        element
    }

    pub fn attribute(&self, name: &str) -> Option<&str> {
        self.attributes.iter().find(|(of, _)| of == name).map(|(_, value)| value.as_str())
    }

    /// The same where it must be there.
    pub fn needs(&self, name: &str) -> &str {
        self.attribute(name).unwrap_or_else(|| panic!("{} has {name}", self.name))
    }

    /// Itself and all that is in it.
    pub fn all(&self) -> Vec<&Element> {
        let inside = self.children.iter().flat_map(Element::all);
        std::iter::once(self).chain(inside).collect()
    }

    /// The texts of all in it that are of this class, which may be one of several.
    pub fn texts(&self, class: &str) -> Vec<&str> {
        let is_of = |element: &&Element| element.attribute("class").is_some_and(|classes| classes.split(' ').any(|of| of == class));
        self.all().into_iter().filter(is_of).map(|element| element.text.as_str()).collect()
    }
}

struct Reader<'a> {
    rest: &'a str,
}

impl<'a> Reader<'a> {
    fn takes(&mut self, sign: &str) -> bool {
        let rest = self.rest.strip_prefix(sign);
        self.rest = rest.unwrap_or(self.rest);
        rest.is_some()
    }

    fn needs(&mut self, sign: &str) {
        assert!(self.takes(sign), "{sign} before {:.40}", self.rest);
    }

    /// What stands before the first of these signs, of which there must be one.
    fn until(&mut self, signs: &[char]) -> &'a str {
        let (before, rest) = self.rest.split_at(self.rest.find(signs).expect("it goes on"));
        self.rest = rest;
        before
    }

    fn name(&mut self) -> String {
        let end = self.rest.find(|letter: char| !letter.is_ascii_alphanumeric() && letter != '-').expect("it goes on");
        let (name, rest) = self.rest.split_at(end);
        assert!(name.starts_with(|letter: char| letter.is_ascii_alphabetic()), "a name before {rest:.40}");
        self.rest = rest;
        name.to_string()
    }

    fn element(&mut self) -> Element {
        self.needs("<");
        let mut element = Element { name: self.name(), attributes: vec![], children: vec![], text: String::new() };
        while self.takes(" ") {
            let name = self.name();
            self.needs("=\"");
            let value = meant(self.until(&['"', '<']));
            self.needs("\"");
            assert_eq!(element.attribute(&name), None, "an attribute is given once");
            element.attributes.push((name, value));
        }
        if self.takes("/>") {
            return element;
        }
        self.needs(">");
        loop {
            element.text += &meant(self.until(&['<']));
            if self.takes("</") {
                break;
            }
            element.children.push(self.element());
        }
        assert_eq!(self.name(), element.name, "what is opened last is closed first");
        self.needs(">");
        element
    }
}

/// The letters that a text stands for.
fn meant(text: &str) -> String {
    let mut pieces = text.split('&');
    let first = pieces.next().unwrap_or_default().to_string();
    pieces.fold(first, |meant, piece| {
        let (name, rest) = piece.split_once(';').expect("a name of a letter");
        let letters = [("amp", '&'), ("lt", '<'), ("gt", '>'), ("quot", '"'), ("apos", '\'')];
        let letter = letters.iter().find(|(of, _)| *of == name).unwrap_or_else(|| panic!("there is no letter {name}")).1;
        format!("{meant}{letter}{rest}")
    })
}
