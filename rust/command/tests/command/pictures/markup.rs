//! Whether a text is well-formed XML, and its elements in order.

/// An element's name and its attributes as they stand.
pub struct Element {
    pub name: String,
    pub attributes: Vec<(String, String)>,
    /// The text right after its opening tag.
    pub text: String,
}

impl Element {
    pub fn attribute(&self, name: &str) -> Option<&str> {
        let found = self.attributes.iter().find(|(it, _)| it == name);
        found.map(|(_, value)| value.as_str())
    }
}

/// The elements of a document; an error tells what is not well-formed.
pub fn elements(document: &str) -> Result<Vec<Element>, String> {
    let mut elements = Vec::new();
    let mut open: Vec<String> = Vec::new();
    let mut roots = 0;
    let mut pieces = document.split('<');
    let before = pieces.next().unwrap_or_default();
    is_text(before)?;
    for piece in pieces {
        let (tag, text) = piece
            .split_once('>')
            .ok_or(format!("an open tag: <{piece}"))?;
        is_text(text)?;
        if tag.starts_with(['!', '?']) {
            continue;
        }
        if let Some(name) = tag.strip_prefix('/') {
            close(&mut open, name.trim_end())?;
            continue;
        }
        let closed = tag.strip_suffix('/');
        let (name, attributes) = parts(closed.unwrap_or(tag))?;
        roots += usize::from(open.is_empty());
        if closed.is_none() {
            open.push(name.clone());
        }
        let text = text.to_string();
        elements.push(Element {
            name,
            attributes,
            text,
        });
    }
    match (open.pop(), roots) {
        (Some(name), _) => Err(format!("<{name}> is not closed")),
        (None, 1) => Ok(elements),
        (None, _) => Err(format!("{roots} elements at the top")),
    }
}

/// Closes the element that was opened last, which must have this name.
fn close(open: &mut Vec<String>, name: &str) -> Result<(), String> {
    match open.pop() {
        Some(last) if last == name => Ok(()),
        Some(last) => Err(format!("</{name}> closes <{last}>")),
        None => Err(format!("</{name}> closes nothing")),
    }
}

/// A tag's name and its attributes.
fn parts(tag: &str) -> Result<(String, Vec<(String, String)>), String> {
    let (name, mut rest) = tag.split_once(char::is_whitespace).unwrap_or((tag, ""));
    let is_name = |it: &str| {
        !it.is_empty()
            && it
                .chars()
                .all(|it| it.is_alphanumeric() || "-_:".contains(it))
    };
    let mut attributes: Vec<(String, String)> = Vec::new();
    while !rest.trim().is_empty() {
        let wrong = || format!("an attribute of <{tag}>");
        let (attribute, value) = rest.trim_start().split_once("=\"").ok_or_else(wrong)?;
        let (value, next) = value.split_once('"').ok_or_else(wrong)?;
        is_text(value)?;
        if !is_name(attribute) || attributes.iter().any(|(it, _)| it == attribute) {
            return Err(wrong());
        }
        attributes.push((attribute.to_string(), value.to_string()));
        rest = next;
    }
    match is_name(name) {
        true => Ok((name.to_string(), attributes)),
        false => Err(format!("a tag <{tag}>")),
    }
}

/// No character that XML forbids, and every & begins an entity.
fn is_text(text: &str) -> Result<(), String> {
    let forbidden =
        |it: char| it < ' ' && !"\n\t\r".contains(it) || "\u{FFFE}\u{FFFF}".contains(it);
    if text.contains(forbidden) {
        return Err(format!("a forbidden character in {text:?}"));
    }
    for piece in text.split('&').skip(1) {
        let entity = piece.split_once(';').map_or("", |(entity, _)| entity);
        let is_number = entity
            .strip_prefix('#')
            .is_some_and(|it| it.parse::<u32>().is_ok());
        if !is_number && !["amp", "lt", "gt", "quot", "apos"].contains(&entity) {
            return Err(format!("& without an entity: &{piece}"));
        }
    }
    Ok(())
}
