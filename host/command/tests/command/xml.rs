//! A strict little reader of XML: enough to say that a picture is well formed,
//! and what is in it.

/// An element with its attributes and the text straight inside it.
#[derive(Debug, Default)]
pub struct Element {
    pub name: String,
    pub attributes: Vec<(String, String)>,
    pub text: String,
}

impl Element {
    pub fn get(&self, name: &str) -> &str {
        let found = self.attributes.iter().find(|(known, _)| known == name);
        found.map_or("", |(_, value)| value)
    }

    pub fn number(&self, name: &str) -> f64 {
        let value = self.get(name);
        value
            .parse()
            .unwrap_or_else(|_| panic!("{name}='{value}' of {self:?}"))
    }
}

/// Every element in the order of its start, or why it is not well formed.
pub fn elements(text: &str) -> Result<Vec<Element>, String> {
    let mut rest = text.strip_prefix("<?xml version=\"1.0\" encoding=\"UTF-8\"?>");
    let mut all: Vec<Element> = Vec::new();
    let mut open: Vec<usize> = Vec::new();
    while let Some((content, after)) = rest.ok_or("no declaration")?.split_once('<') {
        inside(content, &mut all, &open)?;
        let (tag, after) = after.split_once('>').ok_or("a tag is left open")?;
        rest = Some(after);
        if let Some(name) = tag.strip_prefix('/') {
            let place = open.pop().ok_or("an end without a start")?;
            if all[place].name != name {
                return Err(format!("{} ends as {name}", all[place].name));
            }
            continue;
        }
        if open.is_empty() && !all.is_empty() {
            return Err("a second root".to_string());
        }
        let (tag, whole) = tag
            .strip_suffix('/')
            .map_or((tag, false), |tag| (tag, true));
        all.push(element(tag)?);
        if !whole {
            open.push(all.len() - 1);
        }
    }
    inside(rest.unwrap_or(""), &mut all, &open)?;
    match open.is_empty() && !all.is_empty() {
        true => Ok(all),
        false => Err("an element is left open".to_string()),
    }
}

fn inside(content: &str, all: &mut [Element], open: &[usize]) -> Result<(), String> {
    let text = plain(content)?;
    match open.last() {
        Some(&place) => all[place].text.push_str(&text),
        None if text.trim().is_empty() => {}
        None => return Err(format!("'{text}' outside the root")),
    }
    Ok(())
}

fn element(tag: &str) -> Result<Element, String> {
    let (name, mut rest) = tag.split_once(' ').unwrap_or((tag, ""));
    let mut element = Element {
        name: name.to_string(),
        ..Element::default()
    };
    while !rest.trim().is_empty() {
        let (name, value) = rest
            .split_once("=\"")
            .ok_or(format!("'{rest}' in <{tag}>"))?;
        let (value, after) = value.split_once('"').ok_or("an open quote")?;
        let name = name.trim().to_string();
        if name.contains(' ') || !element.get(&name).is_empty() {
            return Err(format!("the attribute '{name}' of <{tag}>"));
        }
        element.attributes.push((name, plain(value)?));
        rest = after;
    }
    Ok(element)
}

/// Entities undone; a bare & or control character is no XML.
fn plain(text: &str) -> Result<String, String> {
    let undone = text
        .replace("&lt;", "<")
        .replace("&gt;", ">")
        .replace("&quot;", "\"");
    let bare = undone.replace("&amp;", "");
    let control = |letter: char| letter.is_control() && letter != '\n';
    match bare.contains('&') || bare.contains(control) {
        true => Err(format!("a bare & or control character in '{text}'")),
        false => Ok(undone.replace("&amp;", "&")),
    }
}

#[test]
fn it_knows_bad_from_good() {
    let whole = |text: &str| elements(&format!("<?xml version=\"1.0\" encoding=\"UTF-8\"?>{text}"));
    assert_eq!(
        whole("<a x=\"1\"><b/>&amp;<c>t</c></a>\n").map(|all| all.len()),
        Ok(3)
    );
    for bad in [
        "",
        "<a>",
        "<a></b>",
        "<a/><b/>",
        "<a x=1/>",
        "<a>&</a>",
        "<a x=\"1\" x=\"2\"/>",
        "t",
    ] {
        assert!(whole(bad).is_err(), "{bad}");
    }
}
