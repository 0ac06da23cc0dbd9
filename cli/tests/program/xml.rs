//! Whether a text is a well-formed XML element of the kind that a picture needs: elements, attributes in single
//! quotes and text.

/// What is wrong, and where.
pub fn check(text: &str) -> Result<(), String> {
    let mut open: Vec<&str> = Vec::new();
    let mut rest = text.trim_end();
    let mut elements = 0;
    while !rest.is_empty() {
        if elements > 0 && open.is_empty() {
            return Err(format!("{:?} follows the picture", front(rest)));
        }
        let Some(inside) = rest.strip_prefix('<') else {
            let end = rest.find('<').unwrap_or(rest.len());
            characters(&rest[..end])?;
            rest = &rest[end..];
            continue;
        };
        let end = inside.find('>').ok_or_else(|| format!("{:?} does not end", front(rest)))?;
        let tag = &inside[..end];
        rest = &inside[end + 1..];
        if let Some(name) = tag.strip_prefix('/') {
            if open.pop() != Some(name) {
                return Err(format!("</{name}> closes another element"));
            }
            continue;
        }
        let (tag, closed) = tag.strip_suffix('/').map_or((tag, false), |tag| (tag, true));
        let name = tag.split(' ').next().unwrap_or("");
        if name.is_empty() || !name.chars().all(|c| c.is_ascii_alphanumeric()) {
            return Err(format!("<{tag}> has no name"));
        }
        attributes(&tag[name.len()..])?;
        elements += 1;
        if !closed {
            open.push(name);
        }
    }
    if elements == 0 || !open.is_empty() {
        return Err(format!("{elements} elements, {open:?} are open"));
    }
    Ok(())
}

fn front(text: &str) -> String {
    text.chars().take(30).collect()
}

/// Pairs of a name and a value in single quotes, each name once, a blank before each.
fn attributes(mut rest: &str) -> Result<(), String> {
    let mut names = Vec::new();
    while !rest.is_empty() {
        let wrong = || format!("attributes {:?}", front(rest));
        let (name, value) = rest.strip_prefix(' ').and_then(|rest| rest.split_once("='")).ok_or_else(wrong)?;
        let (value, after) = value.split_once('\'').ok_or_else(wrong)?;
        if name.is_empty() || !name.chars().all(|c| c.is_ascii_alphanumeric() || c == '-') || names.contains(&name) {
            return Err(wrong());
        }
        characters(value)?;
        names.push(name);
        rest = after;
    }
    Ok(())
}

/// No control character but a newline, and no `&` but that of an entity.
fn characters(text: &str) -> Result<(), String> {
    if let Some(c) = text.chars().find(|&c| c.is_control() && c != '\n') {
        return Err(format!("{c:?} in a text"));
    }
    let known = ["amp;", "lt;", "gt;"];
    match text.split('&').skip(1).find(|after| !known.iter().any(|entity| after.starts_with(entity))) {
        Some(after) => Err(format!("&{} is no entity", front(after))),
        None => Ok(()),
    }
}

#[test]
fn ill_formed() {
    for text in [
        "",
        "text",
        "<a>",
        "<a></b>",
        "<a/><b/>",
        "<a b></a>",
        "<a b='1' b='2'/>",
        "<a b='1'c='2'/>",
        "<a>&</a>",
        "<a>&nbsp;</a>",
        "<a b='<'/>x",
        "<a><b></a></b>",
        "<a",
        "<a>\u{1}</a>",
    ] {
        assert!(check(text).is_err(), "{text}");
    }
    assert_eq!(check("<a b='1' c='&amp;'>x<d/>\n<e>&lt;</e></a>\n"), Ok(()));
}
