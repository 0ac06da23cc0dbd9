//! The parts of a page: HTML that is well-formed XML too, with its style in it.

use crate::svg::escaped;

const STYLE: &str = include_str!("page.css");

/// A page of this title; a line below it says what it is about.
pub fn page(title: &str, about: &str, sections: &[String]) -> String {
    let (title, about, sections) = (escaped(title), escaped(about), sections.concat());
    format!(
        "<!DOCTYPE html>\n<html lang='en'>\n<head>\n<meta charset='utf-8'/>\n\
         <meta name='viewport' content='width=device-width, initial-scale=1'/>\n<title>{title}</title>\n\
         <style>\n{STYLE}</style>\n</head>\n<body>\n<header>\n<h1>{title}</h1>\n<p class='lead'>{about}</p>\n\
         </header>\n<main>\n{sections}</main>\n</body>\n</html>\n"
    )
}

pub fn section(title: &str, parts: &[String]) -> String {
    format!("<section>\n<h2>{title}</h2>\n{}</section>\n", parts.concat())
}

pub fn paragraph(text: &str) -> String {
    format!("<p>{}</p>\n", escaped(text))
}

/// A list; nothing where it is empty.
pub fn list(items: &[String]) -> String {
    let items: String = items.iter().map(|item| format!("<li>{}</li>\n", escaped(item))).collect();
    if items.is_empty() {
        items
    } else {
        format!("<ul>\n{items}</ul>\n")
    }
}

pub fn figure(caption: &str, picture: &str) -> String {
    format!("<figure>\n<figcaption>{}</figcaption>\n{picture}</figure>\n", escaped(caption))
}

/// Parts beside each other where there is room, and else below each other; nothing where there is none.
pub fn beside(class: &str, parts: &[String]) -> String {
    if parts.is_empty() {
        String::new()
    } else {
        format!("<div class='{class}'>\n{}</div>\n", parts.concat())
    }
}

/// Names, and a value for each.
pub fn facts(rows: &[(&str, String)]) -> String {
    let row = |(name, value): &(&str, String)| row(name, std::slice::from_ref(value));
    format!("<table>\n<tbody>\n{}</tbody>\n</table>\n", rows.iter().map(row).collect::<String>())
}

/// A table of numbers below the names of its columns.
pub fn numbers(class: &str, caption: &str, columns: &[&str], rows: &[(String, Vec<String>)]) -> String {
    let head: String = columns.iter().map(|column| format!("<th scope='col'>{column}</th>")).collect();
    let rows: String = rows.iter().map(|(name, cells)| row(name, cells)).collect();
    let caption = if caption.is_empty() { String::new() } else { format!("<caption>{caption}</caption>\n") };
    format!(
        "<table class='{class}'>\n{caption}<thead>\n<tr>{head}</tr>\n</thead>\n\
         <tbody>\n{rows}</tbody>\n</table>\n"
    )
}

fn row(name: &str, cells: &[String]) -> String {
    let cells: String = cells.iter().map(|cell| format!("<td>{}</td>", escaped(cell))).collect();
    format!("<tr><th scope='row'>{name}</th>{cells}</tr>\n")
}
