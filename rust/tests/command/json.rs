//! Objects of JSON, read strictly: one object a line, of numbers, strings without escapes, and arrays of such strings.

/// The fields of an object, each with its value as it is written.
pub fn object(line: &str) -> Vec<(String, String)> {
    let inner = line
        .strip_prefix('{')
        .and_then(|rest| rest.strip_suffix('}'));
    let mut rest = inner.unwrap_or_else(|| panic!("no object: {line}"));
    let mut fields = vec![];
    loop {
        let (name, behind) = rest.split_once("\":").expect("a name");
        let end = value_end(behind);
        fields.push((string(&format!("{name}\"")), behind[..end].to_string()));
        if end == behind.len() {
            return fields;
        }
        rest = behind[end..].strip_prefix(',').expect("a comma");
    }
}

/// Where a value ends: at the first comma or the end, unless it is quoted or an array.
fn value_end(text: &str) -> usize {
    let closing = match text.as_bytes()[0] {
        b'"' => text[1..].find('"').map(|end| end + 2),
        b'[' => text.find(']').map(|end| end + 1),
        _ => Some(text.find(',').unwrap_or(text.len())),
    };
    closing.unwrap_or_else(|| panic!("no value: {text}"))
}

pub fn string(value: &str) -> String {
    let inner = value
        .strip_prefix('"')
        .and_then(|rest| rest.strip_suffix('"'));
    let plain = |text: &&str| !text.contains(['"', '\\']) && !text.contains(char::is_control);
    inner
        .filter(plain)
        .unwrap_or_else(|| panic!("no string: {value}"))
        .to_string()
}

pub fn strings(value: &str) -> Vec<String> {
    let inner = value
        .strip_prefix('[')
        .and_then(|rest| rest.strip_suffix(']'));
    match inner.unwrap_or_else(|| panic!("no array: {value}")) {
        "" => vec![],
        items => items.split(',').map(string).collect(),
    }
}

pub fn number(value: &str) -> usize {
    assert!(value == "0" || !value.starts_with(['0', '+']), "{value}");
    value
        .parse()
        .unwrap_or_else(|_| panic!("no number: {value}"))
}
