//! States in their JSON form, without the crate `serde`: a reader of any JSON, and a writer of states and texts.
use scm_record::{ChangeType, Commit, File, FileMode, RecordState, Section, SectionChangedLine};
use std::borrow::Cow;
use std::path::{Path, PathBuf};

/// A JSON value. Its numbers are whole.
#[derive(Clone, Debug, PartialEq)]
pub enum Json {
    Null,
    Flag(bool),
    Number(usize),
    Text(String),
    List(Vec<Json>),
    Object(Vec<(String, Json)>),
}

impl Json {
    /// Reads the value that `text` is.
    pub fn read(text: &str) -> Json {
        let mut reader = Reader { rest: text };
        let value = reader.value();
        reader.skip_blanks();
        assert_eq!(reader.rest, "", "text behind a JSON value");
        value
    }

    /// Returns the last member `name` of an object.
    fn member(&self, name: &str) -> &Json {
        let found = match self {
            Json::Object(members) => members.iter().rev().find(|member| member.0 == name),
            other => panic!("no object: {other:?}"),
        };
        &found.unwrap_or_else(|| panic!("no {name} in {self:?}")).1
    }

    fn flag(&self) -> bool {
        matches!(self, Json::Flag(true))
    }

    /// Returns the text that the value is.
    pub fn text(&self) -> &str {
        match self {
            Json::Text(text) => text,
            other => panic!("no text: {other:?}"),
        }
    }

    fn optional_text(&self) -> Option<String> {
        (*self != Json::Null).then(|| self.text().to_owned())
    }

    fn list(&self) -> &[Json] {
        match self {
            Json::List(values) => values,
            other => panic!("no list: {other:?}"),
        }
    }

    /// Returns the variant of an enum, and what it has.
    fn variant(&self) -> (&str, &Json) {
        match self {
            Json::Object(members) if members.len() == 1 => (&members[0].0, &members[0].1),
            Json::Text(name) => (name, &Json::Null),
            other => panic!("no variant: {other:?}"),
        }
    }
}

/// Reads JSON from the front of a text.
struct Reader<'a> {
    rest: &'a str,
}

impl<'a> Reader<'a> {
    fn skip_blanks(&mut self) {
        self.rest = self.rest.trim_start_matches([' ', '\t', '\n', '\r']);
    }

    fn take(&mut self, token: &str) -> bool {
        self.skip_blanks();
        let after = self.rest.strip_prefix(token);
        self.rest = after.unwrap_or(self.rest);
        after.is_some()
    }

    fn expect(&mut self, token: &str) {
        assert!(self.take(token), "no {token} before {:.40}", self.rest);
    }

    fn value(&mut self) -> Json {
        for (token, value) in [
            ("null", Json::Null),
            ("true", Json::Flag(true)),
            ("false", Json::Flag(false)),
        ] {
            if self.take(token) {
                return value;
            }
        }
        if self.take("[") {
            return Json::List(self.items("]", Reader::value));
        }
        if self.take("{") {
            return Json::Object(self.items("}", Reader::member));
        }
        if self.take("\"") {
            return Json::Text(self.text());
        }
        let digits = self.rest.trim_start_matches(|it: char| it.is_ascii_digit());
        let (number, rest) = self.rest.split_at(self.rest.len() - digits.len());
        self.rest = rest;
        Json::Number(number.parse().expect("a whole number"))
    }

    /// Reads items with commas between them, up to `end`.
    fn items<T>(&mut self, end: &str, item: impl Fn(&mut Self) -> T) -> Vec<T> {
        let mut items = Vec::new();
        if self.take(end) {
            return items;
        }
        loop {
            items.push(item(self));
            if self.take(end) {
                return items;
            }
            self.expect(",");
        }
    }

    fn member(&mut self) -> (String, Json) {
        self.expect("\"");
        let name = self.text();
        self.expect(":");
        (name, self.value())
    }

    fn next(&mut self) -> char {
        let next = self.rest.chars().next().expect("a text ends");
        self.rest = &self.rest[next.len_utf8()..];
        next
    }

    /// Reads a text behind its first quote.
    fn text(&mut self) -> String {
        let mut text = String::new();
        loop {
            match self.next() {
                '"' => return text,
                '\\' => text.push(self.escaped()),
                other => text.push(other),
            }
        }
    }

    /// Reads a character behind its backslash.
    fn escaped(&mut self) -> char {
        match self.next() {
            'b' => '\u{8}',
            'f' => '\u{c}',
            'n' => '\n',
            'r' => '\r',
            't' => '\t',
            'u' => {
                let first = self.unit();
                if !(0xd800..0xdc00).contains(&first) {
                    return char::from_u32(first).expect("a character");
                }
                self.expect("\\u");
                let second = self.unit();
                let code = 0x10000 + ((first - 0xd800) << 10) + (second - 0xdc00);
                char::from_u32(code).expect("a character of two halves")
            }
            other => other,
        }
    }

    fn unit(&mut self) -> u32 {
        let (digits, rest) = self.rest.split_at(4);
        self.rest = rest;
        u32::from_str_radix(digits, 16).expect("four digits")
    }
}

/// Returns the state of which `text` is the JSON form.
pub fn state_of_json(text: &str) -> RecordState<'static> {
    let json = Json::read(text);
    let commit_of = |commit: &Json| Commit {
        message: commit.member("message").optional_text(),
    };
    RecordState {
        is_read_only: json.member("is_read_only").flag(),
        commits: json
            .member("commits")
            .list()
            .iter()
            .map(commit_of)
            .collect(),
        files: json.member("files").list().iter().map(file_of).collect(),
    }
}

fn path_of(text: &str) -> Cow<'static, Path> {
    Cow::Owned(PathBuf::from(text))
}

fn mode_of(json: &Json) -> FileMode {
    match json.variant() {
        ("Unix", Json::Number(bits)) => FileMode::Unix(*bits),
        ("Absent", Json::Null) => FileMode::Absent,
        other => panic!("no mode: {other:?}"),
    }
}

fn file_of(json: &Json) -> File<'static> {
    let old_path = json.member("old_path").optional_text();
    let sections = json.member("sections").list();
    File {
        old_path: old_path.as_deref().map(path_of),
        path: path_of(json.member("path").text()),
        file_mode: mode_of(json.member("file_mode")),
        sections: sections.iter().map(section_of).collect(),
    }
}

fn section_of(json: &Json) -> Section<'static> {
    let is_checked = |json: &Json| json.member("is_checked").flag();
    let description = |json: &Json, name: &str| json.member(name).optional_text().map(Cow::Owned);
    match json.variant() {
        ("Unchanged", json) => {
            let lines = json.member("lines").list().iter();
            Section::Unchanged {
                lines: lines
                    .map(|line| Cow::Owned(line.text().to_owned()))
                    .collect(),
            }
        }
        ("Changed", json) => Section::Changed {
            lines: json.member("lines").list().iter().map(line_of).collect(),
        },
        ("FileMode", json) => Section::FileMode {
            is_checked: is_checked(json),
            mode: mode_of(json.member("mode")),
        },
        ("Binary", json) => Section::Binary {
            is_checked: is_checked(json),
            old_description: description(json, "old_description"),
            new_description: description(json, "new_description"),
        },
        other => panic!("no section: {other:?}"),
    }
}

fn line_of(json: &Json) -> SectionChangedLine<'static> {
    SectionChangedLine {
        is_checked: json.member("is_checked").flag(),
        change_type: match json.member("change_type").text() {
            "Added" => ChangeType::Added,
            _ => ChangeType::Removed,
        },
        line: Cow::Owned(json.member("line").text().to_owned()),
    }
}

/// Returns `text` as JSON has it.
pub fn json_of_text(text: &str) -> String {
    let mut json = String::from("\"");
    for it in text.chars() {
        match it {
            '"' => json.push_str("\\\""),
            '\\' => json.push_str("\\\\"),
            '\u{8}' => json.push_str("\\b"),
            '\u{c}' => json.push_str("\\f"),
            '\n' => json.push_str("\\n"),
            '\r' => json.push_str("\\r"),
            '\t' => json.push_str("\\t"),
            '\0'..='\u{1f}' => json.push_str(&format!("\\u{:04x}", u32::from(it))),
            other => json.push(other),
        }
    }
    json.push('"');
    json
}

/// Returns a text as JSON has it, or `null`.
pub fn json_of_optional(text: Option<&str>) -> String {
    text.map_or_else(|| "null".to_owned(), json_of_text)
}

fn json_of_list<T>(items: &[T], json_of: impl Fn(&T) -> String) -> String {
    format!(
        "[{}]",
        items.iter().map(json_of).collect::<Vec<_>>().join(",")
    )
}

fn json_of_path(path: &Path) -> String {
    json_of_text(path.to_str().expect("a path in UTF-8"))
}

fn json_of_mode(mode: FileMode) -> String {
    match mode {
        FileMode::Unix(bits) => format!("{{\"Unix\":{bits}}}"),
        FileMode::Absent => "\"Absent\"".to_owned(),
    }
}

/// Returns the JSON form of `state`.
pub fn json_of_state(state: &RecordState<'_>) -> String {
    let commit = |commit: &Commit| {
        let message = json_of_optional(commit.message.as_deref());
        format!("{{\"message\":{message}}}")
    };
    format!(
        "{{\"is_read_only\":{},\"commits\":{},\"files\":{}}}",
        state.is_read_only,
        json_of_list(&state.commits, commit),
        json_of_list(&state.files, json_of_file)
    )
}

fn json_of_file(file: &File<'_>) -> String {
    let old_path = file.old_path.as_deref().map(json_of_path);
    format!(
        "{{\"old_path\":{},\"path\":{},\"file_mode\":{},\"sections\":{}}}",
        old_path.as_deref().unwrap_or("null"),
        json_of_path(&file.path),
        json_of_mode(file.file_mode),
        json_of_list(&file.sections, json_of_section)
    )
}

fn json_of_section(section: &Section<'_>) -> String {
    match section {
        Section::Unchanged { lines } => {
            let lines = json_of_list(lines, |line| json_of_text(line));
            format!("{{\"Unchanged\":{{\"lines\":{lines}}}}}")
        }
        Section::Changed { lines } => {
            let lines = json_of_list(lines, json_of_line);
            format!("{{\"Changed\":{{\"lines\":{lines}}}}}")
        }
        Section::FileMode { is_checked, mode } => {
            let mode = json_of_mode(*mode);
            format!("{{\"FileMode\":{{\"is_checked\":{is_checked},\"mode\":{mode}}}}}")
        }
        Section::Binary {
            is_checked,
            old_description,
            new_description,
        } => {
            let old = json_of_optional(old_description.as_deref());
            let new = json_of_optional(new_description.as_deref());
            format!(
                "{{\"Binary\":{{\"is_checked\":{is_checked},\"old_description\":{old},\"new_description\":{new}}}}}"
            )
        }
    }
}

fn json_of_line(line: &SectionChangedLine<'_>) -> String {
    format!(
        "{{\"is_checked\":{},\"change_type\":\"{:?}\",\"line\":{}}}",
        line.is_checked,
        line.change_type,
        json_of_text(&line.line)
    )
}
