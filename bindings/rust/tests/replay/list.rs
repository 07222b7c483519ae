//! A list of calls: a command to a line, and its answer in the comment after it.
//!
//!     #= ANSWER    as a document publishes it; where it ends in ` ..`, the words after are not
//!     #> ANSWER    as the reference writes it, whole

/// A command's line, its number in the list, and its answer.
pub struct Command<'a> {
    pub line: &'a [u8],
    pub number: usize,
    answer: &'a [u8],
    published: bool,
}

impl Command<'_> {
    /// Whether this is the answer, as far as the list has it.
    pub fn agrees(&self, came: &str) -> bool {
        let front = self.answer.strip_suffix(b"..").filter(|_| self.published);
        match front {
            Some(front) => came.as_bytes().starts_with(front),
            None => came.as_bytes() == self.answer,
        }
    }

    pub fn text(&self) -> String {
        String::from_utf8_lossy(self.answer).into_owned()
    }
}

fn is_command(line: &[u8]) -> bool {
    !matches!(line.first(), None | Some(b'#'))
}

/// The list's commands. Each has to have its answer in the next line.
pub fn commands(list: &[u8]) -> Vec<Command<'_>> {
    let lines: Vec<&[u8]> = list.split(|&byte| byte == b'\n').collect();
    let pairs = lines.windows(2).zip(1..);
    let commands = pairs.filter(|(pair, _)| is_command(pair[0]));
    commands
        .map(|(pair, number)| command(pair[0], pair[1], number))
        .collect()
}

fn command<'a>(line: &'a [u8], next: &'a [u8], number: usize) -> Command<'a> {
    let published = next.strip_prefix(b"#= ");
    let answer = published.or_else(|| next.strip_prefix(b"#> "));
    Command {
        line,
        number,
        answer: answer.unwrap_or_else(|| panic!("line {} has no answer", number)),
        published: published.is_some(),
    }
}
