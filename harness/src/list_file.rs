// A list of calls, a file of the folder lists: input for the program replay, where the comment after a command is its
// answer.
//
//     #= ANSWER    as a document publishes it. Where it ends in ` ..`, the words after that are not published.
//     #> ANSWER    as the reference writes it (harness/answers)

#[derive(Clone, Copy)]
pub enum Answer<'a> {
    Published(&'a [u8]),
    Written(&'a [u8]),
}

impl Answer<'_> {
    // Is this the answer, so far as it is published?
    pub fn agrees(self, came: &str) -> bool {
        let came = came.as_bytes();
        match self {
            Answer::Published(text) => match text.strip_suffix(b"..") {
                Some(front) if front.ends_with(b" ") => came.starts_with(front),
                _ => came == text,
            },
            Answer::Written(text) => came == text,
        }
    }

    pub fn text(self) -> String {
        match self {
            Answer::Published(text) | Answer::Written(text) => {
                String::from_utf8_lossy(text).into_owned()
            }
        }
    }
}

pub enum Kind<'a> {
    // A command, and its answer where the next line is one.
    Command(Option<Answer<'a>>),
    // An answer with no command in the line before it.
    Stray,
    // An empty line, or a comment that is no answer.
    Other,
}

// A line, or a command's line and its answer's. Lines are counted from 1.
pub struct Part<'a> {
    pub line: usize,
    pub text: &'a [u8],
    pub kind: Kind<'a>,
}

// The reference's answer may be left open.
fn answer_in(line: &[u8]) -> Option<Answer<'_>> {
    if line == b"#>" {
        return Some(Answer::Written(b""));
    }
    let published = line.strip_prefix(b"#= ").map(Answer::Published);
    published.or_else(|| line.strip_prefix(b"#> ").map(Answer::Written))
}

fn is_command(line: &[u8]) -> bool {
    !matches!(line.first(), None | Some(b'#'))
}

fn lines(list: &[u8]) -> impl Iterator<Item = &[u8]> {
    list.split_inclusive(|&b| b == b'\n')
        .map(|line| line.strip_suffix(b"\n").unwrap_or(line))
}

pub fn parts(list: &[u8]) -> Vec<Part<'_>> {
    let mut lines = (1..).zip(lines(list)).peekable();
    let mut parts = vec![];
    while let Some((line, text)) = lines.next() {
        let kind = if is_command(text) {
            let answer = lines.peek().and_then(|&(_, next)| answer_in(next));
            if answer.is_some() {
                lines.next();
            }
            Kind::Command(answer)
        } else if text.starts_with(b"#=") || text.starts_with(b"#>") {
            Kind::Stray
        } else {
            Kind::Other
        };
        parts.push(Part { line, text, kind });
    }
    parts
}

pub fn commands(list: &[u8]) -> usize {
    lines(list).filter(|line| is_command(line)).count()
}
