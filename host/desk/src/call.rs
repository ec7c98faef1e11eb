//! The command line: verbs, options, files, and what `--help` says.

use crate::mistakes::nearest;

/// What is asked for.
#[derive(Clone, Copy, Debug, PartialEq, Eq)]
pub enum Verb {
    /// Find a converter.
    Search,
    /// Judge a converter.
    Judge,
    /// Say what stands against a converter.
    Why,
    /// Show a page or a drawing.
    Show,
    /// Run a converter tick by tick.
    Run,
}

/// A call of the program.
#[derive(Clone, Debug, PartialEq, Eq)]
pub struct Call {
    /// The verb.
    pub verb: Verb,
    /// The files; `-` is standard input. There is at least one.
    pub files: Vec<String>,
    /// Fill in the page.
    pub write: bool,
    /// The folder for the files of the library.
    pub out: Option<String>,
    /// A drawing in Graphviz's language.
    pub dot: bool,
    /// A drawing as SVG.
    pub svg: bool,
}

/// What the words of a command line are.
#[derive(Clone, Debug, PartialEq, Eq)]
pub enum Asked {
    /// A call.
    Call(Call),
    /// This text is asked for.
    Text(String),
}

/// A verb on the command line: its options, how many files it takes at the most, its help.
struct Form {
    verb: Verb,
    word: &'static str,
    options: &'static [&'static str],
    files: usize,
    help: &'static str,
}

const FORMS: [Form; 5] = [
    Form {
        verb: Verb::Search,
        word: "search",
        options: &["--write", "--out", "--svg"],
        files: 1,
        help: "\
usage: gorzhani search [--write] [--out DIR] [--svg] [PAGE]

Finds a converter for the design of a page, or learns that none of any size
exists. Writes the rules, the verdict, with how long rules wait, and the
converter to standard output.

  --write    fill in the page's sections Verdict and Converter instead; of a
             page from standard input, write the page to standard output
  --out DIR  write NAME.design and, where one is found, NAME.converter to DIR
  --svg      with --write or --out: draw NAME.svg beside them too, by Graphviz;
             the page then shows it

Exit status: 0 a converter was found, 1 none exists, 2 a mistake in the input
or the call.
",
    },
    Form {
        verb: Verb::Judge,
        word: "judge",
        options: &[],
        files: 2,
        help: "\
usage: gorzhani judge [PAGE [FILE.converter]]

Judges the converter in the page's section Converter, or that of a file: yes,
if it is matched to the tables and keeps every rule on every path. With a yes
it says of each rule A [ f U g ] or AF g how many ticks it waits at the most.
Where it says no, it says why: the records that aren't matched, or the first
rule that fails and the run that breaks it.

Exit status: 0 yes, 1 no, 2 a mistake in the input or the call.
",
    },
    Form {
        verb: Verb::Why,
        word: "why",
        options: &[],
        files: 1,
        help: "\
usage: gorzhani why [PAGE]

Where no converter exists: the smallest sets of rules that can't be kept
together, and which single change of a table would help, a delayed state that
sends at once or an input state that may tick.

Exit status: 0 a converter exists, 1 none exists, 2 a mistake in the input or
the call.
",
    },
    Form {
        verb: Verb::Show,
        word: "show",
        options: &["--dot", "--svg"],
        files: 2,
        help: "\
usage: gorzhani show [--dot | --svg] [PAGE] [FILE.converter]
       gorzhani show [--dot | --svg] FILE.design [FILE.converter]
       gorzhani show [--dot | --svg] FILE.converter

Writes the page with its numbers and what the judge says to the converter on
it. A design or a converter from a file has numbers for names.

  --dot  write a drawing of the sides and of the converter in Graphviz's
         language instead
  --svg  write it as SVG, by Graphviz

Exit status: 0, or 2 for a mistake in the input or the call.
",
    },
    Form {
        verb: Verb::Run,
        word: "run",
        options: &[],
        files: 2,
        help: "\
usage: gorzhani run PAGE [TICKS]

Runs the converter on the page, or the one that the search finds where there is
none: a line of TICKS (or of standard input) is a tick.

  press             the side that sends 'press' does so now
  host.press        the same, with its side: kernel, host or third
  press, done       several sides send
  host.tick         the side sends nothing
  tick, empty line  nobody sends who doesn't have to
  restart           begin again
  help              these words
  quit              end; so does the end of the file
  # words           are passed over

Exit status: 0 every tick was done, 1 a show was refused, or there is no
converter that is matched to the tables, 2 a mistake in the input or the call.
At a prompt, where both can be mended, it is 0.
",
    },
];

const HELP: &str = "\
usage: gorzhani VERB [OPTIONS] [PAGE]

Converters between the tables of a kernel, a host and a third side: searched,
judged and run by a proved library.

  search PAGE               find a converter, or learn that none exists
  judge PAGE [CONVERTER]    judge the page's converter, or a file's
  why PAGE                  learn what stands against a converter
  show PAGE                 the page; --dot and --svg draw it
  run PAGE [TICKS]          run the converter, tick by tick

PAGE is a page of Markdown (docs/DESK.md) or a .design file; without one, or
for -, standard input is read. `gorzhani VERB --help` says more of each, and
`gorzhani --version` which one this is.

Exit status: 0 yes or found, 1 no or none, 2 a mistake in the input or the call.
";

/// Reads a command line; a mistake in words.
pub fn asked(words: &[String]) -> Result<Asked, String> {
    let Some((first, rest)) = words.split_first() else {
        return Err(format!("no verb\n\n{HELP}"));
    };
    match first.as_str() {
        "--help" | "-h" | "help" => return Ok(Asked::Text(HELP.to_string())),
        "--version" | "-V" => {
            return Ok(Asked::Text(format!("gorzhani {}\n", env!("CARGO_PKG_VERSION"))));
        }
        _ => {}
    }
    let Some(form) = FORMS.iter().find(|form| form.word == first) else {
        let near = nearest(first, FORMS.iter().map(|form| form.word));
        let near = near.map_or(String::new(), |verb| format!("; there is '{verb}'"));
        return Err(format!("no verb '{first}'{near} (gorzhani --help lists them)"));
    };
    form.asked(rest)
}

impl Form {
    fn asked(&self, words: &[String]) -> Result<Asked, String> {
        let mut call = Call {
            verb: self.verb,
            files: vec![],
            write: false,
            out: None,
            dot: false,
            svg: false,
        };
        let mut words = words.iter();
        let mut options = true;
        while let Some(word) = words.next() {
            let option = word.split('=').next().unwrap_or(word);
            match option {
                "--" if options => options = false,
                "--help" | "-h" if options => return Ok(Asked::Text(self.help.to_string())),
                option if options && option.starts_with('-') && option.len() > 1 => {
                    if !self.options.contains(&option) {
                        return Err(self.unknown(option));
                    }
                    let value = word.strip_prefix(option).and_then(|rest| rest.strip_prefix('='));
                    match option {
                        "--out" => {
                            let value = value.or_else(|| words.next().map(String::as_str));
                            let value = value.filter(|folder| !folder.is_empty());
                            call.out = Some(value.ok_or("--out wants a folder")?.to_string());
                        }
                        _ if value.is_some() => return Err(format!("{option} takes no value")),
                        "--write" => call.write = true,
                        "--dot" => call.dot = true,
                        _ => call.svg = true,
                    }
                }
                _ => call.files.push(word.clone()),
            }
        }
        self.checked(call).map(Asked::Call)
    }

    fn unknown(&self, option: &str) -> String {
        let near = nearest(option, self.options.iter().copied());
        let near = near.map_or(String::new(), |known| format!("; there is '{known}'"));
        format!("{} has no option '{option}'{near} (gorzhani {} --help)", self.word, self.word)
    }

    /// The call, if its parts go together.
    fn checked(&self, mut call: Call) -> Result<Call, String> {
        let word = self.word;
        if call.files.len() > self.files {
            let file = &call.files[self.files];
            return Err(format!("{word} takes no further file '{file}' (gorzhani {word} --help)"));
        }
        if call.dot && call.svg {
            return Err("--dot or --svg, one of them".to_string());
        }
        if call.verb == Verb::Search && call.svg && !call.write && call.out.is_none() {
            return Err(
                "search --svg goes with --write or --out (show --svg draws to standard output)"
                    .to_string(),
            );
        }
        if call.files.is_empty() {
            call.files.push("-".to_string());
        }
        if call.files.len() == 2 && call.files.iter().all(|file| file == "-") {
            return Err("standard input can be read once".to_string());
        }
        if call.verb == Verb::Run && call.files == ["-"] {
            return Err(
                "run reads ticks from standard input, and wants the page as a file".to_string()
            );
        }
        Ok(call)
    }
}
