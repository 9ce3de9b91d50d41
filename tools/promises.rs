//! Says which public functions of the library crates lack an `ensures` or have a `requires`, by the text of
//! crates/*/src alone, and holds the list of promises in docs/PROMISES.md against it. Run by the script beside
//! it, from the repository's root.
//!
//! A program owes no promise: only crates with src/lib.rt are looked at. A `pub fn` of a module that lib.rt
//! declares by plain `mod` is reached by no other crate and counts as private, unless a `pub use` of lib.rt
//! hands it on. A `pub fn` of an `impl` block is reached by its type, wherever the block stands: it counts where lib.rt has
//! the type as `pub`. A conversion (`impl From`, `impl TryFrom`) counts where lib.rt has one of its two types as `pub`; its promise
//! is the block's ghost member. An exported function is always public, and has to have the promise of a library's function of its name.

use std::{
    env, fs,
    path::{Path, PathBuf},
    process::ExitCode,
};

/// Where the list stands that is made from the sources.
const LISTED: &str = "docs/PROMISES.md";

/// What stands before and behind the list.
const MARKS: [&str; 2] = ["<!-- made by tools/promises --write -->\n", "<!-- end -->\n"];

#[derive(Clone, Copy, PartialEq)]
enum Task {
    Count,
    ListAll,
    /// Writes the list anew.
    Write,
}

#[derive(Default)]
struct Counts {
    public: usize,
    promised: usize,
    bare: usize,
    demanding: usize,
    private: usize,
    /// A line of the list for each public function, and its name.
    lines: Vec<(String, String)>,
    /// Each exported function's name and promise.
    exports: Vec<(String, String)>,
    /// The same of each function of a library's lib.rt.
    libraries: Vec<(String, String)>,
}

#[derive(Debug)]
struct Function<'a> {
    line: usize,
    name: &'a str,
    /// The type whose `impl` block has it.
    owner: Option<&'a str>,
    public: bool,
    exported: bool,
    ensures: Vec<&'a str>,
    requires: bool,
}

/// A conversion from one type into another, by a block `impl From` or `impl TryFrom`.
struct Conversion<'a> {
    line: usize,
    /// `from` or `try_from`.
    name: &'a str,
    source: &'a str,
    goal: &'a str,
    /// The ghost member that says what it gives.
    promise: Option<&'a str>,
}

fn main() -> ExitCode {
    let words: Vec<String> = env::args().skip(1).collect();
    let task = match words.iter().map(String::as_str).collect::<Vec<_>>()[..] {
        [] => Task::Count,
        ["--all"] => Task::ListAll,
        ["--write"] => Task::Write,
        _ => {
            eprintln!("usage: tools/promises [--all | --write]");
            return ExitCode::from(2);
        }
    };
    let mut counts = Counts::default();
    for source_folder in entries(Path::new("crates")).into_iter().map(|path| path.join("src")) {
        look_at_crate(&source_folder, task == Task::ListAll, &mut counts);
    }
    let Counts {
        public,
        promised,
        bare,
        demanding,
        private,
        lines,
        exports,
        libraries,
    } = counts;
    println!(
        "promises: {public} public functions: {promised} with a promise and no requires, {bare} with no promise, \
         {demanding} with a requires; {private} private"
    );
    if public == 0 {
        println!("promises: found no public function, so nothing was looked at");
    }
    let listed = listed(&lines, task == Task::Write);
    // By their text: that an export keeps its promise is the prover's to see, this is that it is no other than the library's.
    let weaker: Vec<&(String, String)> = exports.iter().filter(|export| !libraries.contains(export)).collect();
    weaker.iter().for_each(|(name, _)| {
        println!("promises: {name} is exported with another promise than a library's {name} has")
    });
    if public > 0 && promised == public && listed && weaker.is_empty() {
        ExitCode::SUCCESS
    } else {
        ExitCode::FAILURE
    }
}

/// Whether the list in the docs is what the sources say, and the text before it names each function.
fn listed(lines: &[(String, String)], write: bool) -> bool {
    let text = fs::read_to_string(LISTED).expect("the promises are listed");
    let parts = text.split_once(MARKS[0]).and_then(|(before, rest)| {
        let (list, behind) = rest.split_once(MARKS[1])?;
        Some((before, list, behind))
    });
    let Some((before, list, behind)) = parts else {
        println!("promises: {LISTED} has no place for the list");
        return false;
    };
    let made: String = lines.iter().map(|(_, line)| line.as_str()).collect();
    let made = format!("| Function | What its `ensures` says |\n|---|---|\n{made}");
    if write {
        let [open, close] = MARKS;
        fs::write(LISTED, format!("{before}{open}{made}{close}{behind}")).expect("the list is written");
    } else if list != made {
        println!("promises: the list in {LISTED} is not what the sources say: tools/promises --write makes it anew");
        return false;
    }
    // A conversion is named by its type too.
    let unnamed = lines.iter().filter(|(name, _)| match name.contains("::") {
        true => !before.contains(name.as_str()),
        false => !words(before).iter().any(|(_, word)| word == name),
    });
    let unnamed: Vec<&str> = unnamed.map(|(name, _)| name.as_str()).collect();
    unnamed.iter().for_each(|name| println!("promises: {LISTED} has no row for {name}"));
    unnamed.is_empty()
}

fn look_at_crate(source_folder: &Path, list_all: bool, counts: &mut Counts) {
    let root = source_folder.join("lib.rt");
    let Ok(text) = fs::read_to_string(&root) else {
        return;
    };
    let root_text = without_comments(&text);
    for path in sources(source_folder) {
        let text = without_comments(&fs::read_to_string(&path).expect("a source can be read"));
        let module = module_of(source_folder, &path);
        let open = path == root || declares_open(&root_text, &module);
        for function in functions(&text) {
            let reached = open
                || hands_on(&root_text, &module, function.name)
                || function.owner.is_some_and(|owner| declares_type(&root_text, owner));
            count(&path, &function, reached, list_all, counts);
            let promise = (function.name.to_owned(), promise_of(&function));
            if function.exported {
                counts.exports.push(promise);
            } else if function.public && path == root {
                counts.libraries.push(promise);
            }
            if function.exported || (function.public && reached) {
                counts.lines.push((function.name.to_owned(), line_of(source_folder, &path, &function)));
            }
        }
        for conversion in conversions(&text) {
            let types = [conversion.goal, conversion.source];
            if !types.into_iter().any(|name| declares_type(&root_text, name)) {
                counts.private += 1;
                continue;
            }
            count_conversion(&path, &conversion, list_all, counts);
            let called = format!("{}::{}", conversion.goal, conversion.name);
            counts.lines.push((called, line_of_conversion(source_folder, &conversion)));
        }
    }
}

/// A line of the list: where the function is called by, and its promise as it stands in the source.
fn line_of(source_folder: &Path, path: &Path, function: &Function<'_>) -> String {
    let crate_name = source_folder.parent().and_then(Path::file_name).expect("src/ stands in a crate");
    let mut place = crate_name.to_string_lossy().into_owned();
    if let Some(owner) = function.owner {
        place = format!("{place}::{owner}");
    } else if path.file_stem().is_some_and(|stem| stem != "lib") {
        place = format!("{place}::{}", module_of(source_folder, path));
    }
    format!("| `{place}::{}` | `{}` |\n", function.name, promise_of(function))
}

/// The same of a conversion, which is called by the type that it gives.
fn line_of_conversion(source_folder: &Path, conversion: &Conversion<'_>) -> String {
    let crate_name = source_folder.parent().and_then(Path::file_name).expect("src/ stands in a crate");
    let Conversion { name, source, goal, promise, .. } = conversion;
    format!(
        "| `{}::{goal}::{name}({source})` | `{}` |\n",
        crate_name.to_string_lossy(),
        promise.map_or(String::new(), said)
    )
}

/// What a function promises, as the list has it.
fn promise_of(function: &Function<'_>) -> String {
    let promises: Vec<String> = function.ensures.iter().map(|clause| said(clause)).collect();
    promises.join("`; `")
}

/// What a clause says: what stands between its braces. A name before them is left out.
fn said(clause: &str) -> String {
    let inner = clause.split_once('{').and_then(|(_, rest)| rest.rsplit_once('}')).map_or(clause, |(inner, _)| inner);
    inner.split_whitespace().collect::<Vec<_>>().join(" ")
}

fn count(path: &Path, function: &Function<'_>, reached: bool, list_all: bool, counts: &mut Counts) {
    let &Function {
        line,
        name,
        public,
        exported,
        requires,
        ..
    } = function;
    let ensures = !function.ensures.is_empty();
    if !exported && !(public && reached) {
        counts.private += 1;
        return;
    }
    counts.public += 1;
    counts.bare += usize::from(!ensures);
    counts.demanding += usize::from(requires);
    counts.promised += usize::from(ensures && !requires);
    if list_all || !ensures || requires {
        let said = [
            (!ensures, " NO PROMISE"),
            (requires, " HAS A REQUIRES"),
            (exported, " exported"),
        ];
        let said: String = said.iter().filter(|(on, _)| *on).map(|(_, word)| *word).collect();
        println!("{}:{line}: {name}{said}", path.display());
    }
}

fn count_conversion(path: &Path, conversion: &Conversion<'_>, list_all: bool, counts: &mut Counts) {
    let promised = conversion.promise.is_some();
    counts.public += 1;
    counts.promised += usize::from(promised);
    counts.bare += usize::from(!promised);
    if list_all || !promised {
        let Conversion { line, name, goal, .. } = conversion;
        let said = if promised { "" } else { " NO PROMISE" };
        println!("{}:{line}: {goal}::{name}{said}", path.display());
    }
}

/// What stands in a folder, in order; nothing where it is none.
fn entries(folder: &Path) -> Vec<PathBuf> {
    let mut paths: Vec<PathBuf> = fs::read_dir(folder)
        .into_iter()
        .flatten()
        .flatten()
        .map(|e| e.path())
        .collect();
    paths.sort();
    paths
}

/// Every .rt file of a folder and of those in it.
fn sources(folder: &Path) -> Vec<PathBuf> {
    let mut found = Vec::new();
    for path in entries(folder) {
        if path.is_dir() {
            found.extend(sources(&path));
        } else if path.extension().is_some_and(|extension| extension == "rt") {
            found.push(path);
        }
    }
    found
}

/// The module of lib.rt that a file belongs to.
fn module_of(source_folder: &Path, path: &Path) -> String {
    let inside = path
        .strip_prefix(source_folder)
        .expect("the file stands in the folder")
        .with_extension("");
    inside
        .iter()
        .next()
        .expect("a path has a part")
        .to_string_lossy()
        .into_owned()
}

/// Whether lib.rt says `pub mod MODULE`.
fn declares_open(root_text: &str, module: &str) -> bool {
    words(root_text)
        .windows(3)
        .any(|w| w[0].1 == "pub" && w[1].1 == "mod" && w[2].1 == module)
}

/// Whether lib.rt declares the type as `pub`.
fn declares_type(root_text: &str, owner: &str) -> bool {
    words(root_text)
        .windows(3)
        .any(|w| w[0].1 == "pub" && ["struct", "enum"].contains(&w[1].1) && w[2].1 == owner)
}

/// Whether a `pub use` of lib.rt names the module, and the function or all of it.
fn hands_on(root_text: &str, module: &str, name: &str) -> bool {
    root_text.split(';').any(|item| {
        let words: Vec<&str> = words(item).into_iter().map(|(_, word)| word).collect();
        let used = words.windows(2).position(|w| w == ["pub", "use"]);
        used.is_some_and(|at| words[at..].contains(&module) && (words[at..].contains(&name) || item.contains('*')))
    })
}

/// The words (letters, digits and _) of a text, with where they begin.
fn words(text: &str) -> Vec<(usize, &str)> {
    let is_part = |c: char| c.is_alphanumeric() || c == '_';
    let pieces = text.split(|c| !is_part(c)).filter(|word| !word.is_empty());
    pieces
        .map(|word| (word.as_ptr() as usize - text.as_ptr() as usize, word))
        .collect()
}

/// Each conversion of a text without comments.
fn conversions(text: &str) -> Vec<Conversion<'_>> {
    let words = words(text);
    let blocks = words.iter().filter(|(_, word)| *word == "impl");
    blocks
        .filter_map(|(at, _)| {
            let block = &text[*at..*at + end_of_braces(&text[*at..])];
            let (head, body) = block.split_once('{')?;
            let (kind, goal) = head.strip_prefix("impl")?.split_once(" for ")?;
            let (kind, source) = kind.trim().strip_suffix('>')?.split_once('<')?;
            let name = match kind {
                "From" => "from",
                "TryFrom" => "try_from",
                _ => return None,
            };
            let promise = body.find(&format!("{name}_gives")).map(|from| {
                let rest = &body[from..];
                &rest[..end_of_braces(rest)]
            });
            Some(Conversion {
                line: text[..*at].matches('\n').count() + 1,
                name,
                source,
                goal: goal.trim(),
                promise,
            })
        })
        .collect()
}

/// Each `fn NAME` of a text without comments.
fn functions(text: &str) -> Vec<Function<'_>> {
    let words = words(text);
    // The type's name is the first behind `impl` that begins with a capital: lifetimes may stand before it.
    let blocks: Vec<(usize, usize, &str)> = words
        .iter()
        .enumerate()
        .filter(|(_, (_, word))| *word == "impl")
        .filter_map(|(i, (from, _))| {
            let owner = words[i + 1..].iter().map(|(_, word)| *word).find(|word| word.starts_with(char::is_uppercase))?;
            Some((*from, from + end_of_braces(&text[*from..]), owner))
        })
        .collect();
    let pairs = words
        .windows(2)
        .filter(|pair| pair[0].1 == "fn" && text[pair[0].0 + 2..pair[1].0].trim().is_empty());
    pairs
        .map(|pair| {
            let ((at, _), (name_at, name)) = (pair[0], pair[1]);
            let before = text[..at].trim_end();
            let (before, exported) = match before.strip_suffix("extern \"C\"") {
                Some(rest) => (rest.trim_end(), true),
                None => (before, false),
            };
            let (ensures, requires) = clauses(&text[name_at + name.len()..]);
            Function {
                line: text[..at].matches('\n').count() + 1,
                name,
                owner: blocks.iter().find(|(from, to, _)| (*from..*to).contains(&at)).map(|(_, _, owner)| *owner),
                public: before.ends_with("pub") && !before.ends_with("_pub"),
                exported,
                ensures,
                requires,
            }
        })
        .collect()
}

/// Each `ensures`, and whether a `requires`, between a function's name and its body. The body is the first
/// brace outside of brackets that no clause opens.
fn clauses(rest: &str) -> (Vec<&str>, bool) {
    let (mut ensures, mut requires) = (Vec::new(), false);
    let (mut at, mut depth) = (0, 0_usize);
    while let Some(c) = rest[at..].chars().next() {
        let word = &rest[at..at + rest[at..].find(|c: char| !c.is_alphanumeric() && c != '_').unwrap_or(0)];
        match c {
            '(' | '[' => depth += 1,
            ')' | ']' => depth -= 1,
            '{' | ';' if depth == 0 => break,
            _ if depth == 0 && ["ensures", "requires", "ghost"].contains(&word) => {
                let end = at + end_of_braces(&rest[at..]);
                if word == "ensures" {
                    ensures.push(&rest[at..end]);
                }
                requires |= word == "requires";
                at = end;
                continue;
            }
            _ => {}
        }
        at += word.len().max(c.len_utf8());
    }
    (ensures, requires)
}

/// Where the first braces of a text end.
fn end_of_braces(text: &str) -> usize {
    let mut depth = 0_usize;
    for (at, c) in text.char_indices() {
        match c {
            '{' => depth += 1,
            '}' if depth <= 1 => return at + 1,
            '}' => depth -= 1,
            _ => {}
        }
    }
    text.len()
}

/// The text with blanks for comments, and for what could be taken for code in literals.
fn without_comments(text: &str) -> String {
    let mut out = String::with_capacity(text.len());
    let mut rest = text;
    while let Some(c) = rest.chars().next() {
        let length = match c {
            '/' if rest.starts_with("//") => rest.find('\n').unwrap_or(rest.len()),
            '"' => string_length(rest),
            '\'' => byte_length(rest),
            _ => c.len_utf8(),
        };
        let (piece, after) = rest.split_at(length);
        match c {
            '/' if length > 1 => out.extend(piece.chars().map(|_| ' ')),
            '"' | '\'' => out.extend(piece.chars().map(|c| if "{}()[];/".contains(c) { ' ' } else { c })),
            _ => out.push_str(piece),
        }
        rest = after;
    }
    out
}

/// The length of the string that a text begins with, both quotes included.
fn string_length(text: &str) -> usize {
    let mut escaped = false;
    for (at, c) in text.char_indices().skip(1) {
        match c {
            '"' if !escaped => return at + 1,
            _ => escaped = c == '\\' && !escaped,
        }
    }
    text.len()
}

/// The length of the quoted byte that a text begins with; 1 where the quote begins a lifetime.
fn byte_length(text: &str) -> usize {
    let escape = text[1..].starts_with('\\');
    let closing = text
        .char_indices()
        .skip(if escape { 3 } else { 2 })
        .find(|(_, c)| *c == '\'');
    match closing {
        Some((at, _)) if escape && at <= 8 || at == 2 => at + 1,
        _ => 1,
    }
}
