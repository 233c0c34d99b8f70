//! Proved syntax highlighting by grammars of Sublime Text, in the names of `syntect` where they fit.
//!
//! A [`SyntaxSetBuilder`] takes grammars and themes, from folders or as texts; the [`SyntaxSet`] that it builds shows
//! texts: [`highlighted_html_for_string`], [`SyntaxSet::show`]. The library behind it is proved; this wrapper is not.

pub mod easy;
pub mod highlighting;
mod raw;

use raw::Handle;
use std::cell::RefCell;
use std::ffi::OsStr;
use std::path::{Path, PathBuf};
use std::{error, fmt, fs, io};

/// What a text is shown as.
#[derive(Clone, Copy, Debug, PartialEq, Eq)]
pub enum Format {
    /// A `pre` with inline styles.
    Html,
    /// For a terminal of 24 bit colours, with those behind the text.
    Terminal,
    /// For a terminal that keeps its own colours behind the text, in 24 bit colours.
    Screen,
    /// The same in the palette of 256 colours.
    Screen256,
}

/// What a call is refused for, as `vulsangi.h` numbers it.
#[derive(Clone, Copy, Debug, PartialEq, Eq)]
pub enum Kind {
    Memory,
    Empty,
    NotUtf8,
    Grammar,
    Theme,
    Limit,
    Linked,
    UnknownLanguage,
    UnknownTheme,
    UnknownFormat,
    Line,
}

/// Why a call is refused.
#[derive(Debug)]
pub enum Error {
    /// By the library: what for, and why in words.
    Refused(Kind, String),
    /// A file or a folder was not read.
    Io(PathBuf, io::Error),
}

impl fmt::Display for Error {
    fn fmt(&self, f: &mut fmt::Formatter<'_>) -> fmt::Result {
        match self {
            Error::Refused(_, told) => f.write_str(told),
            Error::Io(path, e) => write!(f, "{}: {e}", path.display()),
        }
    }
}

impl error::Error for Error {}

/// A language that a set has.
#[derive(Clone, Debug, PartialEq, Eq)]
pub struct Language {
    pub name: String,
    pub file_extensions: Vec<String>,
}

/// The handle, which is freed when it is dropped. It isn't `Send`, as it has a raw pointer.
struct Set(Handle);

impl Drop for Set {
    fn drop(&mut self) {
        unsafe { raw::vls_set_free(&mut self.0) }
    }
}

fn kind_of(number: i32) -> Kind {
    match number {
        1 => Kind::Memory,
        2 => Kind::Empty,
        3 => Kind::NotUtf8,
        4 => Kind::Grammar,
        5 => Kind::Theme,
        6 => Kind::Limit,
        7 => Kind::Linked,
        8 => Kind::UnknownLanguage,
        9 => Kind::UnknownTheme,
        10 => Kind::UnknownFormat,
        _ => Kind::Line,
    }
}

impl Set {
    fn new() -> Result<Set, Error> {
        let mut set = Set(Handle::EMPTY);
        let number = unsafe { raw::vls_set_new(&mut set.0) };
        set.told(number)?;
        Ok(set)
    }

    fn told(&mut self, number: i32) -> Result<(), Error> {
        match number {
            0 => Ok(()),
            n => Err(Error::Refused(kind_of(n), copied(&mut self.0, raw::vls_set_fault))),
        }
    }

    fn output(&mut self) -> String {
        copied(&mut self.0, raw::vls_set_output)
    }
}

/// What a call on a handle copies out, which answers the whole size.
fn copied(handle: &mut Handle, call: unsafe extern "C" fn(*mut Handle, *mut u8, usize) -> usize) -> String {
    let mut nothing = [0];
    let size = unsafe { call(handle, nothing.as_mut_ptr(), 0) };
    let mut bytes = vec![0; size];
    unsafe { call(handle, bytes.as_mut_ptr(), size) };
    String::from_utf8_lossy(&bytes).into_owned()
}

/// Grammars and themes that aren't linked yet.
pub struct SyntaxSetBuilder(Set);

impl SyntaxSetBuilder {
    /// Plain text, and no theme.
    pub fn new() -> Result<SyntaxSetBuilder, Error> {
        Ok(SyntaxSetBuilder(Set::new()?))
    }

    /// Adds the text of a `.sublime-syntax` file under the file's name.
    pub fn add_grammar(&mut self, file: &str, text: impl AsRef<[u8]>) -> Result<(), Error> {
        let (set, text) = (&mut self.0, text.as_ref());
        let (file, size) = (file.as_ptr(), file.len());
        let number = unsafe { raw::vls_set_add_grammar(&mut set.0, file, size, text.as_ptr(), text.len()) };
        set.told(number)
    }

    /// Adds the JSON of a theme under a name.
    pub fn add_theme(&mut self, name: &str, json: impl AsRef<[u8]>) -> Result<(), Error> {
        let (set, json) = (&mut self.0, json.as_ref());
        let (name, size) = (name.as_ptr(), name.len());
        let number = unsafe { raw::vls_set_add_theme(&mut set.0, name, size, json.as_ptr(), json.len()) };
        set.told(number)
    }

    /// Adds the grammars (`.sublime-syntax`) and the themes (`.tmTheme`) below a folder, in the order of their paths. A
    /// theme's name is that of its file without the extension.
    pub fn add_from_folder(&mut self, folder: impl AsRef<Path>) -> Result<(), Error> {
        let mut paths = Vec::new();
        gather(folder.as_ref(), &mut paths)?;
        paths.sort();
        for path in &paths {
            let read = || fs::read(path).map_err(|e| Error::Io(path.clone(), e));
            match path.extension().and_then(OsStr::to_str) {
                Some("sublime-syntax") => self.add_grammar(&path.to_string_lossy(), read()?)?,
                Some("tmTheme") => {
                    let name = path.file_stem().unwrap_or_default().to_string_lossy();
                    self.add_theme(&name, read()?)?;
                }
                _ => {}
            }
        }
        Ok(())
    }

    /// The set, whose grammars are linked.
    pub fn build(mut self) -> Result<SyntaxSet, Error> {
        let number = unsafe { raw::vls_set_link(&mut self.0 .0) };
        self.0.told(number)?;
        Ok(SyntaxSet(RefCell::new(self.0)))
    }
}

/// The files below a folder.
fn gather(folder: &Path, paths: &mut Vec<PathBuf>) -> Result<(), Error> {
    let refused = |e| Error::Io(folder.to_path_buf(), e);
    for entry in fs::read_dir(folder).map_err(refused)? {
        let path = entry.map_err(refused)?.path();
        if path.is_dir() {
            gather(&path, paths)?;
        } else {
            paths.push(path);
        }
    }
    Ok(())
}

/// Linked grammars, and themes.
pub struct SyntaxSet(RefCell<Set>);

impl SyntaxSet {
    /// The grammars and themes below a folder, with plain text.
    pub fn load_from_folder(folder: impl AsRef<Path>) -> Result<SyntaxSet, Error> {
        let mut builder = SyntaxSetBuilder::new()?;
        builder.add_from_folder(folder)?;
        builder.build()
    }

    /// The languages that aren't hidden.
    pub fn languages(&self) -> Result<Vec<Language>, Error> {
        let mut set = self.0.borrow_mut();
        let number = unsafe { raw::vls_set_languages(&mut set.0) };
        set.told(number)?;
        Ok(set.output().lines().map(language_of).collect())
    }

    /// The name of a text's language: of the one that the name of its file tells, or else its first line.
    pub fn find(&self, file: &str, line: &str) -> Result<String, Error> {
        let mut set = self.0.borrow_mut();
        let (file, file_size) = (file.as_ptr(), file.len());
        let number =
            unsafe { raw::vls_set_find(&mut set.0, file, file_size, line.as_ptr(), line.len()) };
        set.told(number)?;
        Ok(set.output())
    }

    /// A text in the language of a token (a file extension or a name, whatever its case), shown by the theme of a name.
    pub fn show(&self, text: &str, token: &str, theme: &str, format: Format) -> Result<String, Error> {
        let mut set = self.0.borrow_mut();
        let (token, token_size) = (token.as_ptr(), token.len());
        let (theme, theme_size) = (theme.as_ptr(), theme.len());
        let (at, size, format) = (text.as_ptr(), text.len(), format as u32);
        let number =
            unsafe { raw::vls_set_page(&mut set.0, at, size, token, token_size, theme, theme_size, format) };
        set.told(number)?;
        Ok(set.output())
    }
}

/// A language of its line: its name, a tab, and its extensions.
fn language_of(line: &str) -> Language {
    let (name, extensions) = line.split_once('\t').unwrap_or((line, ""));
    Language {
        name: name.to_owned(),
        file_extensions: extensions
            .split(' ')
            .filter(|it| !it.is_empty())
            .map(str::to_owned)
            .collect(),
    }
}

/// A text as HTML with inline styles, in the language of a token, by the theme of a name.
pub fn highlighted_html_for_string(
    text: &str,
    set: &SyntaxSet,
    token: &str,
    theme: &str,
) -> Result<String, Error> {
    set.show(text, token, theme, Format::Html)
}
