//! A page, the languages, and each fault of the calls.
use vulsangi::easy::HighlightLines;
use vulsangi::highlighting::{Color, FontStyle};
use vulsangi::{highlighted_html_for_string, Error, Format, Kind, SyntaxSet, SyntaxSetBuilder};

const GRAMMAR: &str = "name: Small
file_extensions: [sml]
scope: source.small
first_line_match: '^let\\b'
contexts:
  main:
    - match: '\\b(let|in)\\b'
      scope: keyword.small
";

const THEME: &str = r##"{"name": "Two", "settings": [
{"settings": {"background": "#ffffff", "foreground": "#000000"}},
{"scope": "keyword", "settings": {"foreground": "#ff0000", "fontStyle": "bold"}}]}"##;

const PAGE: &str = "<pre style=\"background-color:#ffffff;\">
<span style=\"font-weight:bold;color:#ff0000;\">let</span><span style=\"color:#000000;\"> x &lt; 1
</span></pre>
";

fn builder() -> SyntaxSetBuilder {
    let mut builder = SyntaxSetBuilder::new().unwrap();
    builder.add_grammar("Small.sublime-syntax", GRAMMAR).unwrap();
    builder.add_theme("two", THEME).unwrap();
    builder
}

fn set() -> SyntaxSet {
    builder().build().unwrap()
}

/// What a refused call was refused for.
fn kind<T>(answer: Result<T, Error>) -> Kind {
    match answer {
        Err(Error::Refused(kind, told)) => {
            assert!(!told.is_empty());
            kind
        }
        _ => panic!("the call isn't refused"),
    }
}

#[test]
fn a_page() {
    assert_eq!(
        highlighted_html_for_string("let x < 1\n", &set(), "sml", "two").unwrap(),
        PAGE
    );
}

#[test]
fn the_languages() {
    let names: Vec<String> = set().languages().unwrap().into_iter().map(|it| it.name).collect();
    assert_eq!(names, ["Plain Text", "Small"]);
}

#[test]
fn a_language_for_a_file() {
    assert_eq!(set().find("a.sml", "").unwrap(), "Small");
    assert_eq!(set().find("a", "let x\n").unwrap(), "Small");
    assert_eq!(kind(set().find("a.c", "x\n")), Kind::UnknownLanguage);
}

#[test]
fn lines() {
    let set = set();
    let mut lines = HighlightLines::new(&set, "sml", "two").unwrap();
    for _ in 0..2 {
        let pieces = lines.highlight_line("let x\n").unwrap();
        let texts: Vec<&str> = pieces.iter().map(|it| it.1).collect();
        assert_eq!(texts, ["let", " x\n"]);
        let style = pieces[0].0;
        let (r, g, b, a) = (255, 0, 0, 255);
        assert_eq!(style.foreground, Color { r, g, b, a });
        assert_eq!(style.font_style, FontStyle::BOLD);
        assert_eq!(lines.highlight_line("").unwrap(), []);
        lines.reset().unwrap();
    }
    assert_eq!(kind(HighlightLines::new(&set, "none", "two").map(|_| ())), Kind::UnknownLanguage);
}

#[test]
fn refusals() {
    assert_eq!(kind(builder().add_grammar("a", "name: [")), Kind::Grammar);
    assert_eq!(kind(builder().add_theme("a", "{")), Kind::Theme);
    assert_eq!(kind(builder().add_theme("a", [0xff])), Kind::Theme);
    assert_eq!(
        kind(set().show("x", "none", "two", Format::Html)),
        Kind::UnknownLanguage
    );
    assert_eq!(
        kind(set().show("x", "txt", "none", Format::Screen)),
        Kind::UnknownTheme
    );
}
