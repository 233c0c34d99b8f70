//! A text line by line, as `syntect::easy` reads it.

use crate::highlighting::{Color, FontStyle, Style};
use crate::raw::{self, Handle, Span};
use crate::{copied, kind_of, Error, SyntaxSet};

/// A text that is read line by line, in a language by a theme. It is read with the set that it was made with.
pub struct HighlightLines<'s> {
    doc: Handle,
    set: &'s SyntaxSet,
}

impl Drop for HighlightLines<'_> {
    fn drop(&mut self) {
        unsafe { raw::vls_doc_free(&mut self.doc) }
    }
}

fn style_of(span: &Span) -> Style {
    Style {
        foreground: Color::of_number(span.foreground),
        background: Color::of_number(span.background),
        font_style: FontStyle::of_flags(span.flags),
    }
}

impl<'s> HighlightLines<'s> {
    /// Before the first line of a text in the language of a token, by the theme of a name.
    pub fn new(set: &'s SyntaxSet, token: &str, theme: &str) -> Result<HighlightLines<'s>, Error> {
        let mut lines = HighlightLines {
            doc: Handle::EMPTY,
            set,
        };
        let mut held = set.0.borrow_mut();
        let (token, token_size) = (token.as_ptr(), token.len());
        let (theme, theme_size) = (theme.as_ptr(), theme.len());
        let number =
            unsafe { raw::vls_doc_new(&mut lines.doc, &mut held.0, token, token_size, theme, theme_size) };
        held.told(number)?;
        drop(held);
        Ok(lines)
    }

    fn told(&mut self, number: i32) -> Result<(), Error> {
        match number {
            0 => Ok(()),
            n => Err(Error::Refused(kind_of(n), copied(&mut self.doc, raw::vls_doc_fault))),
        }
    }

    /// The pieces of the next line, which is given with its newline, each with its style: they cover the line. One that
    /// takes too long is a piece in the theme's own style.
    pub fn highlight_line<'l>(&mut self, line: &'l str) -> Result<Vec<(Style, &'l str)>, Error> {
        let number = unsafe {
            let set = &mut self.set.0.borrow_mut().0;
            raw::vls_doc_line(&mut self.doc, set, line.as_ptr(), line.len())
        };
        self.told(number)?;
        let mut nothing = [Span::default()];
        let count = unsafe { raw::vls_doc_spans(&mut self.doc, nothing.as_mut_ptr(), 0) };
        let mut spans = vec![Span::default(); count];
        unsafe { raw::vls_doc_spans(&mut self.doc, spans.as_mut_ptr(), count) };
        Ok(spans
            .iter()
            .map(|span| (style_of(span), &line[span.offset..span.offset + span.length]))
            .collect())
    }

    /// Stands before the first line again.
    pub fn reset(&mut self) -> Result<(), Error> {
        let number = unsafe { raw::vls_doc_reset(&mut self.doc, &mut self.set.0.borrow_mut().0) };
        self.told(number)
    }
}
