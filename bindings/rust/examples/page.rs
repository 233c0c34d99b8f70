//! Shows a file as a page: `cargo run --example page -- FOLDER LANGUAGE THEME FILE`, where the folder has grammars and
//! themes.
use std::{env, error, fs};
use vulsangi::{highlighted_html_for_string, SyntaxSet};

fn main() -> Result<(), Box<dyn error::Error>> {
    let words: Vec<String> = env::args().skip(1).collect();
    let [folder, language, theme, file] = words.as_slice() else {
        return Err("page FOLDER LANGUAGE THEME FILE".into());
    };
    let set = SyntaxSet::load_from_folder(folder)?;
    print!(
        "{}",
        highlighted_html_for_string(&fs::read_to_string(file)?, &set, language, theme)?
    );
    Ok(())
}
