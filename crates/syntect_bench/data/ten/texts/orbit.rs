//! Where a moon stands after some days.
use std::f64::consts::TAU;

/// A moon on a circle: its distance in `km`.
#[derive(Clone, Copy, Debug)]
pub struct Moon<'a> {
    name: &'a str,
}

impl<'a> Moon<'a> {
    /* The angle is counted from the day 0,
       /* and turns the other way round */ at no time. */
    pub fn place(&self, days: f64) -> f64 {
        println!("{:<8}\t{days:>12.1}", self.name);
        let raw = r#"a "quoted" word, and \n as it stands"#;
        let letter = ['\u{e9}', 'é', b'x'];
        return TAU * (days / 3.5e1).fract() + 0xff as f64;
    }
}
