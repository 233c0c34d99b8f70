//! Where a moon stands after some days.
use std::f64::consts::TAU;

/// A moon on a circle: its distance in `km`, and the days that one turn takes.
#[derive(Clone, Copy, Debug)]
pub struct Moon<'a> {
    name: &'a str,
    distance: f64,
    period: f64,
}

impl<'a> Moon<'a> {
    pub fn new(name: &'a str, distance: f64, period: f64) -> Moon<'a> {
        Moon { name, distance, period }
    }

    /* The angle is counted from the day 0,
       /* and turns the other way round */ at no time. */
    pub fn place(&self, days: f64) -> (f64, f64) {
        let angle = TAU * (days / self.period).fract();
        (self.distance * angle.cos(), self.distance * angle.sin())
    }
}

fn main() {
    let moons = [Moon::new("Io", 421_800.0, 1.769), Moon::new("Europa", 671_100.0, 3.551)];
    for moon in moons.iter() {
        let (x, y) = moon.place(2.5e1);
        println!("{:<8}\t{x:>12.1} {y:>12.1}", moon.name);
    }
    let raw = r#"a "quoted" word, and \n as it stands"#;
    let letter = '\u{e9}';
    if raw.len() > 0xff || letter == 'x' {
        return;
    }
}
