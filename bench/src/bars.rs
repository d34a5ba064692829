//! The bars: no call of the library runs more instructions than the same call
//! in Rust, and none takes more than 1,024 bytes of stack; spare is far cheaper
//! than a test of the whole volume. Times vary from run to run: a call that
//! takes longer than in Rust is named, and misses no bar.

pub const STACK_LIMIT: usize = 1024;

/// What a call may be above Rust in.
#[derive(Clone, Copy, PartialEq)]
enum Measure {
    Instructions,
    Time,
}

/// Why spare may run more instructions than Rust where a volume has sixteen
/// files.
const TWO_A_FILE: &str = "the kit compiles the walk over the files to two instructions a file more than Rust";

/// Calls that may be above Rust: the measure, the place, the call and the reason.
const EXCEPTIONS: &[(Measure, &str, &str, &str)] = &[
    (
        Measure::Time,
        "small",
        "format",
        "each control sector is built in the working sector, and its copy waits for the bytes just written",
    ),
    (Measure::Instructions, "largest", "spare, nobody holds it", TWO_A_FILE),
    (Measure::Instructions, "largest", "spare, record open", TWO_A_FILE),
    (Measure::Instructions, "largest", "spare, refused by 1", TWO_A_FILE),
    (Measure::Instructions, "largest", "spare, refused by 6", TWO_A_FILE),
];

#[derive(Default)]
pub struct Bars {
    calls: usize,
    worst: f64,
    highest: usize,
    /// The most that spare takes of what is allowed to it.
    largest_part: f64,
    longer: Vec<String>,
    excused: Vec<String>,
    missed: Vec<String>,
}

impl Bars {
    /// Notes the instructions of one call, the library's first.
    pub fn instructions(&mut self, place: &str, call: &str, [library, rust]: [u64; 2]) {
        self.calls += 1;
        self.worst = self.worst.max(ratio(library, rust));
        if library <= rust {
            return;
        }
        let above = format!("{place}, {call}: {library} instructions, {rust} in Rust");
        match reason(Measure::Instructions, place, call) {
            Some(reason) => self.excused.push(format!("{above}: {reason}")),
            None => self.missed.push(above),
        }
    }

    /// Notes the nanoseconds of one call, the library's first.
    pub fn time(&mut self, place: &str, call: &str, [library, rust]: [f64; 2]) {
        if library > rust {
            let reason = reason(Measure::Time, place, call).unwrap_or("no exception, measure again");
            self.longer.push(format!("{place}, {call}: {library:.0} ns, {rust:.0} in Rust: {reason}"));
        }
    }

    /// Notes the stack of one call of the library.
    pub fn stack(&mut self, place: &str, call: &str, bytes: usize) {
        self.highest = self.highest.max(bytes);
        if bytes > STACK_LIMIT {
            self.missed.push(format!("{place}, {call}: {bytes} bytes of stack"));
        }
    }

    /// Notes the instructions of spare and of `is_sound` on one volume, and how
    /// much the first may be of the second.
    pub fn spare(&mut self, volume: &str, [spare, is_sound]: [u64; 2], allowed: f64) {
        let part = ratio(spare, is_sound);
        self.largest_part = self.largest_part.max(part / allowed);
        if part > allowed {
            self.missed.push(format!("{volume}: spare is {part:.3} of is_sound, {allowed:.3} is allowed"));
        }
    }

    /// Prints the verdict: whether all bars are met.
    pub fn verdict(&self) -> bool {
        println!("\n8. BARS\n");
        println!("highest ratio of instructions {:.2}, of {} measured calls", self.worst, self.calls);
        println!("highest stack {} bytes, {STACK_LIMIT} are allowed", self.highest);
        println!("spare runs at most {:.2} of the instructions allowed to it beside is_sound", self.largest_part);
        for longer in &self.longer {
            println!("longer in time: {longer}");
        }
        for excused in &self.excused {
            println!("exception: {excused}");
        }
        for missed in &self.missed {
            println!("not met: {missed}");
        }
        println!("{}", if self.missed.is_empty() { "all bars are met" } else { "not all bars are met" });
        self.missed.is_empty()
    }
}

/// Why the call may be above Rust there, if it may.
fn reason(measure: Measure, place: &str, call: &str) -> Option<&'static str> {
    let exception = EXCEPTIONS.iter().find(|&&(what, at, name, _)| (what, at, name) == (measure, place, call));
    exception.map(|&(_, _, _, reason)| reason)
}

pub fn ratio(library: u64, rust: u64) -> f64 {
    library as f64 / rust as f64
}

#[cfg(test)]
mod tests {
    use super::*;

    /// What is missed by a spare of so many instructions where `is_sound` has
    /// 1000 and a tenth is allowed.
    fn missed(spare: u64) -> Vec<String> {
        let mut bars = Bars::default();
        bars.spare("small", [spare, 1000], 0.1);
        bars.missed
    }

    #[test]
    fn a_spare_above_its_part_misses_the_bar() {
        assert!(missed(100).is_empty());
        assert_eq!(missed(101), ["small: spare is 0.101 of is_sound, 0.100 is allowed"]);
    }
}
