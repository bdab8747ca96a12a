//! A line for each check, and their count.

use std::fmt::Debug;

#[derive(Default)]
pub struct Checks {
    pub passed: usize,
    pub failed: usize,
}

/// The checks of one thing.
pub struct About<'a> {
    checks: &'a mut Checks,
    name: &'a str,
}

impl Checks {
    pub fn about<'a>(&'a mut self, name: &'a str) -> About<'a> {
        About { checks: self, name }
    }
}

impl About<'_> {
    /// Prints whether two values are the same, and both where they are not.
    pub fn same<T: PartialEq + Debug>(&mut self, what: &str, found: T, expected: T) {
        let is_same = found == expected;
        let verdict = if is_same { "ok  " } else { "FAIL" };
        println!("{verdict}  {}: {what}", self.name);
        if is_same {
            self.checks.passed += 1;
        } else {
            println!("      found    {found:?}\n      expected {expected:?}");
            self.checks.failed += 1;
        }
    }

    /// Prints what is not judged.
    pub fn note(&self, what: &str) {
        println!("note  {}: {what}", self.name);
    }
}
