//! Ten lines that rustc 1.95.0 gets wrong at opt-level 2 and 3 (docs/DIFFERENCES.md). The packages host, oracle and trials each have
//! this test, so it runs in the profile that the package is tested in; its other profile must have the same level.

struct Counter {
    zeros: usize,
}

impl Counter {
    fn add(&mut self, number: u32) -> bool {
        let zero = number == 0;
        self.zeros += usize::from(zero);
        zero
    }
}

/// How many of the numbers are zero, and how many are not.
fn counted(numbers: &[u32]) -> (usize, usize) {
    let mut counter = Counter { zeros: 0 };
    let mut others = 0;
    for &number in numbers {
        if !counter.add(number) {
            others += 1;
        }
    }
    (counter.zeros, others)
}

#[test]
fn an_addition_is_kept() {
    let numbers = std::hint::black_box([0, 1, 0, 2, 0]);
    let message = "this rustc loses an addition at this opt-level; build at opt-level 1";
    assert_eq!(counted(&numbers), (3, 2), "{message}");
}

#[test]
fn both_profiles_have_level_1() {
    let manifest = concat!(env!("CARGO_MANIFEST_DIR"), "/Cargo.toml");
    let text = std::fs::read_to_string(manifest).expect("the package's Cargo.toml");
    let levels = text.lines().filter(|line| line.starts_with("opt-level"));
    assert!(levels.eq(["opt-level = 1"; 2]), "{manifest}: other levels");
    for profile in ["dev", "release"] {
        let section = format!("\n[profile.{profile}]\nopt-level = 1\n");
        assert!(text.contains(&section), "{manifest}: {profile}");
    }
}
