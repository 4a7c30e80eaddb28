//! check.rs, whole: what docs/DIFFERENCES.md says of the verdict.

use original::check::{Check, equivalent, inconclusive, not_equivalent};
use std::panic::catch_unwind;

type Made = fn() -> Check;

/// How each is made, its name, and what it decides.
const ALL: [(Made, &str, Option<bool>); 3] = [
    (equivalent, "Equiv", Some(true)),
    (not_equivalent, "NotEquiv", Some(false)),
    (inconclusive, "Inconclusive", None),
];

#[test]
fn names() {
    for (made, name, _) in ALL {
        assert_eq!(made().to_string(), name);
    }
}

#[test]
fn questions() {
    for (made, name, decided) in ALL {
        let check = made();
        assert_eq!(check.is_equiv(), name == "Equiv");
        assert_eq!(check.is_not_equiv(), name == "NotEquiv");
        assert_eq!(check.is_inconclusive(), name == "Inconclusive");
        assert_eq!(check.is_conclusive(), decided.is_some());
    }
}

/// `unwrap` and `expect` panic where nothing is decided.
#[test]
fn decisions() {
    for (made, _, decided) in ALL {
        assert_eq!(catch_unwind(|| made().unwrap()).ok(), decided);
        assert_eq!(catch_unwind(|| made().expect("decided")).ok(), decided);
    }
}
