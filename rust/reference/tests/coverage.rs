//! The generator reaches each verdict, each refusal and each answer.

use reference::generate::{coverage, wanted};

#[test]
fn everything_is_reached() {
    let seen = coverage(15, 20_000);
    for (name, count) in &seen {
        println!("{count:8}  {name}");
    }
    let wanted = wanted();
    for name in &wanted {
        assert!(seen.contains_key(name), "not reached: {name}");
    }
    for name in seen.keys() {
        assert!(wanted.contains(name), "not expected: {name}");
    }
}
