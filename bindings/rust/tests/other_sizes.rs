//! Run by `.ci/bindings` over tests/c/other_sizes.c, which stands in for the archive and ends the program where a byte is lent to it.

use std::panic::catch_unwind;

use ration::{Host, Kept, WritePolicy, SIZE};

#[test]
#[ignore = "needs the archive of tests/c/other_sizes.c"]
fn nothing_is_made() {
    let other = std::env::var("RATION_OTHER").expect("RATION_OTHER says which size differs");
    let archive = match other.as_str() {
        "state" => "[4756, 8, 20, 4760, 9]",
        "answer" => "[4755, 9, 20, 4760, 9]",
        "report" => "[4755, 8, 21, 4760, 9]",
        "image" => "[4755, 8, 20, 4761, 9]",
        "kept" => "[4755, 8, 20, 4760, 10]",
        _ => panic!("RATION_OTHER={other}"),
    };
    let with_through = || Host::fresh_with(WritePolicy::Through);
    let hosts = [Host::fresh, with_through, Host::default, || Host::from_bytes([0; SIZE])]
        .map(|make| catch_unwind(make).map(|_| ()));
    let kept = [Kept::begin, Kept::default].map(|make| catch_unwind(make).map(|_| ()));
    for made in hosts.into_iter().chain(kept) {
        let panic = made.expect_err("a byte may be lent");
        let said = panic.downcast_ref::<String>().expect("a message");
        assert!(said.contains(archive) && said.contains("[4755, 8, 20, 4760, 9]"), "{said}");
    }
}
