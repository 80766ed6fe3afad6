//! Every session of `examples/` prints its expected output.

use std::fs;

#[test]
fn every_example_prints_its_output() {
    let folder = program::root().join("examples");
    let mut sessions = 0;
    for entry in fs::read_dir(folder).expect("the folder is there") {
        let input = entry.expect("an entry").path();
        if input.extension().is_some_and(|extension| extension == "in") {
            let expected = fs::read(input.with_extension("out")).expect("its output is there");
            let printed = program::printed(&fs::read(&input).expect("its input is read"));
            assert_eq!(
                String::from_utf8_lossy(&printed),
                String::from_utf8_lossy(&expected),
                "{}",
                input.display()
            );
            sessions += 1;
        }
    }
    assert_eq!(sessions, 9);
}
