//! Every case of vectors.txt.

mod worked;

use worked::{cases, check_file, text_of};

// "out is the file that comes back or the refusal"
#[test]
fn every_case_of_the_file() {
    let text = text_of("vectors.txt");
    let cases = cases(&text);
    assert_eq!(cases.len(), 45);
    cases.iter().for_each(check_file);
}
