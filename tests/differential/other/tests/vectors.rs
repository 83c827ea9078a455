//! Every line of the vectors: input in hexadecimal, a space, the expected
//! output with `|` for a line end.

use other_reading::links;

fn octets(hexadecimal: &str) -> Vec<u8> {
    (0..hexadecimal.len() / 2)
        .map(|at| u8::from_str_radix(&hexadecimal[2 * at..2 * at + 2], 16).unwrap())
        .collect()
}

#[test]
fn every_vector() {
    let path = concat!(env!("CARGO_MANIFEST_DIR"), "/../../vectors/links.txt");
    let vectors = std::fs::read_to_string(path).unwrap();
    let mut tried = 0;
    let mut disagreeing = Vec::new();
    for (at, line) in vectors.lines().enumerate() {
        let (input, expected) = line.split_once(' ').unwrap();
        let printed = links(&octets(input));
        let printed = printed.trim_end_matches('\n').replace('\n', "|");
        if printed != expected {
            disagreeing.push(format!(
                "line {}: expected {expected}, got {printed}",
                at + 1
            ));
        }
        tried += 1;
    }
    assert!(
        disagreeing.is_empty(),
        "{} of {tried}: {disagreeing:#?}",
        disagreeing.len()
    );
    assert!(tried > 0);
}
