//! The example prints just what stands in `examples/first_card.out`.

#[path = "../../../examples/first_card.rs"]
#[allow(dead_code)]
mod first_card;

#[test]
fn the_first_card_prints_its_output() {
    let mut printed = Vec::new();
    first_card::run(&mut printed).expect("nothing is refused");
    let printed = String::from_utf8(printed).expect("it prints text");
    assert_eq!(printed, include_str!("../../../examples/first_card.out"));
}
