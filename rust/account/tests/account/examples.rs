//! Document 01's examples: register A, its questions, what `stand` prints of it, and where the paper misleads.

use crate::{ask, published, spell};
use account::account::Account;
use account::call::Question::{Cover, Day, Days, Span};
use account::programs::standing_days;
use account::register::{text_of, REGISTER_A};

const STAND_A: &str =
    "1\t1\t0\t11\n2\t1\t0\t11\n3\t2\t0\t11\t12\n4\t2\t0\t11\t12\n5\t3\t2\t11\t14\t13\n6\t3\t2\t11\t14\t13\n\
    7\t3\t4\t11\t13\t15\n8\t3\t4\t11\t13\t15\n9\t3\t2\t11\t15\t16\n10\t2\t2\t11\t15\n11\t1\t1\t15\n12\t1\t1\t15\n";

/// Published spells of the given days, numbered 1 upward.
fn numbered(days: &[(u16, u16)]) -> Account {
    let spells: Vec<_> = (1..).zip(days).map(|(number, &(first, last))| spell(number, first, last)).collect();
    published(&text_of(&spells))
}

#[test]
fn what_stand_prints() {
    assert_eq!(standing_days(REGISTER_A), (STAND_A.as_bytes().to_vec(), None));
    let told = "stand: the register is refused: 12 at line 6";
    let cut = &REGISTER_A[..REGISTER_A.len() - 1];
    assert_eq!(standing_days(cut), (b"refused\t12\t6\n".to_vec(), Some(told.to_string())));
}

#[test]
fn questions_of_register_a() {
    let a = &mut published(REGISTER_A);
    assert_eq!(ask(a, Day(3)), (vec![11, 12], Some(0)));
    assert_eq!(ask(a, Day(5)), (vec![11, 14, 13], Some(2)));
    assert_eq!(ask(a, Day(7)), (vec![11, 13, 15], Some(4)));
    assert_eq!(ask(a, Day(9)), (vec![11, 15, 16], Some(2)));
    assert_eq!(ask(a, Day(10)), (vec![11, 15], Some(2)));
    assert_eq!(ask(a, Day(13)), (vec![], Some(0)));
    assert_eq!(ask(a, Span(9, 10)), (vec![11, 15, 16], Some(2)));
    assert_eq!(ask(a, Cover(14)), (vec![11, 14, 13], Some(2)));
    assert_eq!(ask(a, Days(vec![4, 11])), (vec![11, 12, 15], None));
    assert_eq!(ask(a, Days(vec![])), (vec![], None));
}

#[test]
fn where_the_paper_misleads() {
    assert_eq!(ask(&mut numbered(&[(1, 10), (3, 4)]), Span(6, 7)).0, [1]);
    assert_eq!(ask(&mut numbered(&[(1, 20), (2, 5), (6, 8), (10, 12)]), Days(vec![3, 11])).0, [1, 2, 4]);
    assert!(!ask(&mut published(REGISTER_A), Day(10)).0.contains(&16));
}
