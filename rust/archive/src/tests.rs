//! What a host in Rust is promised beside the answers.

use crate::phayaklit::{
    self, Listed, Published, Refusal, WrongLength, INDEX_WORDS, SERVICE_WORDS, SPELLS, STACK_BYTES,
};
use crate::target::{words, LENGTHS};

#[test]
fn blocks_of_wrong_lengths_are_refused() {
    for (service, index) in [(0, 0), (SERVICE_WORDS - 1, INDEX_WORDS), (SERVICE_WORDS + 1, INDEX_WORDS)] {
        let refused = Some(WrongLength { needed: SERVICE_WORDS, lent: service });
        assert_eq!(phayaklit::fresh(words(service), words(index)).err(), refused);
        assert_eq!(phayaklit::read(b"", words(service), words(index)).err(), refused);
    }
    for index in [0, INDEX_WORDS - 1, INDEX_WORDS + 1] {
        let refused = Some(WrongLength { needed: INDEX_WORDS, lent: index });
        assert_eq!(phayaklit::fresh(words(SERVICE_WORDS), words(index)).err(), refused);
        assert_eq!(unsafe { Published::shared(words(index)) }.err(), refused);
    }
}

/// The words of a shared index answer as the index itself does.
#[test]
fn a_shared_index_answers() {
    let begun = phayaklit::read(b"5\t1\t2\t9\tG\t1\n", words(SERVICE_WORDS), words(INDEX_WORDS));
    let (service, mut index, read) = begun.expect(LENGTHS);
    assert_eq!(read, Ok(()));
    service.publish(1, &mut index).unwrap();
    let shared = unsafe { Published::shared(index.into_words()) }.expect(LENGTHS);
    let mut numbers = [0];
    assert_eq!(shared.day(9, &mut numbers), Ok(Listed { count: 1, ..Listed::default() }));
    assert_eq!(numbers, [5]);
    assert_eq!(shared.day(9, &mut []), Err(Refusal::SHORT_BUFFER));
}

/// A full register read, edited, published and written, and all days asked of a list whose walks are the deepest, in a
/// thread with the least stack that a host may give.
#[test]
fn the_deepest_calls_have_stack_enough() {
    let nested = (1..SPELLS).map(|at| format!("{at}\t1\t{at}\t3999\tG\t1\n"));
    let text: String = nested.chain([format!("{SPELLS}\t1\t{SPELLS}\t4000\tG\t1\n")]).collect();
    let calls = move || {
        let begun = phayaklit::read(text.as_bytes(), words(SERVICE_WORDS), words(INDEX_WORDS));
        let (mut service, mut index, read) = begun.expect(LENGTHS);
        assert_eq!(read, Ok(()));
        assert_eq!(service.strike(1), Ok(()));
        assert_eq!(service.take_back(), Ok(()));
        service.publish(1, &mut index).unwrap();
        assert_eq!(service.write(&mut vec![0; text.len()]), Ok(text.len()));
        let all: Vec<u16> = (1..=4000).collect();
        index.published().days(&all, words(SPELLS)).map(|listed| listed.count)
    };
    let calling = std::thread::Builder::new().stack_size(STACK_BYTES).spawn(calls).expect("a thread");
    assert_eq!(calling.join().expect("it comes back"), Ok(SPELLS));
}

/// The answer of the days question, with the number of days ticked where it is accepted.
fn as_days(published: Published<'_>, base: u16, mask: u64, numbers: &mut [u16]) -> Result<Listed, Refusal> {
    let ticked: Vec<u32> = (0..64).filter(|bit| mask >> bit & 1 == 1).map(|bit| u32::from(base) + bit).collect();
    if ticked.iter().any(|day| !(1..=4000).contains(day)) {
        return Err(Refusal::OFF_CALENDAR);
    }
    let days: Vec<u16> = ticked.iter().map(|&day| day as u16).collect();
    published.days(&days, numbers).map(|listed| Listed { ticked: days.len(), ..listed })
}

/// Each bit alone at every base near the calendar's ends and near 16 bits, full masks and empty ones there, and random masks anywhere:
/// the answer and every place of the list are those of the days question, with lists that are long, short and of no place.
#[test]
fn masks_answer_as_the_days_question() {
    let text: String = (1..=200).map(|at| format!("{at}\t1\t{}\t{}\tG\t1\n", at * 19, at * 19 + 40 + at % 7)).collect();
    let begun = phayaklit::read(text.as_bytes(), words(SERVICE_WORDS), words(INDEX_WORDS));
    let (service, mut index, read) = begun.expect(LENGTHS);
    assert_eq!(read, Ok(()));
    service.publish(1, &mut index).unwrap();
    let compare = |base: u16, mask: u64| {
        for places in [SPELLS, 2, 0] {
            let [mut seen, mut expected] = [vec![77; places], vec![77; places]];
            let answer = index.published().mask(base, mask, &mut seen);
            assert_eq!(answer, as_days(index.published(), base, mask, &mut expected), "{base} {mask:016X} {places}");
            assert_eq!(seen, expected, "{base} {mask:016X} {places}");
        }
    };
    let edges = (0..=66).chain(3936..=4002).chain(65_472..=65_535);
    for base in edges {
        (0..64).for_each(|bit| compare(base, 1 << bit));
        [0, u64::MAX, u64::MAX - 1, u64::MAX >> 1].into_iter().for_each(|mask| compare(base, mask));
    }
    let mut word = 1u64;
    for _ in 0..20_000 {
        word = word.wrapping_mul(6_364_136_223_846_793_005).wrapping_add(1_442_695_040_888_963_407);
        compare((word >> 40) as u16 % 4100, word.rotate_left(word as u32 % 64) & (word >> 7));
    }
}
