//! The layout of the structs of phayaklit.rs: every field of every struct there and back through the archive, each with a value of
//! its own; the module itself asserts offsets and sizes at compile time. It prints the version and the refusals' words.

#[allow(dead_code)]
#[path = "../include/phayaklit.rs"]
mod phayaklit;

use phayaklit::{Listed, Misread, Refusal, Spell, Urgency};
use std::error::Error;

/// Document 01's register A: on day 7 three spells stand, and four looks are taken.
const REGISTER: &[u8] = b"11\t7\t1\t10\tG\t2\n12\t8\t3\t4\tC\t3F800000\n14\t9\t5\t6\tG\t4\n\
13\t9\t5\t8\tG\t1\n15\t7\t7\t12\tC\t00000000\n16\t5\t9\t9\tG\t3\n";

const REFUSALS: [Refusal; 14] = [
    Refusal::NO_NUMBER,
    Refusal::NO_CANDIDATE,
    Refusal::OFF_CALENDAR,
    Refusal::REVERSED,
    Refusal::BAD_URGENCY,
    Refusal::DUPLICATE_NUMBER,
    Refusal::UNKNOWN_NUMBER,
    Refusal::FULL,
    Refusal::NO_HISTORY,
    Refusal::UNSORTED_DAYS,
    Refusal::SHORT_BUFFER,
    Refusal::MALFORMED,
    Refusal::OUT_OF_ORDER,
    Refusal::NO_SUCH_RULE,
];

fn main() -> Result<(), Box<dyn Error>> {
    let mut words = vec![0; phayaklit::SERVICE_WORDS];
    let (mut one, mut two) = (vec![0; phayaklit::INDEX_WORDS], vec![0; phayaklit::INDEX_WORDS]);
    let mut text = [0; phayaklit::WRITE_BYTES];

    let graded = Spell { number: 258, candidate: 772, first: 1286, last: 1800, urgency: Urgency::Grade(3) };
    let reading = Urgency::Reading(0x12345678);
    let measured = Spell { number: 65535, candidate: 65534, first: 3999, last: 4000, urgency: reading };
    let (mut service, _) = phayaklit::fresh(&mut words, &mut one)?;
    service.enter(measured)?;
    service.enter(graded)?;
    let length = service.write(&mut text)?;
    assert_eq!(
        std::str::from_utf8(&text[..length])?,
        "258\t772\t1286\t1800\tG\t3\n65535\t65534\t3999\t4000\tC\t12345678\n"
    );
    assert_eq!(service.enter(graded), Err(Refusal::DUPLICATE_NUMBER));
    assert_eq!(service.amend(Spell { number: 7, ..graded }), Err(Refusal::UNKNOWN_NUMBER));

    let (_, _, misread) = phayaklit::read(&REGISTER[..93], &mut words, &mut one)?;
    assert_eq!(misread, Err(Misread { refusal: Refusal::MALFORMED, line: 6 }));
    let (service, mut first, read) = phayaklit::read(REGISTER, &mut words, &mut one)?;
    read?;
    service.publish(1, &mut first).unwrap();

    // a second index begins by itself and is published into while the first one is asked
    let asked = first.published();
    let mut second = phayaklit::fresh_index(&mut two)?;
    let mut numbers = [0; phayaklit::SPELLS];
    assert_eq!(second.published().day(7, &mut numbers)?, Listed::default());
    service.publish(1, &mut second).unwrap();
    for published in [asked, second.published()] {
        assert_eq!(published.day(7, &mut numbers)?, Listed { count: 3, looks: 4, ticked: 0 });
        assert_eq!(numbers[..4], [11, 13, 15, 0]);
    }
    let reviewed = asked.mask(4, 0x81, &mut numbers)?;
    assert_eq!((reviewed, &numbers[..4]), (Listed { count: 3, looks: 0, ticked: 2 }, &[11, 12, 15, 0][..]));
    assert_eq!(asked.mask(65_535, 1 << 63, &mut numbers), Err(Refusal::OFF_CALENDAR));
    assert_eq!(first.words(), second.words());
    assert_eq!(service.write(&mut text)?, 94);

    let misread: Box<dyn Error> = misread.unwrap_err().into();
    assert_eq!(misread.to_string(), "line 6: malformed (refusal 12)");
    let short: Box<dyn Error> = phayaklit::fresh_index(&mut one[1..]).unwrap_err().into();
    assert_eq!(short.to_string(), "a block of 21305 words is lent where 21306 are needed");

    assert_eq!(phayaklit::version(), phayaklit::VERSION);
    println!("version {}", phayaklit::VERSION);
    for refusal in REFUSALS {
        println!("{} {}", refusal.number(), refusal.word());
    }
    Ok(())
}
