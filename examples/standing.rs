//! A host in Rust: it enters a register, publishes, asks, writes, reads back, keeps two services side by side, and lets
//! several threads ask one published index.

#[allow(dead_code)]
#[path = "../include/phayaklit.rs"]
mod phayaklit;

use phayaklit::{Index, Listed, Misread, Refusal, Service, Spell, Urgency, WrongLength};

const THREADS: usize = 4;
const LAST_DAY: u16 = 4000;

/// The memory of a service.
struct Memory {
    service: Vec<u16>,
    index: Vec<u16>,
}

impl Memory {
    fn new() -> Memory {
        Memory { service: vec![0; phayaklit::SERVICE_WORDS], index: vec![0; phayaklit::INDEX_WORDS] }
    }
}

fn spell(number: u16, candidate: u16, first: u16, last: u16, urgency: Urgency) -> Spell {
    Spell { number, candidate, first, last, urgency }
}

fn register() -> [Spell; 6] {
    [
        spell(11, 7, 1, 10, Urgency::Grade(2)),
        spell(12, 8, 3, 4, Urgency::Reading(1.0f32.to_bits())),
        spell(14, 9, 5, 6, Urgency::Grade(4)),
        spell(13, 9, 5, 8, Urgency::Grade(1)),
        spell(15, 7, 7, 12, Urgency::Reading(0)),
        spell(16, 5, 9, 9, Urgency::Grade(3)),
    ]
}

fn outcome<T>(result: &Result<T, Refusal>) -> &'static str {
    result.as_ref().map_or_else(|refusal| refusal.word(), |_| "accepted")
}

fn said(call: &str, result: Result<(), Refusal>) {
    println!("{call}: {}", outcome(&result));
}

/// Asks with a list of that many places and prints the count, the looks and the numbers.
fn listed(question: &str, places: usize, ask: impl FnOnce(&mut [u16]) -> Result<Listed, Refusal>) {
    let mut numbers = [0; phayaklit::SPELLS];
    let answer = ask(&mut numbers[..places]);
    let Listed { count, looks, .. } = answer.unwrap_or_default();
    let numbers: String = numbers[..count].iter().map(|number| format!(" {number}")).collect();
    println!("{question}: {}, {count} spells, {looks} looks:{numbers}", outcome(&answer));
}

fn enter_and_ask(service: &mut Service, index: &mut Index) {
    let all = phayaklit::SPELLS;
    for spell in register() {
        said("enter", service.enter(spell));
    }
    said("enter again", service.enter(register()[0]));
    said("enter with grade 5", service.enter(spell(17, 1, 1, 1, Urgency::Grade(5))));
    listed("day 5, nothing published", all, |numbers| index.published().day(5, numbers));
    service.publish(1, index).expect("there is such a rule");
    println!("publish: accepted");
    let published = index.published();
    listed("day 5", all, |numbers| published.day(5, numbers));
    listed("day 5 into two places", 2, |numbers| published.day(5, numbers));
    listed("span 9 to 10", all, |numbers| published.span(9, 10, numbers));
    listed("cover of 14", all, |numbers| published.cover(14, numbers));
    listed("days 4 and 11", all, |numbers| published.days(&[4, 11], numbers));
    listed("the mask of days 4 and 11", all, |numbers| published.mask(4, 0x81, numbers));
    let reviewed = published.mask(4, 0x81, &mut [0; phayaklit::SPELLS]);
    println!("the mask of days 4 and 11: {} days ticked", reviewed.map_or(0, |listed| listed.ticked));
}

fn print_opened(call: &str, opened: Result<(), Misread>) {
    let line = opened.map_or_else(|misread| misread.line, |()| 0);
    println!("{call}: {}, line {line}", outcome(&opened.map_err(|misread| misread.refusal)));
}

/// Writes the first service's register, and returns the second service, read from it.
fn write_and_read_back<'a>(first: &Service, memory: &'a mut Memory) -> Result<(Service<'a>, Index<'a>), WrongLength> {
    let mut text = [0; phayaklit::WRITE_BYTES];
    let written = first.write(&mut text);
    let text = &text[..written.unwrap_or(0)];
    println!("write: {}, {} bytes", outcome(&written), text.len());
    print!("{}", String::from_utf8_lossy(text));
    let (_, _, opened) = phayaklit::read(&text[..text.len() - 1], &mut memory.service, &mut memory.index)?;
    print_opened("read without the last byte", opened);
    let (service, index, opened) = phayaklit::read(text, &mut memory.service, &mut memory.index)?;
    print_opened("read back", opened);
    Ok((service, index))
}

fn side_by_side(first: &Index, service: &mut Service, index: &mut Index) {
    let all = phayaklit::SPELLS;
    said("second: take back", service.take_back());
    said("second: strike 13", service.strike(13));
    said("second: amend 14", service.amend(spell(14, 9, 2, 6, Urgency::Grade(4))));
    service.publish(1, index).expect("there is such a rule");
    println!("second: publish: accepted");
    listed("first: day 5", all, |numbers| first.published().day(5, numbers));
    listed("second: day 5", all, |numbers| index.published().day(5, numbers));
    said("second: take back", service.take_back());
    said("second: take back", service.take_back());
    said("second: take back", service.take_back());
}

/// Several threads ask every day of one index, and each adds up what is listed.
fn ask_from_threads(index: &Index) {
    let published = index.published();
    let ask = |day| published.day(day, &mut [0; phayaklit::SPELLS]).map_or(0, |listed| listed.count);
    let ask_all = || (1..=LAST_DAY).map(ask).sum::<usize>();
    let totals: Vec<usize> = std::thread::scope(|scope| {
        let threads: Vec<_> = (0..THREADS).map(|_| scope.spawn(ask_all)).collect();
        threads.into_iter().map(|thread| thread.join().expect("a thread that asks comes back")).collect()
    });
    for (at, total) in totals.iter().enumerate() {
        println!("thread {}: {total} listed over all days", at + 1);
    }
}

fn main() -> Result<(), WrongLength> {
    let (mut one, mut two) = (Memory::new(), Memory::new());
    println!("a block one word short: {:?}", phayaklit::fresh(&mut one.service[1..], &mut one.index).err());
    let (mut first, mut first_index) = phayaklit::fresh(&mut one.service, &mut one.index)?;
    enter_and_ask(&mut first, &mut first_index);
    let (mut second, mut second_index) = write_and_read_back(&first, &mut two)?;
    side_by_side(&first_index, &mut second, &mut second_index);
    ask_from_threads(&first_index);
    Ok(())
}
