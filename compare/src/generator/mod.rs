//! Random tapes by seed. The generator holds a store of the crate while it writes, so that a
//! customer can return what was really lent.

mod asks;
mod customer;
mod shops;
mod spent;
mod spoil;

pub use spent::spent_heap;

use crate::{
    counter::Counter,
    generator::{customer::Customer, shops::Shop},
    random::Random,
    settings::Settings,
    shelf::Shelf,
    tape::{write_count, write_header, write_record},
};

/// The random tape of a number: even ones are of buddy stores, odd ones of free lists. One in
/// twenty has a header or an end that a tape shouldn't have.
pub fn tape(seed: u64, number: u64) -> Vec<u8> {
    let mut random = Random::new(seed, number);
    let shop = shops::shop(&mut random, number % 2 == 1);
    let mut tape = write(&shop, Random::new(seed, !number));
    spoil::spoil(&mut random, &shop.settings, &mut tape);
    tape
}

/// As `tape`, but of the least number of records and never spoiled.
pub fn short_tape(seed: u64, number: u64) -> Vec<u8> {
    let mut random = Random::new(seed, number);
    let shop = shops::shop(&mut random, number % 2 == 1);
    let shop = Shop { records: shops::RECORDS, ..shop };
    write(&shop, random)
}

/// The tape of a shelf of two to four stores with customers of their own.
pub fn shelf_tape(seed: u64, number: u64) -> Vec<u8> {
    let mut random = Random::new(seed, number);
    let shops = shops::shelf(&mut random);
    let mut customers: Vec<Customer> = (0..)
        .zip(&shops)
        .map(|(place, shop)| {
            let random = Random::new(random.word(), place);
            Customer::new(random, shop.settings, shop.habits)
        })
        .collect();
    let settings: Vec<Settings> = shops.iter().map(|shop| shop.settings).collect();
    let mut tape = Vec::new();
    write_count(&mut tape, settings.len() as u64);
    settings.iter().for_each(|settings| write_header(&mut tape, &settings.header()));

    let mut shelf = Shelf::open(&settings);
    for _ in 0..shops[0].records {
        let waiting = customers.iter().position(Customer::is_waiting);
        let anyone = random.below(settings.len() as u64) as usize;
        let place = waiting.filter(|_| random.percent(70)).unwrap_or(anyone);
        let record = customers[place].call();
        tape.push(place as u8);
        write_record(&mut tape, &record);
        let answer = shelf.take(place, &record);
        customers[place].learn(&record, &answer);
    }
    shelf.close(None);
    tape
}

fn write(shop: &Shop, random: Random) -> Vec<u8> {
    let mut customer = Customer::new(random, shop.settings, shop.habits);
    let mut tape = Vec::new();
    write_header(&mut tape, &shop.settings.header());
    let mut counter = Counter::open(shop.settings);
    for _ in 0..shop.records {
        let record = customer.call();
        write_record(&mut tape, &record);
        let answer = counter.take(&record);
        customer.learn(&record, &answer);
    }
    counter.close(None);
    tape
}
