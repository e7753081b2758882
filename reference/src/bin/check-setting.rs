//! Looks for the check settings that fit the five frames in RFC 798's appendix.

use reference::appendix;
use reference::frame::{HEADER, RIGHT_SYNC, SYNC};
use reference::octets::bit;
use reference::register::{run, Order, Setting, RFC_803_GENERATOR};
use reference::search::{odd_generators, search, Best};

fn main() {
    let frames = appendix::sent().map(|record| appendix::frame(&record));
    // The reciprocal of an odd generator is odd, so it is among those searched.
    let [low, high] = Order::ALL.map(|order| {
        println!("Check field {}:", name(order));
        let rfc = search(&frames, [RFC_803_GENERATOR], order);
        let odd = search(&frames, odd_generators(), order);
        print("RFC 803's generator", &rfc);
        print("every odd generator", &odd);
        println!();
        finding(order, &rfc, &odd, frames.len())
    });
    println!("Finding: {low}");
    println!("Finding: {high}");
}

fn name(order: Order) -> &'static str {
    match order {
        Order::LowFirst => "low bit first",
        Order::HighFirst => "high bit first",
    }
}

fn print(generators: &str, best: &Best) {
    println!(
        "  {generators}: at best {} of 5 frames agree, by",
        best.frames
    );
    for setting in &best.settings {
        println!("    {}", shown(setting));
    }
}

/// What was found of an order.
fn finding(order: Order, rfc: &Best, odd: &Best, all: usize) -> String {
    let order = name(order);
    if odd.frames < all {
        return format!(
            "{order} no setting fits all five; best: {} of 5 by RFC 803's generator, {} of 5 by any",
            rfc.frames, odd.frames
        );
    }
    // Settings come in pairs: from bit 24 on with what the sync leaves of the start.
    let whole = odd.settings.iter().filter(|own| own.first_bit == 0);
    let fitting = whole.map(|own| {
        let twin = after_sync(own);
        assert!(odd.settings.contains(&twin), "a twin fits as well");
        let Setting {
            start, first_bit, ..
        } = twin;
        format!(
            "{}, and its twin start {start}, first bit {first_bit}",
            shown(own)
        )
    });
    let fitting: Vec<String> = fitting.collect();
    assert_eq!(2 * fitting.len(), odd.settings.len());
    format!("{order} all five are fitted by {}", fitting.join("; by "))
}

/// The same check, taken from the bit behind the sync on.
fn after_sync(setting: &Setting) -> Setting {
    let sync = (SYNC..HEADER).map(|i| bit(&RIGHT_SYNC, i));
    Setting {
        start: run(setting.generator, setting.start, sync),
        first_bit: HEADER,
        ..*setting
    }
}

fn shown(setting: &Setting) -> String {
    let &Setting {
        generator,
        start,
        first_bit,
        order: _,
    } = setting;
    format!("generator {generator}, start {start}, first bit {first_bit}")
}
