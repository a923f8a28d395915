//! The works of `bench/running`, each the twin of the script of its name, for both plain programs.

use crate::components::{Component, Test, Verdict, Waits};
use crate::{Message, Order};

/// The ports of a component, by their places.
const P: usize = 0;
const Q: usize = 1;

fn is_integer(message: &Message) -> bool {
    matches!(message, Message::Integer(_))
}

fn is_soup(message: &Message) -> bool {
    matches!(message, Message::Order(order) if order.item.starts_with("soup"))
}

fn sending(count: i64) -> impl FnOnce(&mut Component) -> Result<(), Waits> {
    move |component| {
        for number in 0..count {
            component.send(P, Message::Integer(number));
        }
        Ok(())
    }
}

fn taking(
    count: i64,
    wanted: fn(&Message) -> bool,
) -> impl FnOnce(&mut Component) -> Result<(), Waits> {
    move |component| {
        for _ in 0..count {
            component.receive(P, wanted)?;
        }
        Ok(())
    }
}

fn one(test: &mut Test, _count: i64) {
    let mtc = test.add("mtc", &["p", "q"], sending(1));
    test.connect((mtc, P), (mtc, Q));
}

fn oneself(test: &mut Test, count: i64) {
    let mtc = test.add("mtc", &["p", "q"], move |component| {
        for number in 0..count {
            component.send(P, Message::Integer(number));
            component.receive(Q, is_integer)?;
        }
        Ok(())
    });
    test.connect((mtc, P), (mtc, Q));
}

fn another(test: &mut Test, count: i64) {
    let mtc = test.add("mtc", &["p"], sending(count));
    let a = test.add("a", &["p"], taking(count, is_integer));
    test.connect((mtc, P), (a, P));
}

fn orders(test: &mut Test, count: i64) {
    let mtc = test.add("mtc", &["p"], move |component| {
        for id in 0..count {
            let item = "soup of the day".into();
            component.send(P, Message::Order(Order { id, item }));
        }
        Ok(())
    });
    let a = test.add("a", &["p"], taking(count, is_soup));
    test.connect((mtc, P), (a, P));
}

fn rounds(test: &mut Test, count: i64) {
    let mtc = test.add("mtc", &["p"], move |component| {
        for number in 0..count {
            component.send(P, Message::Integer(number));
            component.receive(P, is_integer)?;
        }
        Ok(())
    });
    let a = test.add("a", &["p"], move |component| {
        for number in 0..count {
            component.receive(P, is_integer)?;
            component.send(P, Message::Integer(number));
        }
        Ok(())
    });
    test.connect((mtc, P), (a, P));
}

fn senders(test: &mut Test, count: i64) {
    let mtc = test.add("mtc", &["p"], taking(16 * count, is_integer));
    for number in 0..16 {
        let sender = test.add(&format!("c{number}"), &["p"], sending(count));
        test.connect((mtc, P), (sender, P));
    }
}

fn components(test: &mut Test, count: i64) {
    test.add("mtc", &["p"], |_| Ok(()));
    for number in 0..count {
        test.add(&format!("c{number}"), &["p"], |component| {
            component.set_verdict(Verdict::Pass);
            Ok(())
        });
    }
}

/// Makes the test of a work with so many messages, or components. Nothing where there is no such work.
pub fn make(work: &str, count: i64) -> Option<Test> {
    let making = match work {
        "one" => one,
        "oneself" => oneself,
        "another" => another,
        "orders" => orders,
        "rounds" => rounds,
        "senders" => senders,
        "components" => components,
        _ => return None,
    };
    let mut test = Test::default();
    making(&mut test, count);
    Some(test)
}
