//! Writes random values and reads them back, and compares dictionaries with lists of pairs.

use sizhetom::{
    Date, Dictionary, Event, Fault, FaultKind, Limit, Limits, Reader, Real, Uid, Value, Writer,
    read, to_binary, to_binary_shared,
};

/// Random numbers (xorshift64*), the same ones in every run.
struct Random(u64);

impl Random {
    fn next(&mut self) -> u64 {
        self.0 ^= self.0 >> 12;
        self.0 ^= self.0 << 25;
        self.0 ^= self.0 >> 27;
        self.0.wrapping_mul(0x2545_F491_4F6C_DD1D)
    }

    fn below(&mut self, count: usize) -> usize {
        (self.next() % count as u64) as usize
    }

    fn choice<'a, T: ?Sized>(&mut self, items: &[&'a T]) -> &'a T {
        items[self.below(items.len())]
    }
}

fn some_string(random: &mut Random) -> String {
    let pieces = [
        "",
        "a",
        "key",
        " ",
        "é",
        "€",
        "\u{1F4A9}",
        "\0",
        "\"\\",
        "a longer piece",
    ];
    (0..random.below(4))
        .map(|_| random.choice(&pieces))
        .collect()
}

fn some_integer(random: &mut Random) -> Value {
    let number = random.next() >> random.below(64);
    match random.below(3) {
        0 => Value::from(number),
        1 => Value::from(number as i64),
        _ => Value::from((number as i64).wrapping_neg()),
    }
}

fn some_scalar(random: &mut Random) -> Value {
    match random.below(8) {
        0 => (random.below(2) == 0).into(),
        1 => (0..random.below(20))
            .map(|_| random.next() as u8)
            .collect::<Vec<u8>>()
            .into(),
        2 => Date::from_seconds((random.next() >> 20) as f64 / 256.0).map_or(0.into(), Value::from),
        3 => Real::Single(f32::from_bits(random.next() as u32)).into(),
        4 => Real::Double(f64::from_bits(random.next())).into(),
        5 => Uid::new(random.next() >> random.below(64)).into(),
        6 => some_integer(random),
        _ => some_string(random).into(),
    }
}

fn some_value(random: &mut Random, levels: usize) -> Value {
    let most = if random.below(20) == 0 { 300 } else { 6 };
    let count = random.below(most);
    match random.below(if levels == 0 { 1 } else { 3 }) {
        0 => some_scalar(random),
        1 => (0..count)
            .map(|_| some_value(random, levels - 1))
            .collect::<Vec<Value>>()
            .into(),
        _ => {
            let pair = |_| (some_string(random), some_value(random, levels - 1));
            (0..count).map(pair).collect::<Dictionary>().into()
        }
    }
}

#[test]
fn values_are_read_back() {
    let mut random = Random(1);
    let mut reader = Reader::new(Limits::NONE);
    for _ in 0..500 {
        let value = some_value(&mut random, 3);
        for file in [to_binary(&value), to_binary_shared(&value)] {
            let file = file.expect("a value can be written");
            let document = reader.read(&file).expect("a written file can be read");
            // The events have the order of the pairs, too.
            assert!(document.events().eq(value.events()));
            assert_eq!(document.value(), value);
            assert_eq!(document.to_binary(), to_binary(&value));
            assert_eq!(document.to_binary_shared(), to_binary_shared(&value));
        }
        assert_eq!(value.clone(), value);
        assert!(value.clone().events().eq(value.events()));
    }
}

#[test]
fn limits_are_exact() {
    let mut random = Random(2);
    for _ in 0..300 {
        let value = some_value(&mut random, 3);
        let file = to_binary(&value).expect("a value can be written");
        let events = value.events().count() as u64;
        let limits = Limits {
            events,
            ..Limits::NONE
        };
        assert!(read(&file, limits).is_ok());
        let limits = Limits {
            events: events - 1,
            ..limits
        };
        let fault = read(&file, limits).unwrap_err();
        assert_eq!(fault.kind(), FaultKind::LimitReached(Limit::Items));
        assert_eq!(fault.events() as u64, events - 1);
        let bytes = value.events().map(size_of).sum();
        assert!(
            read(
                &file,
                Limits {
                    bytes,
                    ..Limits::NONE
                }
            )
            .is_ok()
        );
        if bytes > 0 {
            let fault = read(
                &file,
                Limits {
                    bytes: bytes - 1,
                    ..Limits::NONE
                },
            )
            .unwrap_err();
            assert_eq!(fault.kind(), FaultKind::LimitReached(Limit::Bytes));
        }
    }
}

fn size_of(event: Event<'_>) -> u64 {
    match event {
        Event::Data(data) => data.len() as u64,
        Event::String(string) => string.len() as u64,
        _ => 0,
    }
}

/// A file in which each array has the next one twice, so that it has 2^(levels + 2) events.
fn doubling(levels: u8) -> Vec<u8> {
    let mut file = b"bplist00".to_vec();
    for level in 0..levels {
        file.extend([0xa2, level + 1, level + 1]);
    }
    file.push(0xa0);
    let table = file.len() as u64;
    file.extend((0..=levels).map(|object| 8 + 3 * object));
    file.extend([0, 0, 0, 0, 0, 0, 1, 1]);
    for number in [u64::from(levels) + 1, 0, table] {
        file.extend(number.to_be_bytes());
    }
    file
}

#[test]
fn memory_grows_for_files_that_unfold() {
    let document = read(&doubling(18), Limits::NONE).expect("the file can be read");
    assert_eq!(document.events().len(), (1 << 20) - 2);
    let fault = read(&doubling(40), Limits::default()).unwrap_err();
    assert_eq!(fault.kind(), FaultKind::LimitReached(Limit::Items));
    assert_eq!(fault.events(), 1_000_000);
}

fn written(events: &[Event<'_>]) -> Result<Vec<u8>, Fault> {
    let mut writer = Writer::new();
    writer.extend(events.iter().copied());
    writer.to_binary()
}

#[test]
fn wrong_events_are_named() {
    let (start, end) = (Event::StartDictionary(None), Event::EndCollection);
    let (key, uid) = (Event::String("k"), Event::Uid(Uid::new(1)));
    for (events, index) in [
        (&[][..], 0),
        (&[start][..], 1),
        (&[start, uid][..], 1),
        (&[start, key, end][..], 2),
        (&[start, key, uid][..], 3),
        (&[end][..], 0),
        (&[uid, uid][..], 1),
    ] {
        assert_eq!(written(events).unwrap_err().events(), index, "{events:?}");
    }
    assert!(written(&[start, key, uid, end]).is_ok());
}

#[test]
fn dictionaries_are_lists_of_pairs() {
    let mut random = Random(3);
    for _ in 0..50 {
        let mut pairs = Dictionary::new();
        let mut model: Vec<(String, Value)> = Vec::new();
        for step in 0..400_u64 {
            let key = format!("key {}", random.below(60));
            let at = model.iter().position(|(other, _)| *other == key);
            match (random.below(3), at) {
                (0, Some(at)) => {
                    assert_eq!(pairs.remove(&key), Some(model.swap_remove(at).1));
                }
                (0, None) => assert_eq!(pairs.remove(&key), None),
                (_, at) => {
                    let old = pairs.insert(key.clone(), step.into());
                    assert_eq!(old, at.map(|at| model[at].1.clone()));
                    match at {
                        Some(at) => model[at].1 = step.into(),
                        None => model.push((key, step.into())),
                    }
                }
            }
            assert!(
                pairs
                    .iter()
                    .eq(model.iter().map(|(key, value)| (key.as_str(), value)))
            );
            assert!(
                model
                    .iter()
                    .all(|(key, value)| pairs.get(key) == Some(value))
            );
        }
        assert_eq!(pairs, model.into_iter().rev().collect::<Dictionary>());
    }
}
