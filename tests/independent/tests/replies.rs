//! Each number of the reply that the samples do not show, and the order of the tests.

use independent::{Reply, check, read, rewrite};

/// Task record.
fn task(period: u32, offset: u32, deadline: u32, worst: u32, priority: u8) -> Vec<u8> {
    let mut record = vec![1];
    for field in [period, offset, deadline, worst] {
        record.extend(field.to_be_bytes());
    }
    record.push(priority);
    record
}

/// Channel record.
fn channel(producer: u8, consumer: u8, initial: u32, size: u32) -> Vec<u8> {
    let mut record = vec![2, producer, consumer];
    record.extend(initial.to_be_bytes());
    record.extend(size.to_be_bytes());
    record
}

/// Rate record.
fn rate(channel: u8, side: u8, part: u8, tokens: u16) -> Vec<u8> {
    let mut record = vec![3, channel, side, part];
    record.extend(tokens.to_be_bytes());
    record
}

/// Relation record.
fn relation(p: u8, q: u8, n: u32, phase: i32, d: u32) -> Vec<u8> {
    let mut record = vec![4, p, q];
    record.extend(n.to_be_bytes());
    record.extend(phase.to_be_bytes());
    record.extend(d.to_be_bytes());
    record
}

/// The reply for records put one after the other.
fn reply(records: &[Vec<u8>]) -> (u32, u64, u64) {
    let Reply { number, place, job } = check(&records.concat(), &mut [0; 32]);
    (number, place, job)
}

/// A task that fits every sample below.
fn good() -> Vec<u8> {
    task(10, 0, 10, 1, 1)
}

#[test]
fn kinds_ends_and_order() {
    assert_eq!(reply(&[good(), vec![0]]), (1, 18, 0));
    assert_eq!(reply(&[good(), vec![5; 30]]), (1, 18, 0));
    assert_eq!(reply(&[good(), vec![2; 10]]), (2, 18, 0));
    assert_eq!(reply(&[good(), vec![4]]), (2, 18, 0));
    let c = channel(0, 0, 0, 0);
    assert_eq!(reply(&[good(), c.clone(), good()]), (3, 29, 0));
    assert_eq!(reply(&[good(), c.clone(), vec![1]]), (2, 29, 0));
    // Order comes before ranges.
    let bad = task(0, 0, 0, 0, 0);
    assert_eq!(reply(&[good(), c.clone(), bad]), (3, 29, 0));
    let down = [good(), c.clone(), rate(0, 1, 0, 1), rate(0, 0, 7, 1)];
    assert_eq!(reply(&down), (3, 35, 0));
    let down = [good(), c.clone(), rate(0, 0, 1, 1), rate(0, 0, 0, 1)];
    assert_eq!(reply(&down), (3, 35, 0));
}

#[test]
fn ranges_of_tasks() {
    let most = 1_000_000;
    for bad in [
        task(0, 0, 1, 1, 1),
        task(most + 1, 0, 1, 1, 1),
        task(10, most + 1, 1, 1, 1),
        task(10, 0, 0, 1, 1),
        task(10, 0, 11, 1, 1),
        task(10, 0, 5, 0, 1),
        task(10, 0, 5, 6, 1),
        task(10, 0, 5, 5, 0),
    ] {
        assert_eq!(reply(&[good(), bad]), (4, 18, 0));
    }
    assert_eq!(reply(&[task(most, most, most, most, 255)]), (0, 1, 0));
}

#[test]
fn ranges_of_channels_rates_and_relations() {
    let most = 1_000_000;
    for bad in [
        channel(1, 0, 0, 0),
        channel(0, 1, 0, 0),
        channel(0, 0, most + 1, 0),
        channel(0, 0, 0, most + 1),
        rate(0, 0, 0, 0),
        relation(1, 0, 1, 0, 1),
        relation(0, 1, 1, 0, 1),
        relation(0, 0, 0, 0, 1),
        relation(0, 0, most + 1, 0, 1),
        relation(0, 0, 1, 1_000_001, 1),
        relation(0, 0, 1, -1_000_001, 1),
        relation(0, 0, 1, i32::MIN, 1),
        relation(0, 0, 1, 0, 0),
        relation(0, 0, 1, 0, most + 1),
    ] {
        assert_eq!(reply(&[good(), bad]), (4, 18, 0));
    }
    for bad in [rate(1, 0, 0, 0), rate(0, 2, 0, 0), rate(0, 0, 2, 0)] {
        assert_eq!(reply(&[good(), channel(0, 0, 0, 0), bad]), (4, 29, 0));
    }
    assert_eq!(reply(&[good(), relation(0, 0, most, 0, most)]), (0, 1, 0));
    assert_eq!(reply(&[channel(0, 0, 0, 0)]), (4, 0, 0));
}

#[test]
fn one_record_too_many() {
    assert_eq!(reply(&vec![good(); 33]), (5, 32 * 18, 0));
    let mut records = vec![good(); 32];
    records.push(task(0, 0, 1, 1, 1));
    assert_eq!(reply(&records), (4, 32 * 18, 0));
    let mut records = vec![good()];
    records.extend(vec![channel(0, 0, 0, 0); 65]);
    assert_eq!(reply(&records), (5, 18 + 64 * 11, 0));
    let mut records = vec![good()];
    records.extend(vec![relation(0, 0, 1, 0, 1); 65]);
    assert_eq!(reply(&records), (5, 18 + 64 * 15, 0));
    for (part, most) in [(0, 16), (1, 32)] {
        let mut records = vec![good(), channel(0, 0, 0, 0)];
        records.extend(vec![rate(0, 1, part, 3); most + 1]);
        assert_eq!(reply(&records), (5, 29 + 6 * most as u64, 0));
    }
}

#[test]
fn cycles_without_entries() {
    let two = [good(), channel(0, 0, 1, 2), channel(0, 0, 1, 2)];
    assert_eq!(reply(&two), (7, 0, 0));
    let mut records = two.to_vec();
    records.extend([rate(0, 0, 1, 1), rate(0, 1, 0, 1), rate(1, 0, 0, 1)]);
    assert_eq!(reply(&records), (7, 1, 0));
    let mut records = two.to_vec();
    records.extend([rate(0, 0, 1, 1), rate(0, 1, 1, 1), rate(1, 0, 1, 1)]);
    assert_eq!(reply(&records), (7, 3, 0));
}

#[test]
fn short_reports_come_after_priorities() {
    let file = [good(), task(10, 0, 10, 1, 2)].concat();
    let of = |number, place| Reply {
        number,
        place,
        job: 0,
    };
    assert_eq!(check(&file, &mut [0]), of(9, 2));
    assert_eq!(check(&file, &mut [0; 2]), of(0, 2));
    assert_eq!(check(&[good(), good()].concat(), &mut []), of(8, 1));
    let mut with_relation = file.clone();
    with_relation.extend(relation(0, 1, 1, 5, 1));
    assert_eq!(check(&with_relation, &mut [0]), of(9, 2));
    assert_eq!(check(&with_relation, &mut [0; 2]), of(10, 0));
}

#[test]
fn relations_with_negative_phases() {
    let tasks = [task(4, 9, 4, 1, 1), task(6, 0, 6, 1, 2)];
    let with = |r: Vec<u8>| reply(&[tasks[0].clone(), tasks[1].clone(), r]);
    // 2 × (0 − 9) = −18 is no multiple of 4; 4 × (0 − 9) = −9 × 4 is.
    assert_eq!(with(relation(0, 1, 2, -4, 3)), (10, 0, 0));
    assert_eq!(with(relation(0, 1, 2, -5, 3)), (10, 0, 0));
    assert_eq!(with(relation(0, 1, 4, -9, 6)), (0, 2, 0));
    assert_eq!(with(relation(0, 1, 4, 9, 6)), (10, 0, 0));
    assert_eq!(with(relation(0, 1, 4, -9, 5)), (10, 0, 0));
}

#[test]
fn channels_one_after_the_other() {
    let file = |first: Vec<u8>, second: Vec<u8>| {
        let mut records = vec![good(), first, second];
        for number in 0..2 {
            records.extend([rate(number, 0, 1, 1), rate(number, 1, 1, 1)]);
        }
        reply(&records)
    };
    let (fits, above) = (channel(0, 0, 1, 2), channel(0, 0, 3, 2));
    let (under, over) = (channel(0, 0, 0, 2), channel(0, 0, 1, 1));
    assert_eq!(file(fits.clone(), fits.clone()), (0, 1, 0));
    assert_eq!(file(fits.clone(), above.clone()), (13, 1, 0));
    assert_eq!(file(over.clone(), above.clone()), (17, 0, 0));
    assert_eq!(file(under.clone(), over.clone()), (16, 0, 0));
    // Both rules broken in one channel: underflow is tested first.
    assert_eq!(file(channel(0, 0, 0, 0), fits), (16, 0, 0));
}

#[test]
fn the_writer() {
    let file = [
        good(),
        channel(0, 0, 1, 2),
        rate(0, 0, 0, 5),
        rate(0, 0, 1, 1),
        rate(0, 1, 1, 0xABCD),
        relation(0, 0, 7, -3, 9),
    ]
    .concat();
    assert!(read(&file).is_ok());
    let of = |number, place| Reply {
        number,
        place,
        job: 0,
    };
    for length in 0..file.len() + 5 {
        let mut out = vec![0xEE; length];
        let mut expected = out.clone();
        if length < file.len() {
            assert_eq!(rewrite(&file, &mut out), of(19, file.len() as u64));
        } else {
            assert_eq!(rewrite(&file, &mut out), of(0, 1));
            expected[..file.len()].copy_from_slice(&file);
        }
        assert_eq!(out, expected);
    }
    let mut out = [0xEE; 3];
    assert_eq!(rewrite(&[], &mut out), of(6, 0));
    assert_eq!(rewrite(&file[..20], &mut out), of(2, 18));
    assert_eq!(out, [0xEE; 3]);
}

#[test]
fn any_bytes_get_a_reply() {
    let mut state = 1u32;
    for round in 0..3_000 {
        let length = if round % 100 == 0 { 300_000 } else { round };
        let mut file = [good(), channel(0, 0, 1, 2), rate(0, 0, 1, 1)].concat();
        for _ in 0..length {
            state = state.wrapping_mul(1_664_525).wrapping_add(1_013_904_223);
            file.push((state >> 24) as u8 & 7);
        }
        let reply = check(&file[round % 40..], &mut [0; 32]);
        assert!(reply.number <= 17);
    }
}
