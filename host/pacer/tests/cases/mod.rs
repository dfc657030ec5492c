//! What the tests share that read a file of cases or put a log in every order.

// A test need not use all of it.
#![allow(dead_code)]

use pacer::{Refusal, Segment, RECORD_BYTES};

/// The lines of a file of cases.
pub fn lines(file: &'static str) -> Vec<&'static str> {
    file.lines().filter(|line| !line.starts_with('#')).collect()
}

/// The refusal of an answer in the file of cases, none if it is no refusal.
pub fn no(answer: &str) -> Option<Refusal> {
    let (question, index) = answer.strip_prefix("no ")?.split_once(' ')?;
    Some(Refusal {
        question: question.parse().unwrap(),
        index: index.parse().unwrap(),
    })
}

/// Bytes in the file of cases.
pub fn bytes(word: &str) -> Vec<u8> {
    if word == "-" {
        return Vec::new();
    }
    let digits: Vec<char> = word.chars().collect();
    digits
        .chunks(2)
        .map(|pair| u8::from_str_radix(&String::from_iter(pair), 16).unwrap())
        .collect()
}

/// A list of frames in the file of cases.
pub fn frames(word: &str) -> Vec<u16> {
    if word == "-" {
        return Vec::new();
    }
    word.split(',')
        .map(|frame| frame.parse().unwrap())
        .collect()
}

/// Segments in the file of cases.
pub fn listed(words: &str) -> Vec<Segment> {
    if words == "-" {
        return Vec::new();
    }
    words
        .split(' ')
        .map(|word| {
            let mut numbers = word.split(',').map(|number| number.parse::<u32>().unwrap());
            let mut next = || numbers.next().unwrap();
            Segment {
                group: next() as u8,
                first: next() as u16,
                last: next() as u16,
                value: next(),
            }
        })
        .collect()
}

/// Puts the records of a log in every order.
pub fn every_order(log: &[u8], visit: &mut dyn FnMut(&[u8])) {
    fn go(records: &mut [&[u8]], fixed: usize, visit: &mut dyn FnMut(&[u8])) {
        if fixed == records.len() {
            visit(&records.concat());
        }
        for place in fixed..records.len() {
            records.swap(fixed, place);
            go(records, fixed + 1, visit);
            records.swap(fixed, place);
        }
    }
    let mut records: Vec<&[u8]> = log.chunks(RECORD_BYTES).collect();
    go(&mut records, 0, visit);
}
