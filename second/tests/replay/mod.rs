//! The tables that the lines of a script make.

use second::{build, build_within, Filling};

/// Calls back for each line that asks and makes no table: with its words, and
/// the table that the lines before it have made.
pub fn each_question(script: &str, mut question: impl FnMut(&[&str], &[u8])) {
    let mut area = vec![7; 65_600];
    let mut second_area = vec![5; 65_600];
    let mut length = 0;
    let mut filling = Filling::new();
    for line in script.lines() {
        let words: Vec<&str> = line.split(' ').collect();
        let number = |place: usize| words[place].parse::<usize>().unwrap();
        match words[0] {
            "build" => {
                length = number(1);
                // Refused or not: what is in the area then is all that counts.
                let _ = build(&bytes(words[2]), &mut area[..length]);
            }
            "build_within" => {
                length = number(2);
                let (card, cap) = (bytes(words[4]), number(1) as u16);
                let second = &mut second_area[..number(3)];
                let _ = build_within(&card, cap, &mut area[..length], second);
            }
            "begin" | "add" | "finish" => fill(&mut filling, &words, &mut area[..length]),
            "swap" => std::mem::swap(&mut area, &mut second_area),
            "table" => {
                let table = bytes(words[1]);
                length = table.len();
                area[..length].copy_from_slice(&table);
            }
            "set" => area[number(1)] = number(2) as u8,
            "cut" => length = number(1),
            _ => question(&words, &area[..length]),
        }
    }
}

/// A line of a card filled in condition by condition, refused or not.
fn fill(filling: &mut Filling, words: &[&str], lent: &mut [u8]) {
    let byte = |place: usize| words[place].parse::<u8>().unwrap();
    let _ = match words[0] {
        "begin" => filling.begin(byte(1), byte(2), lent),
        "add" => filling.add(&bytes(words[1]), lent),
        _ => filling.finish(lent).map(drop),
    };
}

fn bytes(word: &str) -> Vec<u8> {
    (0..word.len() / 2)
        .map(|i| u8::from_str_radix(&word[2 * i..2 * i + 2], 16).unwrap())
        .collect()
}
