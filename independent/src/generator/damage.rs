//! Files that are not laid out rightly, or not certainly so.

use super::dice::Dice;
use super::{aim, draft, edges};

/// Bytes that a file may hold, or nearly.
const LIKELY: &[u8] = b"0123456789- \n\r\t\0+.,IABWNiabwnKITLEVSOADCRkl";

/// The text that is then damaged.
pub(super) fn whole(dice: &mut Dice) -> Vec<u8> {
    draft::text(&match dice.below(12) {
        0 => draft::loose(dice),
        1 => edges::several(dice),
        2 => edges::load(dice),
        3 => aim::at_limit(dice, 1),
        _ => draft::sound(dice),
    })
}

fn split(text: &[u8]) -> Vec<Vec<u8>> {
    let lines = text.split_inclusive(|byte| *byte == b'\n');
    lines.map(<[u8]>::to_vec).collect()
}

fn words_of(line: &[u8]) -> Vec<Vec<u8>> {
    let line = line.strip_suffix(b"\n").unwrap_or(line);
    line.split(|byte| *byte == b' ')
        .map(<[u8]>::to_vec)
        .collect()
}

/// Replaces a word of a line by what `change` makes of it.
fn change_word(dice: &mut Dice, change: fn(&mut Dice, &[u8]) -> Vec<u8>) -> Vec<u8> {
    let mut lines = split(&whole(dice));
    let line = dice.index(lines.len());
    let mut words = words_of(&lines[line]);
    let word = dice.index(words.len());
    words[word] = change(dice, &words[word]);
    lines[line] = words.join(&b' ');
    lines[line].push(b'\n');
    lines.concat()
}

/// A section's count that does not agree with the lines after it.
pub fn miscounted(dice: &mut Dice) -> Vec<u8> {
    let mut lines = split(&whole(dice));
    let section = dice.pick(&["KIT", "LEVELS", "LEVELS", "LOADS", "LOADS", "CARD"]);
    for line in &mut lines {
        let mut words = words_of(line);
        if words[0] != section.as_bytes() {
            continue;
        }
        let text = String::from_utf8_lossy(&words[1]).into_owned();
        let count: i64 = text.parse().unwrap_or(0);
        let other = match dice.below(4) {
            0 => dice.between(0, 66),
            1 => dice.pick(&[0, 1, 2, 8, 9, 24, 25, 64, 65, 999_999_999]),
            2 => count + 1,
            _ => (count - 1).max(0),
        };
        words[1] = other.to_string().into_bytes();
        *line = words.join(&b' ');
        line.push(b'\n');
    }
    lines.concat()
}

/// A word made long: numbers of nine digits, of ten, and of more.
pub fn long_number(dice: &mut Dice) -> Vec<u8> {
    change_word(dice, |dice, word| {
        let mut long = if dice.once_in(4) {
            b"-".to_vec()
        } else {
            Vec::new()
        };
        match dice.below(8) {
            0 => long.extend(b"999999999"),
            1 => long.extend(b"1000000000"),
            2 => long.extend(b"4294967297"),
            3 => long.extend(b"18446744073709551617"),
            4 => {
                // The same number again in the low digits of a longer one.
                long.extend(b"10000000000000000000");
                let start = long.len() - word.len().min(19);
                long.splice(start.., word.iter().copied());
            }
            5 => long.extend((0..dice.between(11, 400)).map(|_| b'7')),
            _ => {
                long.push(dice.pick(b"123456789"));
                let more = dice.pick(&[7, 8, 8, 9]);
                long.extend((0..more).map(|_| dice.pick(b"0123456789")));
            }
        }
        long
    })
}

/// Bytes dropped, doubled, replaced, swapped and put in.
pub fn bytes(dice: &mut Dice) -> Vec<u8> {
    let mut text = whole(dice);
    for _ in 0..dice.pick(&[1, 1, 1, 2, 3]) {
        damage_byte(&mut text, dice);
    }
    text
}

pub(super) fn damage_byte(text: &mut Vec<u8>, dice: &mut Dice) {
    if text.is_empty() {
        return;
    }
    let at = dice.index(text.len());
    let byte = if dice.once_in(4) {
        dice.below(256) as u8
    } else {
        dice.pick(LIKELY)
    };
    match dice.below(5) {
        0 => {
            text.remove(at);
        }
        1 => text.insert(at, text[at]),
        2 => text[at] = byte,
        3 => {
            let next = (at + 1) % text.len();
            text.swap(at, next);
        }
        _ => text.insert(at, byte),
    }
}

/// Lines dropped, doubled, swapped and cut short.
pub fn lines(dice: &mut Dice) -> Vec<u8> {
    let mut text = whole(dice);
    let mut lines = split(&text);
    let at = dice.index(lines.len());
    let other = dice.index(lines.len());
    match dice.below(8) {
        0 => {
            lines.remove(at);
        }
        1 => lines.insert(at, lines[at].clone()),
        2 => lines.swap(at, other),
        3 => lines.truncate(at),
        4 => {
            text.pop();
            return text;
        }
        5 => {
            let cut = dice.index(lines[at].len());
            lines[at].truncate(cut);
            lines[at].push(b'\n');
        }
        6 => lines.insert(at, lines[other].clone()),
        _ => {
            let cut = dice.index(text.len());
            text.truncate(cut);
            return text;
        }
    }
    lines.concat()
}

/// Spaces, signs, zeros and line ends that are not laid out as they should be.
pub fn layout(dice: &mut Dice) -> Vec<u8> {
    if dice.once_in(3) {
        return change_word(dice, sign_or_zero);
    }
    let text = whole(dice);
    let mut lines = split(&text);
    let at = dice.index(lines.len());
    let line = &mut lines[at];
    let end = line.len() - 1;
    let spaces = (0..end).filter(|place| line[*place] == b' ');
    let spaces: Vec<usize> = spaces.collect();
    let space = if spaces.is_empty() {
        end
    } else {
        dice.pick(&spaces)
    };
    match dice.below(12) {
        0 => line.insert(end, b'\r'),
        1 => {
            return text
                .split(|b| *b == b'\n')
                .collect::<Vec<_>>()
                .join(&b"\r\n"[..])
        }
        2 => line[space] = b'\t',
        3 => line.insert(space, b' '),
        4 => line.insert(0, b' '),
        5 => line.insert(end, b' '),
        6 => line[space] = b'\n',
        7 => line.insert(0, b'\n'),
        8 => line.insert(space, dice.pick(b"\0\x0b\x0c\xa0\xff")),
        9 => line[space] = b'\0',
        10 => line[end] = dice.pick(b"\r \0;"),
        _ => line.splice(0..0, *b"\xef\xbb\xbf").for_each(drop),
    }
    lines.concat()
}

fn sign_or_zero(dice: &mut Dice, word: &[u8]) -> Vec<u8> {
    let before: &[u8] = dice.pick(&[&b"0"[..], b"00", b"+", b"-", b"-0", b"--", b"+0"]);
    match dice.below(12) {
        0 => b"-".to_vec(),
        1 => b"-0".to_vec(),
        2 => b"00".to_vec(),
        3 => b"0".to_vec(),
        4 => Vec::new(),
        5 => [word, b".0"].concat(),
        6 => [word, b"-"].concat(),
        _ => [before, word].concat(),
    }
}

/// Section words and marks that are wrong, and sections in another order.
pub fn words(dice: &mut Dice) -> Vec<u8> {
    if dice.once_in(3) {
        return swapped_sections(dice);
    }
    let text = whole(dice);
    let mut lines = split(&text);
    let is_section = |line: &Vec<u8>| line[0].is_ascii_uppercase();
    let places = (0..lines.len()).filter(|place| is_section(&lines[*place]));
    let places: Vec<usize> = places.collect();
    let last = lines.len() - 1;
    let at = if dice.once_in(2) {
        last
    } else {
        dice.pick(&places)
    };
    let mut words = words_of(&lines[at]);
    let word = if at == last {
        dice.pick(&[0, 1, 6, 9])
    } else {
        dice.index(2)
    };
    words[word] = other_word(dice, &words[word]);
    lines[at] = words.join(&b' ');
    lines[at].push(b'\n');
    lines.concat()
}

fn other_word(dice: &mut Dice, word: &[u8]) -> Vec<u8> {
    const OTHERS: [&str; 24] = [
        "I", "II", "III", "IIII", "IV", "A", "AA", "AAA", "B", "BB", "AB", "W", "N", "WN", "C",
        "KIT", "LEVELS", "LOADS", "CARD", "LEVEL", "LOAD", "SHEET", "-", "0",
    ];
    match dice.below(4) {
        0 => word.to_ascii_lowercase(),
        1 => [word, &word[..1.min(word.len())]].concat(),
        2 => word[..word.len().saturating_sub(1)].to_vec(),
        _ => dice.pick(&OTHERS).as_bytes().to_vec(),
    }
}

fn swapped_sections(dice: &mut Dice) -> Vec<u8> {
    let mut sections: Vec<Vec<u8>> = Vec::new();
    for line in split(&whole(dice)) {
        let opens = b"KLC".contains(&line[0]);
        match sections.last_mut() {
            Some(section) if !opens => section.extend(line),
            _ => sections.push(line),
        }
    }
    let (one, other) = (dice.index(sections.len()), dice.index(sections.len()));
    sections.swap(one, other);
    sections.concat()
}

/// Bytes after the last line, up to and beyond the 8,192 that count.
pub fn surplus(dice: &mut Dice) -> Vec<u8> {
    let mut text = whole(dice);
    let mut length = dice.pick(&[1, 2, 100, 8_191, 8_192, 8_193, 9_000, 20_000]);
    if dice.once_in(2) {
        // The whole file is then so long.
        length -= text.len().min(length - 1);
    }
    match dice.below(8) {
        0 => text.push(b'\n'),
        1 => text.push(dice.below(256) as u8),
        2 => text.extend(text.clone()),
        3 => text.extend((0..length).map(|_| dice.below(256) as u8)),
        4 => {
            text.pop();
            text.extend((0..length).map(|_| b'1'));
        }
        5 => text.extend((0..length).map(|_| b' ')),
        6 => {
            damage_byte(&mut text, dice);
            text.extend((0..length).map(|_| dice.pick(LIKELY)));
        }
        _ => {
            // An endless line in the middle.
            let at = dice.index(text.len());
            let byte = dice.pick(b"0 1\n-\0");
            text.splice(at..at, (0..length).map(|_| byte))
                .for_each(drop);
        }
    }
    text
}

/// Bytes that are no file at all, or hardly one.
pub fn noise(dice: &mut Dice) -> Vec<u8> {
    let length = dice.pick(&[0, 0, 1, 2, 10, 300, 9_000]);
    match dice.below(3) {
        0 => (0..length).map(|_| dice.below(256) as u8).collect(),
        1 => (0..length).map(|_| dice.pick(LIKELY)).collect(),
        _ => {
            let start = dice.pick(&[
                "K",
                "KIT",
                "KIT ",
                "KIT 0",
                "KIT 0\n",
                "KIT 1\n",
                "KIT 0\nLEVELS 0\n",
            ]);
            let mut text = start.as_bytes().to_vec();
            text.extend((0..length).map(|_| dice.pick(LIKELY)));
            text
        }
    }
}
