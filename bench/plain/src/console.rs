//! The console: one line in, one line out.

use crate::packet::{FLOOD, HEAD, TAIL};
use crate::refusal::Refusal;
use crate::rules::{RangeRule, Verdict, MOST_RULES};
use crate::station::{Input, Station};
use crate::tree::Tree;
use crate::wiring::Wiring;

/// The most bytes of a line.
pub const MOST_BYTES: usize = 200;

/// A line that is not understood.
const UNKNOWN: Refusal = Refusal::of(21);

enum Part {
    BeforeTree,
    Rules(Wiring, Vec<RangeRule>),
    Running(Box<Tree>),
}

/// What a line is answered, beside `ok`.
enum Answer {
    Done,
    Number(u32),
    Word(u32),
}

pub struct Console {
    part: Part,
}

impl Default for Console {
    fn default() -> Self {
        Console {
            part: Part::BeforeTree,
        }
    }
}

impl Console {
    /// Answers a line that stands before a newline, or that ends the input.
    pub fn line(&mut self, line: &[u8], out: &mut Vec<u8>) {
        let answer = if line.len() > MOST_BYTES {
            Err(UNKNOWN)
        } else {
            self.answer(line)
        };
        match answer {
            Ok(Answer::Done) => out.extend_from_slice(b"ok"),
            Ok(Answer::Number(number)) => {
                out.extend_from_slice(b"ok ");
                write_decimal(number, out);
            }
            Ok(Answer::Word(word)) => {
                out.extend_from_slice(b"ok ");
                write_hexadecimal(word, out);
            }
            Err(Refusal { number, place }) => {
                out.extend_from_slice(b"no ");
                write_decimal(u32::from(number), out);
                if let Some(place) = place {
                    out.push(b' ');
                    write_decimal(u32::from(place), out);
                }
            }
        }
        out.push(b'\n');
    }

    fn answer(&mut self, line: &[u8]) -> Result<Answer, Refusal> {
        let mut fields = line.split(|&byte| byte == b' ');
        let command = fields.next().ok_or(UNKNOWN)?;
        match &mut self.part {
            Part::BeforeTree => match command {
                b"tree" => {
                    let levels = last(&mut fields, decimal)?;
                    self.part = Part::Rules(Wiring::full(levels)?, Vec::new());
                    Ok(Answer::Done)
                }
                _ => Err(UNKNOWN),
            },
            Part::Rules(wiring, rules) => match command {
                b"rule" => {
                    let rule = read_rule(&mut fields)??;
                    if rules.len() >= MOST_RULES {
                        return Err(Refusal::of(4));
                    }
                    rules.push(rule);
                    Ok(Answer::Done)
                }
                b"go" => {
                    end(&mut fields)?;
                    let tree = Tree::new(wiring.clone(), std::mem::take(rules));
                    self.part = Part::Running(Box::new(tree));
                    Ok(Answer::Done)
                }
                _ => Err(UNKNOWN),
            },
            Part::Running(tree) => match command {
                b"fire" => {
                    let card = next(&mut fields, decimal)?;
                    let station = next(&mut fields, station)?;
                    let input = last(&mut fields, input)?;
                    let sum = tree.fire(card, station, input)?;
                    Ok(Answer::Number(u32::from(sum)))
                }
                b"take" => Ok(Answer::Word(tree.take(last(&mut fields, decimal)?)?)),
                b"send" => send(tree, &mut fields),
                b"owed" => {
                    end(&mut fields)?;
                    Ok(Answer::Number(tree.owed()))
                }
                _ => Err(UNKNOWN),
            },
        }
    }
}

/// A field that must be there, read by this reader.
fn next<'a, T>(
    fields: &mut impl Iterator<Item = &'a [u8]>,
    read: impl Fn(&[u8]) -> Option<T>,
) -> Result<T, Refusal> {
    fields.next().and_then(read).ok_or(UNKNOWN)
}

/// The last field.
fn last<'a, T>(
    fields: &mut impl Iterator<Item = &'a [u8]>,
    read: impl Fn(&[u8]) -> Option<T>,
) -> Result<T, Refusal> {
    let field = next(fields, read)?;
    end(fields)?;
    Ok(field)
}

fn end<'a>(fields: &mut impl Iterator<Item = &'a [u8]>) -> Result<(), Refusal> {
    fields.next().map_or(Ok(()), |_| Err(UNKNOWN))
}

/// A rule that is understood, which may still be refused.
fn read_rule<'a>(
    fields: &mut impl Iterator<Item = &'a [u8]>,
) -> Result<Result<RangeRule, Refusal>, Refusal> {
    let cards = (next(fields, decimal)?, next(fields, decimal)?);
    let keys = (next(fields, key)?, next(fields, key)?);
    let verdict = last(fields, |field| match field {
        b"n" => Some(Verdict::Refuse),
        // A class above 255 is as wrong as 255.
        _ => decimal(field).map(|class| Verdict::Class(class.min(255) as u8)),
    })?;
    Ok(RangeRule::new(cards, keys, verdict))
}

fn send<'a>(
    tree: &mut Tree,
    fields: &mut impl Iterator<Item = &'a [u8]>,
) -> Result<Answer, Refusal> {
    let card = next(fields, decimal)?;
    let mode = next(fields, |field| match field {
        b"T" => Some(0),
        b"F" => Some(FLOOD),
        _ => None,
    })?;
    let route = next(fields, route)?;
    let mut packet = [0; MOST_BYTES / 2];
    packet[0] = HEAD | mode | route;
    packet[1] = next(fields, key)?.into();
    let mut count = 2;
    for field in fields {
        packet[count] = word(field).ok_or(UNKNOWN)?;
        count += 1;
    }
    packet[count - 1] |= TAIL;
    tree.send(card, &packet[..count])?;
    Ok(Answer::Done)
}

/// One to three decimal digits.
fn decimal(field: &[u8]) -> Option<u16> {
    if field.is_empty() || field.len() > 3 {
        return None;
    }
    field.iter().try_fold(0, |number, byte| {
        byte.is_ascii_digit()
            .then(|| 10 * number + u16::from(byte - b'0'))
    })
}

fn hexadecimal(field: &[u8]) -> Option<u32> {
    field.iter().try_fold(0, |number, &byte| {
        let digit = match byte {
            b'0'..=b'9' => byte - b'0',
            b'a'..=b'f' => byte - b'a' + 10,
            b'A'..=b'F' => byte - b'A' + 10,
            _ => return None,
        };
        Some(number << 4 | u32::from(digit))
    })
}

/// Two hexadecimal digits.
fn key(field: &[u8]) -> Option<u8> {
    if field.len() != 2 {
        return None;
    }
    hexadecimal(field).map(|key| key as u8)
}

/// One to eight hexadecimal digits, at most 3fffffff.
fn word(field: &[u8]) -> Option<u32> {
    if field.is_empty() || field.len() > 8 {
        return None;
    }
    hexadecimal(field).filter(|&word| word <= 0x3fff_ffff)
}

/// One to nine letters, a bit for each from bit 8 down.
fn route(field: &[u8]) -> Option<u32> {
    if field.is_empty() || field.len() > 9 {
        return None;
    }
    field
        .iter()
        .zip((0..9).rev())
        .try_fold(0, |bits, (letter, place)| match letter {
            b'U' | b'R' | b'S' => Some(bits | 1 << place),
            b'D' | b'L' => Some(bits),
            _ => None,
        })
}

fn station(field: &[u8]) -> Option<Station> {
    match field {
        b"u" => Some(Station::Up),
        b"d" => Some(Station::Down),
        _ => None,
    }
}

fn input(field: &[u8]) -> Option<Input> {
    match field {
        b"l" => Some(Input::Left),
        b"r" => Some(Input::Right),
        b"q" => Some(Input::Queue),
        b"p" => Some(Input::Parent),
        b"t" => Some(Input::Turn),
        _ => None,
    }
}

fn write_decimal(number: u32, out: &mut Vec<u8>) {
    let mut digits = [0; 10];
    let mut at = digits.len();
    let mut left = number;
    loop {
        at -= 1;
        digits[at] = b'0' + (left % 10) as u8;
        left /= 10;
        if left == 0 {
            break;
        }
    }
    out.extend_from_slice(&digits[at..]);
}

fn write_hexadecimal(word: u32, out: &mut Vec<u8>) {
    let digit = |place: u32| b"0123456789abcdef"[(word >> (4 * place) & 15) as usize];
    out.extend((0..8).rev().map(digit));
}
