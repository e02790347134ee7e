//! Broken page calls: other layouts, each with the length that it has; wrong answers and lengths; memory that must not be written to.

use crate::{answers_length, list_of, without_headroom, Length};
use reference::answers::{Answers, COLUMNS, ROWS};
use reference::calls::{Library, UNTOUCHED_BYTE};
use reference::linked::Linked;
use reference::page::{self, text};
use reference::sheet::{measure, parse, records, told, Silo};
use std::iter::repeat;
use std::ops::Range;

type Page = fn(&[u8], &mut [u8]) -> u32;
type Layout = fn(&Silo, &Answers<u64>) -> String;
type Lines = Vec<Vec<String>>;

/// Both page calls, or both by another layout.
#[derive(Clone, Copy)]
pub enum Pages {
    Calls(Page, Length),
    Laid(Layout),
}

impl Pages {
    pub fn page(&self, sheet: &[u8], buffer: &mut [u8]) -> u32 {
        match self {
            Pages::Calls(page, _) => page(sheet, buffer),
            Pages::Laid(layout) => match laid_out(parse(sheet), *layout) {
                Err(refusal) => refusal as u32,
                Ok(text) if text.len() > buffer.len() => 18,
                Ok(text) => {
                    buffer[..text.len()].copy_from_slice(text.as_bytes());
                    0
                }
            },
        }
    }

    pub fn length(&self, sheet: &[u8]) -> u64 {
        match self {
            Pages::Calls(_, length) => length(sheet),
            Pages::Laid(layout) => laid_out(measure(sheet), *layout)
                .map_or_else(|refusal| refusal, |text| (1 << 32) + text.len() as u64),
        }
    }
}

/// The library's own.
pub const WHOLE: Pages = Pages::Calls(page, page_length);

/// The page as it is due, made here: the stand-ins with other layouts change nothing else, or this would be found.
pub const SAME: Pages = Pages::Laid(DUE);
const DUE: Layout = |_, answers| text(answers);

pub fn page(sheet: &[u8], buffer: &mut [u8]) -> u32 {
    // SAFETY: each pointer is a slice's own.
    unsafe { Linked.page(sheet, buffer) }
}

pub fn page_length(sheet: &[u8]) -> u64 {
    // SAFETY: the pointer is a slice's own.
    unsafe { Linked.page_length(sheet) }
}

/// The page, of zeros where a silo is measured and not calculated.
fn laid_out(judged: Result<Silo, u64>, layout: Layout) -> Result<String, u64> {
    let silo = judged?;
    let list: Vec<u64> = list_of(&silo).into_iter().map(u64::from).collect();
    Ok(layout(&silo, &Answers::read(COLUMNS, silo.depths.len(), &list)))
}

/// The fields of each line.
fn lines(answers: &Answers<u64>) -> Lines {
    let fields = |line: &str| line.split_whitespace().map(String::from).collect();
    text(answers).lines().map(fields).collect()
}

fn set(lines: &[Vec<String>], field: impl Fn(&str) -> String) -> String {
    let line = |line: &Vec<String>| line.iter().map(|text| field(text)).collect::<String>() + "\n";
    lines.iter().map(line).collect()
}

fn right(field: &str) -> String {
    format!("{field:>9}")
}

/// The page with its numbers set otherwise.
fn numbers(answers: &Answers<u64>, set_number: fn(u64) -> String) -> String {
    set(&lines(answers), |field| field.parse().map_or_else(|_| right(field), set_number))
}

/// The page with some lines changed; `change` is told where the bottom begins.
fn relined(answers: &Answers<u64>, change: fn(&mut Lines, usize)) -> String {
    let mut lines = lines(answers);
    change(&mut lines, 1 + answers.rows.len());
    set(&lines, right)
}

pub const LAYOUTS: &[(&str, Layout)] = &[
    ("numbers left-justified", |_, answers| numbers(answers, |n| format!("{n:<9}"))),
    ("leading zeros", |_, answers| numbers(answers, |n| format!("{n:09}"))),
    ("one leading zero", |_, answers| numbers(answers, |n| right(&format!("0{n}")))),
    ("spaces for 0", |_, answers| {
        numbers(answers, |n| right(n.to_string().trim_matches(|_| n == 0)))
    }),
    ("hexadecimal numbers", |_, answers| numbers(answers, |n| format!("{n:>9x}"))),
    ("the eighth digit lost", |_, answers| {
        numbers(answers, |n| right(&(n % 10_000_000).to_string()))
    }),
    ("fields of ten characters", |_, answers| set(&lines(answers), |field| format!("{field:>10}"))),
    ("fields of eight characters", |_, answers| {
        set(&lines(answers), |field| format!("{field:>8}"))
    }),
    ("tabs for spaces", |_, answers| text(answers).replace(' ', "\t")),
    ("no spaces before a field alone", |_, answers| {
        let lines = lines(answers);
        let (eight, one) = lines.split_at(1 + answers.rows.len());
        set(eight, right) + &set(one, str::to_string)
    }),
    ("no last line feed", |_, answers| text(answers).trim_end().into()),
    ("a line feed more at the end", |_, answers| text(answers) + "\n"),
    ("carriage returns", |_, answers| text(answers).replace('\n', "\r\n")),
    ("Pw for PW", |_, answers| text(answers).replace("PW", "Pw")),
    ("p_hf for phf", |_, answers| text(answers).replace(" phf", "p_hf")),
    ("names left-justified", |_, answers| {
        let lines = lines(answers);
        set(&lines[..1], |name| format!("{name:<9}")) + &set(&lines[1..], right)
    }),
    ("no heading", |_, answers| relined(answers, |lines, _| drop(lines.remove(0)))),
    ("pwf and pvf exchanged", |_, answers| {
        relined(answers, |lines, bottom| lines[1..bottom].iter_mut().for_each(|row| row.swap(2, 3)))
    }),
    ("pwf and pvf exchanged, with their names", |_, answers| {
        relined(answers, |lines, bottom| lines[..bottom].iter_mut().for_each(|row| row.swap(2, 3)))
    }),
    ("eight numbers of the list on a line", |_, answers| {
        text(&Answers::read(ROWS, answers.rows.len(), &answers.list(COLUMNS)))
    }),
    ("the deepest first", |_, answers| {
        relined(answers, |lines, bottom| lines[1..bottom].reverse())
    }),
    ("the first depth's line for each", |_, answers| {
        relined(answers, |lines, bottom| {
            let first = lines[1].clone();
            lines[1..bottom].fill(first);
        })
    }),
    ("strakes before the bottom", |_, answers| {
        relined(answers, |lines, bottom| lines[bottom..].rotate_left(10))
    }),
    ("strakes from below", |_, answers| {
        relined(answers, |lines, bottom| lines[bottom + 10..].reverse())
    }),
    ("a flat floor without its zeros", |silo, answers| {
        let mut lines = lines(answers);
        if silo.run == 0 {
            lines.drain(2 + silo.depths.len()..11 + silo.depths.len());
        }
        set(&lines, right)
    }),
    ("the bottom on one line", |_, answers| {
        relined(answers, |lines, bottom| {
            let numbers = lines.drain(bottom..bottom + 10).flatten().collect();
            lines.insert(bottom, numbers);
        })
    }),
    ("z below the surface", |silo, answers| {
        let mut lines = lines(answers);
        for (line, z) in lines[1..].iter_mut().zip(&silo.depths) {
            line[0] = silo.load_depth(*z).to_string();
        }
        set(&lines, right)
    }),
];

/// The library's answer, and the buffer changed from the page's end on where it succeeds.
fn past_page(sheet: &[u8], buffer: &mut [u8], change: fn(&mut [u8])) -> u32 {
    let answer = page(sheet, buffer);
    if let (0, Ok(silo)) = (answer, parse(sheet)) {
        change(&mut buffer[page::length(&silo)..]);
    }
    answer
}

/// The library's answer, and a text in the buffer, with spaces after it, at some refusals.
fn refused(
    sheet: &[u8],
    buffer: &mut [u8],
    refusals: Range<u32>,
    text: impl Fn(u32) -> String,
) -> u32 {
    let answer = page(sheet, buffer);
    if refusals.contains(&answer) {
        let bytes = text(answer).into_bytes().into_iter().chain(repeat(b' '));
        buffer.iter_mut().zip(bytes).for_each(|(byte, other)| *byte = other);
    }
    answer
}

/// 18 for buffers of some length, beside that of the page that the records ask for, whatever the sheet's own refusal.
fn eighteen(sheet: &[u8], buffer: &mut [u8], wrongly: fn(usize, usize) -> bool) -> u32 {
    match records(sheet) {
        Ok(silo) if wrongly(buffer.len(), page::length(&silo)) => 18,
        _ => page(sheet, buffer),
    }
}

/// The library's page of another silo.
fn instead(sheet: &[u8], buffer: &mut [u8], other: fn(Silo) -> Silo) -> u32 {
    match parse(sheet) {
        Ok(silo) => page(&other(silo).sheet(), buffer),
        Err(_) => page(sheet, buffer),
    }
}

pub const CALLS: &[(&str, Page)] = &[
    ("a page that is not written", |sheet, buffer| page(sheet, &mut buffer.to_vec())),
    ("the bytes past the page cleared", |sheet, buffer| {
        past_page(sheet, buffer, |rest| rest.fill(b' '))
    }),
    ("a 0 behind the page", |sheet, buffer| {
        past_page(sheet, buffer, |rest| rest.iter_mut().take(1).for_each(|byte| *byte = 0))
    }),
    ("a page at the buffer's end", |sheet, buffer| match (page(sheet, buffer), parse(sheet)) {
        (0, Ok(silo)) => {
            buffer.rotate_left(page::length(&silo));
            0
        }
        (answer, _) => answer,
    }),
    ("18 before the sheet's own refusals", |sheet, buffer| {
        eighteen(sheet, buffer, |length, due| length < due)
    }),
    ("18 for an empty buffer before all", |sheet, buffer| match buffer {
        [] => 18,
        _ => page(sheet, buffer),
    }),
    ("18 for every length but the page's", |sheet, buffer| {
        match (page(sheet, &mut buffer.to_vec()), parse(sheet)) {
            (0, Ok(silo)) if page::length(&silo) != buffer.len() => 18,
            _ => page(sheet, buffer),
        }
    }),
    ("18 for exactly the page's length", |sheet, buffer| {
        match (page(sheet, &mut buffer.to_vec()), parse(sheet)) {
            (0, Ok(silo)) if page::length(&silo) == buffer.len() => 18,
            _ => page(sheet, buffer),
        }
    }),
    ("18 by the lowest two bytes of a length", |sheet, buffer| {
        let length = buffer.len() % (1 << 16);
        page(sheet, &mut buffer[..length])
    }),
    ("18 before 20", |sheet, buffer| match (page(sheet, buffer), measure(sheet)) {
        (20, Ok(silo)) if page::length(&silo) > buffer.len() => 18,
        (answer, _) => answer,
    }),
    ("a buffer a byte short accepted", |sheet, buffer| match page(sheet, buffer) {
        18 => {
            let mut longer = [&buffer[..], &[0]].concat();
            let answer = page(sheet, &mut longer);
            buffer.copy_from_slice(&longer[..buffer.len()]);
            answer
        }
        answer => answer,
    }),
    ("14 for 18", |sheet, buffer| match page(sheet, buffer) {
        18 => 14,
        answer => answer,
    }),
    ("a refused sheet's buffer cleared", |sheet, buffer| {
        refused(sheet, buffer, 1..18, |_| String::new())
    }),
    ("a short buffer cleared", |sheet, buffer| refused(sheet, buffer, 18..19, |_| String::new())),
    ("a short buffer filled", |sheet, buffer| {
        refused(sheet, buffer, 18..19, |_| laid_out(parse(sheet), DUE).unwrap_or_default())
    }),
    ("the refusal in the buffer", |sheet, buffer| {
        refused(sheet, buffer, 1..18, |answer| format!("REFUSED {answer}\n"))
    }),
    ("a long bin's page, with 20", |sheet, buffer| {
        refused(sheet, buffer, 20..21, |_| laid_out(measure(sheet), DUE).unwrap_or_default())
    }),
    ("20 in the buffer", |sheet, buffer| {
        refused(sheet, buffer, 20..21, |answer| format!("REFUSED {answer}\n"))
    }),
    ("a page without headroom", |sheet, buffer| {
        instead(sheet, buffer, |silo| match without_headroom(&silo) {
            level if parse(&level.sheet()).is_ok() => level,
            _ => silo,
        })
    }),
    ("a page by 135 for a blank C0", |sheet, buffer| {
        instead(sheet, buffer, |silo| match silo.factor {
            0 => Silo { factor: 135, ..silo },
            _ => silo,
        })
    }),
];

pub const LENGTHS: &[(&str, Length)] = &[
    ("a page's length without its mark", |sheet| page_length(sheet) % (1 << 32)),
    ("a mark on a page's refusals too", |sheet| (1 << 32) | page_length(sheet)),
    ("a byte too many", |sheet| told(sheet, |silo| page::length(silo) + 1)),
    ("a page's length in numbers", answers_length),
    ("a page without its line feeds", |sheet| {
        told(sheet, |silo| 72 * (1 + silo.depths.len()) + 9 * (10 + silo.strakes.len()))
    }),
    ("a page without its heading", |sheet| told(sheet, |silo| page::length(silo) - 73)),
    ("the longest page for all", |sheet| told(sheet, |_| 73 * 201 + 10 * 34)),
    ("no 17 for a page", |sheet| match (measure(sheet), records(sheet)) {
        (Err(17), Ok(silo)) => (1 << 32) + page::length(&silo) as u64,
        _ => page_length(sheet),
    }),
];

/// What the page call writes to besides: the sheet from its first byte on, or the buffer.
pub type WritePage = fn(*mut u8, *mut [u8]);

/// Memory written to besides; canaries stand beside the sheet and the buffer.
pub const WRITES: &[(&str, WritePage)] = &[
    ("one byte past the buffer", |_, buffer| {
        // SAFETY: the first canary after the buffer.
        unsafe { buffer.cast::<u8>().add(buffer.len()).write(0) }
    }),
    ("one byte before the buffer", |_, buffer| {
        // SAFETY: the last canary before the buffer.
        unsafe { buffer.cast::<u8>().sub(1).write(0) }
    }),
    ("the sheet's first byte by the page call", |sheet, _| {
        // SAFETY: a byte of the sheet, or the canary after it where it is empty.
        unsafe { sheet.write(1) }
    }),
    ("an untouched buffer's last byte", |_, buffer| {
        // SAFETY: the buffer is lent whole, and no other reference to it is left.
        let last = unsafe { &mut *buffer }.last_mut();
        if let Some(last) = last.filter(|last| **last == UNTOUCHED_BYTE) {
            *last = 0;
        }
    }),
];
