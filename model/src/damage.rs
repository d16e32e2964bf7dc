//! Ways to spoil a good input.

use crate::rng::Rng;

/// Applies one change to the input's bytes.
type Change = fn(&mut Rng, &mut Vec<u8>);

pub const DAMAGES: &[(&str, Change)] = &[
    ("byte flipped", |rng, input| {
        let at = rng.index(input.len());
        input[at] ^= 1 << rng.index(8);
    }),
    ("byte deleted", |rng, input| {
        input.remove(rng.index(input.len()));
    }),
    ("byte inserted", |rng, input| {
        let byte = *rng.pick(b"0123456789 \n\rabt-+.,#");
        input.insert(rng.index(input.len() + 1), byte);
    }),
    ("byte doubled", |rng, input| {
        let at = rng.index(input.len());
        input.insert(at, input[at]);
    }),
    ("byte above 127", |rng, input| {
        let byte = rng.word(128, 255) as u8;
        input.insert(rng.index(input.len() + 1), byte);
    }),
    ("NUL byte", |rng, input| {
        input.insert(rng.index(input.len() + 1), 0);
    }),
    ("last LF missing", |_, input| {
        input.pop();
    }),
    ("line dropped", |rng, input| {
        edit_lines(rng, input, |lines, at| {
            lines.remove(at);
        })
    }),
    ("line doubled", |rng, input| {
        edit_lines(rng, input, |lines, at| lines.insert(at, lines[at].clone()))
    }),
    ("line emptied", |rng, input| {
        edit_lines(rng, input, |lines, at| lines[at].clear())
    }),
    ("line swapped with line 1", |rng, input| {
        edit_lines(rng, input, |lines, at| lines.swap(0, at))
    }),
    ("second board line", |rng, input| {
        edit_lines(rng, input, |lines, at| {
            lines.insert(at + 1, lines[0].clone())
        })
    }),
    ("CR LF", |rng, input| {
        edit_lines(rng, input, |lines, at| lines[at].push('\r'))
    }),
    ("CR LF in all lines", |_, input| {
        edit_text(input, |text| text.replace('\n', "\r\n"))
    }),
    ("trailing space", |rng, input| {
        edit_lines(rng, input, |lines, at| lines[at].push(' '))
    }),
    ("leading space", |rng, input| {
        edit_lines(rng, input, |lines, at| lines[at].insert(0, ' '))
    }),
    ("tab for a space", |rng, input| edit_space(rng, input, "\t")),
    ("two spaces", |rng, input| edit_space(rng, input, "  ")),
    ("extra field", |rng, input| edit_space(rng, input, " 1 ")),
    ("comma for a space", |rng, input| {
        edit_space(rng, input, ",")
    }),
    ("missing field", |rng, input| {
        let gone = rng.next_u64() as usize;
        edit_lines(rng, input, |lines, at| {
            let mut fields: Vec<&str> = lines[at].split(' ').collect();
            fields.remove(gone % fields.len());
            lines[at] = fields.join(" ");
        })
    }),
    ("capital letter", |rng, input| {
        edit_lines(rng, input, |lines, at| {
            lines[at] = lines[at].replacen(['b', 'a', 'r', 'c', 't'], "T", 1)
        })
    }),
    ("word in capitals", |rng, input| {
        edit_lines(rng, input, |lines, at| {
            lines[at] = lines[at].to_ascii_uppercase()
        })
    }),
    ("leading zero", |rng, input| {
        edit_number(rng, input, |number, _| format!("0{number}"))
    }),
    ("sign", |rng, input| {
        edit_number(rng, input, |number, rng| {
            format!("{}{number}", rng.pick(&['+', '-']))
        })
    }),
    ("number above 65535", |rng, input| {
        // Sums that come back to the same number in 16, 32 or 64 bits.
        edit_number(rng, input, |number, rng| {
            let more = *rng.pick(&[1 << 16, 1 << 32, 1_u128 << 64]);
            number
                .parse()
                .unwrap_or(0_u128)
                .saturating_add(more)
                .to_string()
        })
    }),
    ("very long number", |rng, input| {
        edit_number(rng, input, |number, rng| {
            number.to_string() + &"0".repeat(rng.range(5, 300) as usize)
        })
    }),
    ("number in another form", |rng, input| {
        edit_number(rng, input, |number, rng| match rng.range(0, 2) {
            0 => format!("{number}.0"),
            1 => format!("0x{number}"),
            _ => format!("{number}_"),
        })
    }),
];

/// The label of an input with more than one damage.
pub const SEVERAL: &str = "several";

/// Spoils a good input: the damages take turns, and a few inputs get several.
pub fn damaged(rng: &mut Rng, mut input: Vec<u8>, number: usize) -> (&'static str, Vec<u8>) {
    let place = number % (DAMAGES.len() + 1);
    if let Some((name, change)) = DAMAGES.get(place) {
        change(rng, &mut input);
        return (name, input);
    }
    for _ in 0..rng.range(2, 4) {
        // A damage needs something to change.
        if input.len() > 2 {
            rng.pick(DAMAGES).1(rng, &mut input);
        }
    }
    (SEVERAL, input)
}

/// Damages that make text of the input; a second damage may meet bytes that are no text.
fn edit_text(input: &mut Vec<u8>, edit: impl FnOnce(&str) -> String) {
    *input = edit(&String::from_utf8_lossy(input)).into_bytes();
}

/// Changes the lines; the place given is often that of line 1.
fn edit_lines(rng: &mut Rng, input: &mut Vec<u8>, edit: impl FnOnce(&mut Vec<String>, usize)) {
    edit_text(input, |text| {
        let mut lines: Vec<String> = text.split_terminator('\n').map(str::to_string).collect();
        if lines.is_empty() {
            return String::new();
        }
        let at = if rng.chance(20) {
            0
        } else {
            rng.index(lines.len())
        };
        edit(&mut lines, at);
        lines.iter().map(|line| format!("{line}\n")).collect()
    });
}

/// Puts something else for the first or the last space of a line.
fn edit_space(rng: &mut Rng, input: &mut Vec<u8>, instead: &str) {
    let last = rng.chance(50);
    edit_lines(rng, input, |lines, at| {
        let line = &mut lines[at];
        let space = if last {
            line.rfind(' ')
        } else {
            line.find(' ')
        };
        if let Some(space) = space {
            line.replace_range(space..=space, instead);
        }
    });
}

/// Rewrites one of the numbers of a line.
fn edit_number(rng: &mut Rng, input: &mut Vec<u8>, edit: fn(&str, &mut Rng) -> String) {
    let mut own = Rng::new(rng.next_u64(), 0);
    edit_lines(rng, input, |lines, at| {
        let mut fields: Vec<String> = lines[at].split(' ').map(str::to_string).collect();
        if fields.len() > 1 {
            let field = 1 + own.index(fields.len() - 1);
            fields[field] = edit(&fields[field], &mut own);
        }
        lines[at] = fields.join(" ");
    });
}
