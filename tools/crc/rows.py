#!/usr/bin/env python3
"""Writes the table of CRC32c and the arms of its proof: crates/number_crc_rows/src/{lib,nibbles}.rt and proofs/.

The table is a `match`, which a compiler keeps as constant data; a `const` array would be copied to the stack by each call. What an
entry has to be is said by the contract, so a wrong one is refused by the proof and not found here. Run `rt fmt` after it.
"""
import pathlib

POLYNOMIAL = 0x82F63B78
ROOT = pathlib.Path(__file__).resolve().parent.parent.parent / "crates" / "number_crc_rows"
# The entries of a byte: after 8, 16 .. 128 bits.
ENTRIES = [8 * k for k in range(1, 17)]
# Two of them in each field, in the order in which a word's four bytes take them.
FIELDS = [(8 * k, 8 * k - 8) for k in (4, 2, 8, 6, 12, 10, 16, 14)]


def steps(count, number):
    for _ in range(count):
        number = number >> 1 ^ (POLYNOMIAL if number & 1 else 0)
    return number


def literal(number, width):
    digits = f"{number:0{width}X}"
    return "0x" + "_".join(digits[i : i + 4] for i in range(0, width, 4))


def field(pair):
    return f"after_{pair[0]}_{pair[1]}"


def row(byte):
    values = (f"{field(p)}: {literal(steps(p[0], byte) << 32 | steps(p[1], byte), 16)}" for p in FIELDS)
    return f"Row {{ {', '.join(values)} }}"


def arms(count, value):
    """The arms of a `match` on a number and `count`: with a single number for the first place LLVM would subtract it."""
    lines = [f"        {count + i} => {value(i)},\n" for i in range(count - 1)]
    return "".join(lines) + f"        _ => {value(count - 1)},\n"


SOURCE = """// The table of CRC32c, written by tools/crc/rows.py: where a byte, and where half a byte, has come to after some bits.
#![tactic(auto)]

ghost use Rattle.std.specs.Prelude.{{◌≡◌, ◌<◌}};
ghost use Rattle.number_crc_steps.specs.Steps.{{steps}};
ghost use Rattle.number_crc_rows.specs.Rows.{{two}};

// Two entries in a field, that of more bits above that of fewer.
#[derive(Clone, Copy)]
pub struct Row {{
{fields}}}

// The entries of a byte.
pub fn entries(n: u32) -> Row
    requires {{ n < 256 }}
    ensures {{ {entries} }}
{{
    let at = n + 256;
    match at {{
{row_arms}    }}
}}

// Four bits, after eight.
pub fn nibble_after_8(n: u32) -> u32
    requires {{ n < 16 }}
    ensures {{ result ≡ steps 8 n }}
{{
    let at = n + 16;
    match at {{
{eight_arms}    }}
}}

// Four bits, after four.
pub fn nibble_after_4(n: u32) -> u32
    requires {{ n < 16 }}
    ensures {{ result ≡ steps 4 n }}
{{
    let at = n + 16;
    match at {{
{four_arms}    }}
}}
"""

HEAD = """-- `number_crc_rows::{name}` meets its contract: {how}. Written by tools/crc/rows.py.
use Rattle.number_crc_steps.specs.Steps.{{steps, bit_step, polynomial}}
{uses}use Rattle.number_crc_rows.proofs.{name}.Goals as goal
"""


def returns(count, place):
    return "returns-in_default" if place == count - 1 else f"returns-in-{count + place}"


def where(count, place):
    if place == count - 1:
        return f"(last {count} {count - 1} c.requires c.in_default.in_default-own.rest refl)"
    return f"(at {count} {place} c.in-{count + place}.is)"


def row_proof():
    text = HEAD.format(
        name="entries",
        how="the entries of 0 and of each single bit are computed step by step, and those of another byte are the xor of two rows",
        uses="use mathlib.Core.Path.{refl}\nuse mathlib.Core.List.{[], ◌∷◌}\n"
        "use Rattle.number_crc_rows.proofs.Rows.{Stepped, chained, both, fields, at, last}\n",
    )
    for byte in range(256):
        values = " ∷ ".join(literal(steps(k, byte), 8) for k in ENTRIES)
        low = byte & -byte
        text += f"\nrow-{byte} : Stepped {byte} ({values} ∷ [])\n"
        if byte == low:
            text += f"unfolding steps bit_step polynomial\nrow-{byte} = chained tt\n"
        else:
            text += f"row-{byte} = both row-{byte - low} row-{low} refl\n"
    for byte in range(256):
        name = returns(256, byte)
        text += f"\npub {name} : goal.{name}\n{name} c = fields {where(256, byte)} row-{byte} refl\n"
    return text


def nibble_proof(name, count):
    text = HEAD.format(
        name=name,
        how="each entry is computed",
        uses="use mathlib.Core.Path.{refl, sym, ap}\nuse Rattle.number_crc_rows.proofs.Rows.{at, last}\n",
    )
    for nibble in range(16):
        name_of = returns(16, nibble)
        text += f"\npub {name_of} : goal.{name_of}\nunfolding steps bit_step polynomial\n{name_of} c = sym (ap (steps {count}) {where(16, nibble)})\n"
    return text


def main():
    source = SOURCE.format(
        fields="".join(f"    pub {field(p)}: u64,\n" for p in FIELDS),
        entries=" × ".join(f"(result.{field(p)} ≡ two {p[0]} {p[1]} n)" for p in FIELDS),
        row_arms=arms(256, row),
        eight_arms=arms(16, lambda i: literal(steps(8, i), 8)),
        four_arms=arms(16, lambda i: literal(steps(4, i), 8)),
    )
    (ROOT / "src").mkdir(parents=True, exist_ok=True)
    (ROOT / "src" / "lib.rt").write_text(source)
    for name, text in (
        ("entries", row_proof()),
        ("nibble_after_8", nibble_proof("nibble_after_8", 8)),
        ("nibble_after_4", nibble_proof("nibble_after_4", 4)),
    ):
        (ROOT / "proofs" / name).mkdir(parents=True, exist_ok=True)
        (ROOT / "proofs" / name / "Answers.antt").write_text(text)


if __name__ == "__main__":
    main()
