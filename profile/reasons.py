"""What says in words why a byte is refused, profile/reasons.tsv, and why a block can't be written, profile/block_reasons.tsv: the page of the
program, documents, and each language."""
import textwrap

from tables import LINE, filled, put, read, reasons

C_REASONS = """/* Why a byte is refused, and why a block can't be written, in words. Written by profile/make. */
#ifndef GAZHDOR_REASONS_H
#define GAZHDOR_REASONS_H

#include <stdint.h>

/* What a reason says of the byte that is refused, by the numbers of `enum gazhdor_reason`, as "the byte is neither 0 nor 1"; "unknown" for
 * other numbers. */
static inline const char *gazhdor_reason_text(uint32_t reason)
{
    switch (reason) {
{bytes}    default: return "unknown";
    }
}

/* The name of the reason of a block, by the numbers of `enum gazhdor_block_reason`, as "Undefined"; "unknown" for other numbers. */
static inline const char *gazhdor_block_reason_name(uint32_t reason)
{
    switch (reason) {
{names}    default: return "unknown";
    }
}

/* What it says of the block, as "the block has a time offset of 32 to 254"; "unknown" for other numbers. */
static inline const char *gazhdor_block_reason_text(uint32_t reason)
{
    switch (reason) {
{blocks}    default: return "unknown";
    }
}

#endif
"""
RUST_REASONS = """//! {title} Written by profile/make.

/// {title}
#[derive(Debug, Clone, Copy, PartialEq, Eq, Hash)]
pub enum {type} {
{variants}}

/// All reasons, in the order of their numbers.
pub(crate) const {constant}: [{type}; {count}] = [
{all}];

impl {type} {
    /// What it says of the {what}, as `the {what} {example}`.
    #[must_use]
    pub fn explanation(self) -> &'static str {
        match self {
{arms}        }
    }
}
"""


# how long a line of Python may be
PYTHON_LINE = 120
PYTHON_REASONS = '''"""Why a byte is refused, and why a block can't be written: each reason, by its number from 1, with what it says of the
byte or the block. Written by profile/make."""

'''


def rust_arm(case, text):
    short = f'            {case} => "{text}",\n'
    return short if len(short) <= 121 else f'            {case} => {{\n                "{text}"\n            }}\n'


def rust_reasons(title, type_name, constant, what, example, rows):
    """A type of reasons in Rust, of which the first has number 1."""
    variants = ''.join(f'    /// The {what} {words}.\n    {name}{" = 1" if number == 0 else ""},\n' for number, (name, words) in enumerate(rows))
    arms = ''.join(rust_arm(f'{type_name}::{name}', f'the {what} {words}') for name, words in rows)
    return filled(RUST_REASONS, title=title, type=type_name, constant=constant, what=what, example=example, variants=variants, arms=arms,
                  count=str(len(rows)), all=''.join(f'    {type_name}::{name},\n' for name, _ in rows))


def c_cases(texts):
    return ''.join(f'    case {number}: return "{text}";\n' for number, text in enumerate(texts, 1))


def python_row(reason, words):
    """A row of the table in Python, in as many lines as it needs."""
    row = f'    ("{reason}", "{words}"),\n'
    if len(row) <= PYTHON_LINE + 1:
        return row
    first, *more = textwrap.wrap(words, PYTHON_LINE - 16, drop_whitespace=False)
    parts = ''.join(f'        "{part}"\n' for part in more)
    return f'    (\n        "{reason}",\n        "{first}"\n{parts[:-1]},\n    ),\n'


def python_table(name, rows):
    return f'{name} = (\n' + ''.join(python_row(reason, words) for reason, words in rows) + ')\n'


def javascript(rows):
    return ''.join(f'    {name}: "{words}",\n' for name, words in rows)


def javascript_type(rows):
    """The names as a type of TypeScript."""
    line, lines = '   ', []
    for name, _ in rows:
        if len(line) + len(name) + 5 > LINE:
            lines.append(line)
            line = '   '
        line += f' | "{name}"'
    return '\n'.join([*lines, line]) + '\n'


def wanted():
    """Each file that has the tables of reasons, with the text that it ought to have."""
    rows, of_blocks = reasons('reasons', 'byte'), reasons('block_reasons', 'block')
    path = 'install.d/fit.1'
    page = ''.join(f'.TP\n.B {name}\n{words}\n' for name, words in rows)
    yield path, put(read(path), 'The reason says of it that it\n', page, '.SH EXAMPLES')
    path = 'docs/USE.md'
    yield path, put(read(path), '| Reason | The byte |\n|---|---|\n', ''.join(f'| `{name}` | {words} |\n' for name, words in rows), '\n**What users send')
    yield 'python/gazhdor/_reasons.py', PYTHON_REASONS + python_table('REASONS', rows) + '\n' + python_table('BLOCK_REASONS', of_blocks)
    yield 'c/gazhdor_reasons.h', filled(C_REASONS, bytes=c_cases(f'the byte {words}' for _, words in rows), names=c_cases(name for name, _ in of_blocks),
                                        blocks=c_cases(f'the block {words}' for _, words in of_blocks))
    yield 'rust/src/reason.rs', rust_reasons('Why a byte is refused.', 'Reason', 'REASONS', 'byte', 'is neither 0 nor 1', rows)
    yield 'rust/src/block_reason.rs', rust_reasons("Why a block can't stand where it is.", 'BlockReason', 'BLOCK_REASONS', 'block',
                                                   'has a time offset of 32 to 254', of_blocks)
    path = 'js/src/answers.mjs'
    text = put(read(path), 'export const REASONS = {\n', javascript(rows), '}\n')
    yield path, put(text, 'export const BLOCK_REASONS = {\n', javascript(of_blocks), '}\n')
    path = 'js/gazhdor.d.ts'
    text = put(read(path), 'export type Reason =\n', javascript_type(rows), '\nexport type BlockReason')
    yield path, put(text, 'export type BlockReason =\n', javascript_type(of_blocks), '\n/** What a call found.')
