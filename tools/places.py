#!/usr/bin/env python3
"""The places that docs/DESIGN-PASS.md counts, found by pattern in crates/*/src.

    python3 tools/places.py             the count of each kind
    python3 tools/places.py -l [KIND]   their lines too
    git worktree add /tmp/old COMMIT && python3 tools/places.py --at /tmp/old

A pattern finds what may be a place of its kind; the page says what was done with each.
"""
import collections
import pathlib
import re
import sys

# kind: what it is, and what finds its places in all files
KINDS = {}


def kind(name, what, pattern):
    rx = re.compile(pattern, re.M | re.S)

    def by_pattern(files):
        for path, text in files.items():
            for m in rx.finditer(text):
                at = m.start() + len(m.group(0)) - len(m.group(0).lstrip())
                line = text.count('\n', 0, at) + 1
                yield path, line, text.split('\n')[line - 1].strip()
    KINDS[name] = (what, by_pattern)


# 1. enums of the shape of Option or Result, flags with values, numbers for kinds
kind('1a', 'a fault handed on by hand: a match with an arm Err(..) => return Err(..) or Err(..) => Err(..)',
     r'^[ \t]*Err\((?:[^()]|\([^()]*\))*\)\s*=>\s*(?:return\s+)?Err\(')
kind('1b', 'let .. else that only returns None, or one Err', r'let (?:Some|Ok)\([^)]*\) = [^;{]*\belse \{\s*return (?:None|Err\([^;]*\));\s*\}')
kind('1c', 'a fault inside an Option', r'-> Option<\w*Fault>')
kind('1d', 'if let Some(fault), or if let Err(fault), that returns it', r'if let (?:Some|Err)\(fault\) = [^{]*\{\s*return Err\(')
kind('1e', 'a pair as the error of a Result', r'(?:-> )?Result<[^;{}]*?,\s*\(\w+, [\w<>]+\)>')
kind('1f', 'a pair of numbers, or a pair of such pairs, as a type', r'\(usize, usize\)')
kind('1g', 'a tuple of a flag, an Option or a cost with values beside it', r'-> (?:anyhow::Result<)?\((?:bool|Option)\b')
kind('1h', 'a flag that says what the field beside it holds', r'pub bulk: bool')
kind('1i', 'a number for a kind: the layer of a report', r'(?:pub layer: usize|const LAYER: usize)')
kind('1j', 'a value that stands for none', r'fn byte_at\([^{]*\{')


# 2. twins
def named(name, what, pattern):
    """Names that the pattern finds at the head of a line in two files or more."""
    rx = re.compile(pattern, re.M)

    def by_name(files):
        where = collections.defaultdict(list)
        for path, text in files.items():
            for m in rx.finditer(text):
                where[m.group(1)].append((path, text.count('\n', 0, m.start()) + 1, m.group(0).strip()))
        for _, places in sorted(where.items()):
            if len({path for path, _, _ in places}) > 1:
                yield from places
    KINDS[name] = (what, by_name)


VISIBLE = r'^(?:pub(?:\(crate\))? )?'
named('2a', 'free functions whose name stands in two files or more', VISIBLE + r'(?:const )?fn ((?!main\b)\w+)')
named('2b', 'constants whose name stands in two files or more', VISIBLE + r'const (\w+):')
named('2c', 'types whose name stands in two files or more', VISIBLE + r'(?:struct|enum) (\w+)')

kind('2d', 'two loops, or two functions of a page, that differ in what they call', r'fn (?:keep|preset)_pages?\b')
kind('2e', 'a status byte looked at by a mask or a remainder', r'(?:status|byte) (?:& (?:BLOCK_PROTECT|TB|BP3)|% 4)|status < SRWD')
kind('2f', 'the test of a poll limit', r'limit == 0 \|\| limit > MOST_POLLS')
kind('2g', 'the test that a frame is short enough', r'(?:back\.len\(\)|n) > (?:LONGEST|longest|into\.len\(\)) - ')
kind('2h', 'the sector of an address', r'address / PAGE_BYTES / ')

# 3. loops that count an index
kind('3a', 'for over a range of numbers', r'^[ \t]*for \w+ in \(?[\w.]+(?: \+ \d+)?\.\.')
kind('3b', 'while, while let and loop', r'^[ \t]*(?:while\b[^\n]*|loop )\{')
kind('3c', 'for that only looks for an item, or counts',
     r'^[ \t]*for [^\n]* in [^\n]*\{\n\s*if [^\n{]*\{\s*(?:return [^;]*;|\w+ = \w+\.saturating_add\(1\);)\s*\}\s*\}')

# 4. equality, order, conversion and printing by hand
kind('4a', 'a conversion between enums, or of a result into an answer',
     r'fn (?:making|unplanned|unrun|operation_of|part_answer|write_answer|report)\(')
kind('4b', 'a lookup by a code or a word', r'fn find\(')
kind('4c', 'the text of an enum, not by Display', r"-> &'static str")
kind('4d', 'an order or an equality', r'fn (?:at_most|alike)\(')
kind('4e', 'digits read or written by hand', r'fn (?:digit|glyph|show_pair|are_digits)\(')

# 5. facts and parameters that travel together
kind('5a', 'a ghost field on the range of sectors and pages, or on a status byte', r'ghost (?:some|few|paged|low|small|steady|byte): ')
kind('5b', 'sectors and pages as two parameters or fields', r'sectors: usize,\s*(?://[^\n]*\s*)?(?:pub )?pages: usize')
kind('5c', 'steps and data as two lent buffers', r"steps: &(?:'\w+ )?(?:mut )?\[Step\],\s*data: &(?:'\w+ )?(?:mut )?\[u8\]")
kind('5d', 'a buffer, or two, and the place reached in them',
     r'(?:into: &mut \[u8\], at: usize|fn \w+(?:<[^>]*>)?\([^)]*\b(?:at|start): \(usize, usize\))')
kind('5e', 'requires of a fact on the write and the part', r'requires (?:\w+ )?\{ Fitting')
kind('5f', 'requires on the places reached', r'requires \w+ \{ \(?\(?(?:at|start)\.0 ≤ length steps')
kind('5g', 'requires on the length of a write', r'requires \{[^}]*write\.address \+ length write\.bytes\.now')

# 6. buffers with a length beside them, tables searched by hand
kind('6a', 'a fixed buffer and how much of it is used', r'&(?:mut )?(?:frame|room|bytes)\[0\.\.(?:n|count)\]')
kind('6b', 'a table or marks by index', r'(?:\bTABLE\[|erased\[k\]|marks\[place\]|closed\[sector\])')
kind('6c', 'a table gone over by hand', r'for \w+ in (?:TABLE|MODELS)')

# 7. switches on which step
kind('7a', 'a number that says which', r'match number \{')


def main():
    args = sys.argv[1:]
    root = pathlib.Path(__file__).resolve().parent.parent
    if '--at' in args:
        i = args.index('--at')
        root = pathlib.Path(args[i + 1])
        del args[i:i + 2]
    show = '-l' in args
    only = [a for a in args if a != '-l']
    files = {str(p.relative_to(root)): p.read_text() for p in sorted(root.glob('crates/*/src/*.rt'))}
    for name, (what, find) in KINDS.items():
        if only and name not in only:
            continue
        places = list(find(files))
        print(f'{name}  {len(places):3d}  {what}')
        if show:
            for path, line, text in places:
                print(f'          {path}:{line}: {text[:110]}')


main()
