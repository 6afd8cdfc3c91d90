#!/usr/bin/env python3
"""Lists the places of src/ that docs/DESIGN-PASS.md counts, by their point.

    tools/forms.py [FOLDER]        how many of each kind
    tools/forms.py [FOLDER] KIND   where they are
"""
import glob
import re
import sys

folder, kind = '.', None
for word in sys.argv[1:]:
    if re.fullmatch(r'\d[a-z]', word):
        kind = word
    else:
        folder = word

LINES = {
    '1a': ('own enums', r'^\s*(pub )?enum \w+'),
    '1b': ('flags in structs', r'^\s*(pub )?\w+: bool,'),
    '1c': ('answers taken apart by hand to be handed on', r'let Verdict::Passed|if let Verdict::Refused|=> \w+Answer::Refused'),
    '1d': ('refusals and kinds as numbers', r'fn number\(|fn value\(char: u8\) -> u8|if kind == |\[0u8; 4096\]'),
    '2a': ('fills, one for a type', r'fn (clear|clear_labels|fill_bytes)\('),
    '2b': ('the lengths of slices, one function a call', r'fn check_(\w+_)?lengths\('),
    '2c': ('an answer as a count or a refusal for C, one a call', r'fn (of_\w+|no_count|no_distance)\('),
    '2d': ('an answer printed, one a call', r'fn (tell|room|tell_\w+)\(rt'),
    '2e': ('a run of bytes or of numbers written', r'fn write_(bytes|numbers)\('),
    '3a': ('loops by while', r'^\s*while '),
    '4a': ('calls of a function that only casts', r'\b(wide|long|byte)\(\w'),
    '4b': ('bytes of a number taken by division', r'% 256\) as u8|256 \* '),
    '4c': ('the larger of two by hand', r'\blarger\('),
    '4d': ('text printed as bytes', r'write_all\(b"'),
    '6a': ('a buffer and a place or a length as two parameters or fields', r'out: &mut \[u8\]|out: &mut \[u8; \d+\]|buf: &mut \[u8\]|pub nodes: \[u32; 32\]|let mut room = '),
    '6b': ('a sorted list searched by hand', r'while low < high'),
}


def functions():
    for path in sorted(glob.glob(folder + '/crates/*/src/*.rt')):
        text = open(path).read()
        for found in re.finditer(r'^ *(?:pub )?(?:extern "C" )?fn (\w+)(?:<[^>]*>)?\(([^)]*(?:\([^)]*\)[^)]*)*)\)', text, re.M):
            yield path, found.group(1), re.findall(r'(\w+)\s*:', found.group(2))


def places():
    for path in sorted(glob.glob(folder + '/crates/*/src/*.rt')):
        for at, line in enumerate(open(path), 1):
            if line.lstrip().startswith('//'):
                continue
            for name, (_, pattern) in LINES.items():
                if re.search(pattern, line):
                    yield name, f'{path[len(folder) + 1:]}:{at}: {line.strip()}'
    for path, name, parameters in functions():
        if {'starts', 'heads'} <= set(parameters):
            yield '5a', f'{path[len(folder) + 1:]}: {name}'
        if len(parameters) > 7:
            yield '5b', f'{path[len(folder) + 1:]}: {name}, {len(parameters)}'


said = {name: what for name, (what, _) in LINES.items()}
said['5a'] = 'functions that take a graph slice by slice'
said['5b'] = 'functions of more than seven parameters'
found = list(places())
if kind:
    print('\n'.join(line for name, line in found if name == kind))
else:
    for name in sorted(said):
        print(f'{name}  {sum(1 for n, _ in found if n == name):4}  {said[name]}')
