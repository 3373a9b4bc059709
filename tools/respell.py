#!/usr/bin/env python3
"""Brings the repository's own definitions and lemmas to today's spelling, once, after the kit's own port script.

usage: tools/respell.py ROOT

Words are in snake case, types in upper camel case. Names of src/ and of the library stay, and so do those that functions' own
proofs (Proof.antt) declare. Where two names would fall together, GIVEN says what each is called. Respelled are definitions, laws,
clauses and imports, the texts of must-fail edits that are on these, and names between backticks in comments, README.md and docs/*.md.
It also renames the file Contracts.antt of specs/ to Inner.antt and the crate hex to hex_text, whose old names the kit has.
"""
import os
import re
import sys

ROOT = sys.argv[1] if len(sys.argv) == 2 else sys.exit(__doc__)
SEPARATORS = r"\s(){}\[\];,.:«»\"λ⌜⌝`|"
TOKEN = re.compile('[^%s]+' % SEPARATORS)

# What would fall together with another name: kinds of records and reasons beside what they are of, laws beside their function.
GIVEN = {
    'SLOT': 'slot_kind', 'PRN': 'prn_kind', 'LAYOUT': 'layout_kind', 'SELECTOR': 'selector_kind',
    'NoPrn': 'no_prn_reason', 'PlaceLost': 'place_lost_reason', 'NoSlot': 'no_slot_reason', 'NotShown': 'not_shown_reason',
    'NoState': 'no_state_reason', 'TooWide': 'too_wide_reason', 'DataResponse': 'data_response_reason', 'NoLayout': 'no_layout_reason',
    'NumberRow': 'number_row_size', 'CodeRow': 'code_row_size', 'ByteRow': 'byte_row_size', 'BareRow': 'bare_row_size',
    'VerdictRow': 'verdict_row_kind', 'FrameRecord': 'frame_record_size', 'TickRecord': 'tick_record_size',
    'StoppedAt': 'stopped_place', 'CountAt': 'count_place', 'HeldAt': 'held_place', 'Letters': 'letter_count', 'Decimals': 'decimal_count',
    'DataGiven': 'data_given', 'data-given': 'data_given_lem',
}
LAWS = ('former-key former-size frame-size header-size key-is kinds-hold layout-key prn-fits prn-sized residue rows-most sae-prn '
        'sae-slot size-told sizes-answer slot-fits slot-sized state-bytes tables-hold unknown-kind usual-length verdict-clear '
        'verdict-flagged whole-frame whole-size bit-of kind-of in-float').split()
GIVEN.update((n, n.replace('-', '_') + '_lem') for n in LAWS)
# Laws that the kit's script has put in snake case, where their function comes to be called the same: file and name.
ALIKE = {'too_long': 'report/proofs/answer', 'group_lines': 'report/proofs/group', 'is_found': 'catalogue/proofs/search', 'residue': 'frame/proofs'}


def snake(name):
    return re.sub('([a-z0-9])([A-Z])', r'\1_\2', name).replace('-', '_').lower()


def walk(*under):
    for crate in sorted(os.listdir(os.path.join(ROOT, 'crates'))):
        for part in under:
            for folder, dirs, names in os.walk(os.path.join(ROOT, 'crates', crate, part)):
                dirs[:] = sorted(d for d in dirs if d != 'out')
                yield from (os.path.join(folder, n) for n in sorted(names))


def text(path):
    with open(path, encoding='utf-8') as f:
        return f.read()


def declared():
    """Each declared name with what it is: a type, or anything else."""
    found = {}
    for path in walk('specs', 'proofs'):
        if not path.endswith('.antt') or path.endswith('/Proof.antt'):
            continue
        lines = re.sub('--[^\n]*', '', text(path)).split('\n')
        for i, line in enumerate(lines):
            if re.match(r'\s*(use|open|pub mod|mod|module|unfolding|pub use)\s', line):
                continue
            m = re.match(r'\s*(?:pub )?(record|data)\s+([^%s]+)' % SEPARATORS, line)
            if m:
                found.setdefault(m.group(2), set()).add('type')
                continue
            m = re.match(r'( *)(?:abbrev |unfoldable |pub )*((?:[^%s]+ )*[^%s]+) :(?:\s|$)(.*)' % (SEPARATORS, SEPARATORS), line)
            if not m or m.group(2).split()[0] in ('let', 'in', 'elim', 'record') or {'=', '→'} & set(m.group(2).split()):
                continue
            told, at = m.group(3), i + 1
            while at < len(lines) and lines[at].startswith(m.group(1) + '  '):
                told, at = told + ' ' + lines[at].strip(), at + 1
            kind = 'type' if re.match(r'Type\b', told.split('→')[-1].strip()) else 'word'
            for name in m.group(2).split():
                found.setdefault(name, set()).add(kind)
    return found


def renames():
    names = {}
    for name, kinds in declared().items():
        if name in GIVEN:
            new = GIVEN[name]
        elif 'type' in kinds:
            new = name[0].upper() + name[1:]
        else:
            new = snake(name)
        if new != name:
            names[name] = new
    return names


NAMES = renames()
FUNCTIONS = {m for p in walk('src') if p.endswith('.rt') for m in re.findall(r'\bfn (\w+)', text(p))}


def respelled(part, path=''):
    """A part of antt in today's spelling; of comments only what stands between backticks."""
    comment = re.compile(r'((?:^|(?<=\s))--(?=\s)[^\n]*)', re.M)
    pieces = comment.split(part)
    for i, piece in enumerate(pieces):
        if i % 2 == 0:
            pieces[i] = words(piece, path)
        else:
            pieces[i] = re.sub('`[^`]*`', lambda m: words(m.group(0), path), piece)
    return ''.join(pieces)


def words(part, path):
    def one(m):
        name = m.group(0)
        step = part[m.start() - 1:m.start()] == '.' and not re.search(r'Rattle\.[\w.]*$', part[:m.start()])
        if path.endswith('/Proof.antt') and step and snake(name) in FUNCTIONS:
            return snake(name)
        if name in ALIKE and ALIKE[name] in path:
            return name + '_lem'
        return NAMES.get(name, name)
    part = re.sub(r'\b(Rattle\.\w+\.specs)\.Contracts\b', r'\1.Inner', part)
    part = re.sub(r'\bRattle\.hex\b', 'Rattle.hex_text', part)
    return TOKEN.sub(one, part)


def clauses(code):
    """The code with its imports and clauses respelled."""
    out, at = [], 0
    heads = re.compile(r'^ghost use [^;]*;|^\s*(?:requires|ensures)\*?(?: \w+)? \{', re.M)
    for m in heads.finditer(code):
        end = m.end()
        if code[end - 1] == '{':
            depth = 1
            while depth:
                depth += {'{': 1, '}': -1}.get(code[end], 0)
                end += 1
        out += [code[at:m.start()], respelled(code[m.start():end])]
        at = end
    return re.sub(r'\bhex::', 'hex_text::', ''.join(out) + code[at:])


def edits(lines):
    """A must-fail edit: its texts of definitions and of clauses."""
    out, spec = [], False
    for line in lines.split('\n'):
        if line.startswith('file:'):
            spec = line.endswith('.antt')
            line = line.replace('specs/Contracts.antt', 'specs/Inner.antt')
        elif re.match('(old|new):', line) and (spec or re.search(r'\b(ensures|requires|ghost use)\b', line)):
            line = line[:4] + respelled(line[4:])
        out.append(line)
    return '\n'.join(out)


def page(words):
    """A page: names between backticks, and the two names of files and crates."""
    names = {n: m for n, m in NAMES.items()}
    def quoted(m):
        return '`' + TOKEN.sub(lambda t: names.get(t.group(0), t.group(0)), m.group(1)) + '`'
    words = re.sub('`([^`\n]+)`', quoted, words)
    words = re.sub(r'\bContracts\.antt\b', 'Inner.antt', words)
    return words.replace('crates/hex ', 'crates/hex_text ').replace('crates/hex,', 'crates/hex_text,').replace('Rattle·', 'Rattle.')


def main():
    for path in list(walk('specs', 'proofs', 'src', 'must-fail')):
        turn = {'.antt': lambda t: respelled(t, path), '.rt': clauses, '.edit': edits}.get(os.path.splitext(path)[1])
        if turn:
            old = text(path)
            new = re.sub(r'^(pub mod|mod) Contracts$', r'\1 Inner', turn(old), flags=re.M) if path.endswith('specs/Lib.antt') else turn(old)
            if new != old:
                with open(path, 'w', encoding='utf-8') as f:
                    f.write(new)
        if path.endswith('specs/Contracts.antt'):
            os.rename(path, path.replace('Contracts', 'Inner'))
    pages = [os.path.join(ROOT, 'README.md')] + [os.path.join(ROOT, 'docs', n) for n in os.listdir(os.path.join(ROOT, 'docs')) if n.endswith('.md') and n != 'PORT.md']
    for path in pages:
        new = page(text(path))
        with open(path, 'w', encoding='utf-8') as f:
            f.write(new)
    listed = os.path.join(ROOT, 'crates.txt')
    new = re.sub(r'\bhex\b', 'hex_text', text(listed))
    with open(listed, 'w', encoding='utf-8') as f:
        f.write(new)
    if os.path.isdir(os.path.join(ROOT, 'crates/hex')):
        os.rename(os.path.join(ROOT, 'crates/hex'), os.path.join(ROOT, 'crates/hex_text'))


main()
