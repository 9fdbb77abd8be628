#!/usr/bin/env python3
"""Counts the places that docs/DESIGN-PASS.md speaks of, in the sources as they stand or at a commit.

    python3 tools/places.py [COMMIT] [--list]

One line for each count and crate; with --list, one for each place. What a count can't tell (whether an enum has Option's shape, whether two
bodies of one form are twins) is read off the list.
"""
import io
import re
import signal
import subprocess
import sys
import tarfile
from collections import defaultdict
from pathlib import Path

ROOT = Path(__file__).resolve().parent.parent
BY_HAND = re.compile(r'\bfn (is_below|is_equal|is_at_most|compare\w*|\w*less\w*|same\w*|wide|\w+_numbers|numbers_of|verdict_of|limit|with_\w+|'
                     r'copy|two_bytes_of|bytes_of|larger|smaller|gcd)\b')
WORDS = {'fn', 'let', 'mut', 'if', 'else', 'while', 'for', 'in', 'return', 'match', 'as', 'self', 'true', 'false', 'loop', 'break'}


def sources(commit):
    """crate -> [(path, text)] of src/."""
    found = defaultdict(list)
    if commit is None:
        for path in sorted(ROOT.glob('crates/*/src/**/*.rt')):
            found[path.relative_to(ROOT).parts[1]].append((str(path.relative_to(ROOT)), path.read_text()))
        return found
    packed = subprocess.run(['git', '-C', str(ROOT), 'archive', commit, 'crates'], check=True, capture_output=True).stdout
    with tarfile.open(fileobj=io.BytesIO(packed)) as tar:
        for member in sorted(tar.getmembers(), key=lambda m: m.name):
            parts = member.name.split('/')
            if member.isfile() and len(parts) > 3 and parts[2] == 'src' and member.name.endswith('.rt'):
                found[parts[1]].append((member.name, tar.extractfile(member).read().decode()))
    return found


def bare(text):
    return re.sub(r'//[^\n]*', '', text)


def functions(text):
    """(name, parameters, requires clauses, body) of each function."""
    for m in re.finditer(r'\bfn (\w+)(?:<[^>]*>)?\(', text):
        depth, i = 1, m.end()
        while depth:
            depth += {'(': 1, ')': -1}.get(text[i], 0)
            i += 1
        parameters = [p.strip() for p in re.split(r',(?![^(\[<]*[)\]>])', text[m.end():i - 1]) if p.strip()]
        requires, at = [], i
        while True:
            clause = re.compile(r'[^{};]*?\b(requires|ensures)(?: \w+)? \{').match(text, at)
            if not clause:
                break
            depth, j = 1, clause.end()
            while depth:
                depth += {'{': 1, '}': -1}.get(text[j], 0)
                j += 1
            if clause.group(1) == 'requires':
                requires.append(text[clause.end():j - 1].strip())
            at = j
        opening = text.find('{', at)
        if opening < 0 or ';' in text[at:opening]:
            continue
        depth, j = 1, opening + 1
        while depth:
            depth += {'{': 1, '}': -1}.get(text[j], 0)
            j += 1
        yield m.group(1), parameters, requires, text[opening + 1:j - 1]


def shape(body):
    """A body with each name and number as a blank, so that twins have one shape."""
    names = {}
    out = []
    for token in re.findall(r'\w+|[^\w\s]', body):
        if token in WORDS or not re.match(r'\w', token):
            out.append(token)
        else:
            out.append('#' if token[0].isdigit() else f'${names.setdefault(token, len(names))}')
    return ' '.join(out)


def blank(text, names):
    """A text with each of the names as a blank, by its place in the text, and what is read of it (`now`, `old`, `entry`) left out."""
    seen = {}
    return re.sub(r'(?<![\w.])(\w+)(?:\.(?:now|old|entry)\b)*',
                  lambda m: f'${seen.setdefault(m.group(1), len(seen))}' if m.group(1) in names else m.group(0), text)


def short_shape(body, names):
    """A short body with its parameters, numbers and constants as blanks, so that readers of one kind have one shape."""
    numbered = re.sub(r'(?<!\w)(?:\d\w*|[A-Z][A-Z0-9_]+)(?!\w)', '#', body)
    return ' '.join(re.findall(r'[\w$]+|[^\w\s]', blank(numbered, names)))


def named(parameters):
    """The names of parameters, `self` among them."""
    return {re.sub(r'^(?:mut|&mut|&) ?', '', p.split(':')[0].strip()) for p in parameters}


def facts(clause):
    depth, start = 0, 0
    for i, c in enumerate(clause):
        depth += {'(': 1, ')': -1}.get(c, 0)
        if c == '×' and depth == 0:
            yield clause[start:i].strip()
            start = i + 1
    yield clause[start:].strip()


def places(crate, files):
    """(count, place) of one crate."""
    shapes, short, asked, travelling = defaultdict(list), defaultdict(list), defaultdict(set), defaultdict(set)
    for path, text in files:
        plain = bare(text)
        for m in re.finditer(r'\benum (\w+)', plain):
            yield '1 enums', f'{path}: {m.group(1)}'
        for m in re.finditer(r'\b(\w+): bool\b', plain):
            yield '1 flags (fields and parameters)', f'{path}: {m.group(1)}'
        for m in re.finditer(r'\bRefused\(\w+\)|return [1-9]\d*;|fn (?:refusal|make_empty|tell\w*)\([^)]*\) -> u32', plain):
            yield '1 numbers of refusals', f'{path}: {" ".join(m.group(0).split())}'
        for m in re.finditer(r'\bkind: u8|parent: i32|-1\b', plain):
            yield '1 numbers for kinds and none', f'{path}: {m.group(0)}'
        for m in re.finditer(r'\.(?:unwrap_or|unwrap_or_default|map_or)\([^,()]*', plain):
            yield '1 values for none', f'{path}: {" ".join(m.group(0).split())}'
        for m in re.finditer(r'\bloop \{', plain):
            yield '3 loops with no end in their head', f'{path}: loop'
        for m in re.finditer(r'\bwhile ([^{]*)\{', plain):
            yield '3 while loops', f'{path}: while {" ".join(m.group(1).split())}'
        for m in re.finditer(BY_HAND, plain):
            yield '4 order, equality, copying, conversion, printing by hand', f'{path}: {m.group(1)}'
        for m in re.finditer(r'\bas (usize|u8|u32|u64|i32|i64)\b', plain):
            yield '4 casts', f'{path}: {m.group(0)}'
        for m in re.finditer(r'(\w+): (?:&mut )?\[\w+; (\w+)\]', plain):
            yield '6 arrays as fields and parameters', f'{path}: {m.group(0)}'
        for m in re.finditer(r'\bmatch ([^{]*)\{', plain):
            yield '7 matches', f'{path}: match {m.group(1).strip()}'
        for name, parameters, requires, body in functions(plain):
            size = len(re.findall(r'\w+|[^\w\s]', body))
            if size >= 12:
                shapes[shape(body)].append(f'{path}: {name}')
            elif size >= 4:
                short[short_shape(body, named(parameters))].append(f'{path}: {name}')
            counts = [p for p in parameters if re.match(r'(?:pairs|count|size|stride|n|length|len): usize$', p)]
            slices = [p for p in parameters if re.match(r'\w+: (?:&(?:\'\w+ )?(?:mut )?)?\[', p)]
            if counts and slices:
                yield '6 slices with a count beside them', f'{path}: {name}({", ".join(slices + counts)})'
            for clause in requires:
                for fact in facts(clause):
                    asked[re.sub(r'^\((.*)\)$', r'\1', fact)].add(f'{path}: {name}')
            kept = [p for p in parameters if ':' in p]
            for i, a in enumerate(kept):
                for b in kept[i + 1:]:
                    travelling[(a, b)].add(f'{path}: {name}')
    for group in shapes.values():
        if len(group) > 1:
            yield '2 functions of one shape', ' = '.join(group)
    for group in short.values():
        if len(group) > 1:
            yield '2 short functions of one shape', ' = '.join(group)
    for fact, group in asked.items():
        if len(group) > 2:
            yield '5 facts in three and more contracts', f'{crate}: {fact} ({len(group)})'
    for pair, group in travelling.items():
        if len(group) > 2:
            yield '5 parameters in pairs, three and more', f'{crate}: {pair[0]}, {pair[1]} ({len(group)})'


def shared(crates):
    """(count, crate, place) of each fact that three or more functions of two or more crates ask, with their parameters as blanks."""
    asked = defaultdict(set)
    for crate, files in crates.items():
        for path, text in files:
            for name, parameters, requires, _ in functions(bare(text)):
                for clause in requires:
                    for fact in facts(clause):
                        asked[re.sub(r'^\((.*)\)$', r'\1', blank(fact, named(parameters)))].add((crate, name))
    for fact, group in asked.items():
        crates_of = sorted({crate for crate, _ in group})
        if len(group) > 2 and len(crates_of) > 1:
            yield '5 facts asked across crates', ' + '.join(crates_of), f'{fact} ({len(group)})'


def main(arguments):
    listed = '--list' in arguments
    commits = [a for a in arguments if not a.startswith('-')]
    found = defaultdict(lambda: defaultdict(list))
    crates = sources(commits[0] if commits else None)
    for crate, files in crates.items():
        for count, place in places(crate, files):
            found[count][crate].append(place)
    for count, crate, place in shared(crates):
        found[count][crate].append(place)
    for count in sorted(found):
        crates = found[count]
        print(f'{count}: {sum(map(len, crates.values()))} ({", ".join(f"{c} {len(p)}" for c, p in sorted(crates.items()))})')
        if listed:
            for crate in sorted(crates):
                for place in crates[crate]:
                    print(f'    {place}')


# whoever reads the list may stop before its end
signal.signal(signal.SIGPIPE, signal.SIG_DFL)
main(sys.argv[1:])
