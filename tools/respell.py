#!/usr/bin/env python3
"""respell: brings the repository's own definitions, fields and lemmas to today's spelling, after port.py: snake case, a dash only in a
lemma about a function of lists or sets, behind its name, no middle dot. Run once, from the repository's root; prints each name with its new spelling."""
import os
import re

DECLARED = re.compile(r'\s*(?:abbrev |unfoldable )?(?:pub )?(?:record |data )?(?:pub )?([^\s:(){}=]+)(?: \(.*\)| \{.*\})* :(?: |$)')
TOKEN = re.compile(r'[^\s(){}\[\].,;"`|]+')
# a lemma about one of these begins with its name and a dash
FUNCTIONS = set('all any cons_if flat_map get_or has insert_rows inside intersection keep_if larger length list_below map overwrite pairwise row_moves '
                'sum union write_at'.split())
# a lemma that would have its function's name
OTHER = {name: name.replace('-', '_') + '_lem' for name in (
    'body-checks body-length carried-out digit-of file-fault found-text join-moves join-rows pair-lines prunes-under run-steps state-lines state-rows '
    'survives-under table-moves turned-back all_lines digits_in kept_test').split()}


def snake(word):
    return re.sub(r'(?<=[a-z0-9])[A-Z]+', lambda m: '_' + m.group(0).lower(), word)


def sources(endings, folders='crates'):
    for folder, dirs, files in os.walk(folders):
        dirs[:] = sorted(d for d in dirs if d not in ('out', 'target', '.git'))
        for name in sorted(files):
            if name.endswith(endings):
                yield os.path.join(folder, name)


def names():
    """The declared names, those of lemmas apart."""
    specs, lemmas = set(), set()
    for path in sources(('.antt', '.rt')):
        text = open(path, encoding='utf-8').read()
        parts = path.split(os.sep)
        if not path.endswith('.antt') or len(parts) != 4:
            continue
        defining = False
        for line in text.split('\n'):
            m = DECLARED.match(line)
            if not m or line.strip().startswith(('--', 'use ', 'let ')):
                continue
            name = m.group(1)
            if parts[2] == 'specs' or re.match(r'\s*(abbrev|unfoldable|pub record|pub data|record|data)\b', line) or re.match(r'  pub [^\s:]+ :', line) and defining:
                specs.add(name)
            else:
                lemmas.add(name)
            if not line.startswith(' '):
                defining = bool(re.match(r'(pub )?(record|data) ', line))
    return specs, lemmas - specs


def main():
    specs, lemmas = names()
    renamed = {}
    for name in sorted(specs | lemmas):
        if not re.match(r'[A-Za-z]', name) or re.match(r'[A-Z][A-Za-z]*$', name):
            continue
        parts = [snake(p) if not re.match(r'[A-Z]', p) else p for p in name.replace('·', '_').split('-')]
        parts = ['get_or' if p == 'get_d' else p for p in parts]
        function = name in lemmas and parts[0] in FUNCTIONS or 'T' in parts
        new = parts[0] + ('-' if function and len(parts) > 1 else '') + '_'.join(parts[1:]) if function else '_'.join(parts)
        new = OTHER.get(name, new)
        if new != name:
            renamed[name] = new
    for path in sources(('.antt', '.rt', '.edit')):
        text = open(path, encoding='utf-8').read()
        turned = TOKEN.sub(lambda m: renamed.get(m.group(0), m.group(0)), text)
        if turned != text:
            open(path, 'w', encoding='utf-8').write(turned)
    for path in ['README.md'] + list(sources('.md', 'docs')) + list(sources('.md', 'tests')):
        text = open(path, encoding='utf-8').read()
        turned = re.sub('`[^`]+`', lambda quoted: TOKEN.sub(lambda m: renamed.get(m.group(0), m.group(0)), quoted.group(0)), text)
        if turned != text:
            open(path, 'w', encoding='utf-8').write(turned)
    for name in sorted(renamed):
        print(name, renamed[name])


if __name__ == '__main__':
    main()
