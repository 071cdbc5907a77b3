#!/usr/bin/env python3
# The places of docs/DESIGN-PASS.md, counted in crates/*/src: `tools/places.py [-v] [ROOT]` prints a count for each kind of place, with -v the places too.
import collections, glob, itertools, re, sys

verbose = '-v' in sys.argv
roots = [a for a in sys.argv[1:] if a != '-v']
root = roots[0] if roots else '.'

texts = {f[len(root):].lstrip('/'): open(f).read() for f in sorted(glob.glob(root + '/crates/*/src/*.rt'))}
code = {f: re.sub(r'//[^\n]*', '', s) for f, s in texts.items()}


def show(name, places):
    print(f'{len(places):4}  {name}')
    if verbose:
        for p in places:
            print('        ' + p)


def lines(pattern, of=code):
    found = []
    for f, s in of.items():
        for n, line in enumerate(s.split('\n'), 1):
            if re.search(pattern, line):
                found.append(f'{f}:{n}: {line.strip()[:100]}')
    return found


def functions(s):
    # name, parameters, contract, body
    for m in re.finditer(r'\bfn (\w+)\s*(?:<[^>]*>)?\(', s):
        i, depth = m.end(), 1
        while depth:
            depth += {'(': 1, ')': -1}.get(s[i], 0)
            i += 1
        parameters = s[m.end():i - 1]
        opening = re.compile(r'(^\s*|[^\n{}]*) ?\{\n', re.M)
        start = i
        while True:
            end = s.find('\n', start)
            line = s[start:end]
            if line.rstrip().endswith('{'):
                break
            start = end + 1
        contract = s[i:start]
        j, depth = end + 1, 1
        while depth:
            depth += {'{': 1, '}': -1}.get(s[j], 0)
            j += 1
        yield m.group(1), parameters, contract, s[end + 1:j - 1]


# ---- 1
enums = []
for f, s in code.items():
    for m in re.finditer(r'enum (\w+) \{(.*?)\n\}', s, re.S):
        variants = re.findall(r'^    (\w+)(\(.*\))?,', m.group(2), re.M)
        if any(v[1] for v in variants) and (any(v[0] in ('Refused', 'Fault', 'NoRoom', 'None') for v in variants)):
            enums.append(f'{f}: {m.group(1)}')
show('1  own enums of the shape of Option or Result', enums)
show('1  refusals by a number', lines(r'(fault_at|Refusal::new)\(\d+,'))
show('1  kinds by a number', lines(r'kind: u8|const (DEMAND|SUPPLY): u8'))
show('1  modes and operations by a number', lines(r'mode: usize|fn operation\(.*usize|match operation|2 => tell|5 => tell'))
show('1  a number or a value in place of none', lines(r'or k where there is none|`count` where there is none|or 513|where none does the position|In place of|^// where there is none|false where (there is none|the input ends)|Stands where|`NO_RESPONSE|What stands for a move|65,534 where there is none', texts))

# ---- 2
KEY = set('fn let mut if else while for in return match loop break true false as self Self pub crate const impl'.split())
groups = collections.defaultdict(list)
for f, s in code.items():
    for name, _, _, body in functions(s):
        tokens, names, out = re.findall(r'[A-Za-z_]\w*|\d\w*|[^\s\w]', body), {}, []
        for t in tokens:
            if t[0].isdigit():
                out.append('0')
            elif (t[0].isalpha() or t[0] == '_') and t not in KEY:
                out.append('v%d' % names.setdefault(t, len(names)))
            else:
                out.append(t)
        if len(tokens) > 8:
            groups[' '.join(out)].append(f'{f} {name}')
show('2  functions alike but for names, types and numbers', [', '.join(g) for g in groups.values() if len(g) > 1])

# ---- 3
show('3  `while` and `loop`', lines(r'^\s*(while|.*\bloop\b.*\{)'))
show('3  `for` over a count that indexes', lines(r'for \w+ in 0\.\.'))

# ---- 4
show('4  order, conversion, copying and printing by hand', lines(r'fn (rises_to|little_endian|word|mode_of|write_row|put_refused|put_mode_word|short|four|number|fill_bytes|clear)\b'))

# ---- 5
facts, pairs = collections.defaultdict(set), collections.defaultdict(set)
for f, s in code.items():
    for name, parameters, contract, _ in functions(s):
        for line in contract.split('\n'):
            if 'requires' in line or 'ensures memo' in line:
                inside = line[line.find('{') + 1:line.rfind('}')]
                for fact in re.findall(r'\b(?:TwoMachines|TwoDemands|InMemory|Memo|OneEach|RoundStarts|Whole)\b|579 ≤|513|≡ 2048|2 \^ 64|53 ≤|8192 ≤', inside):
                    facts[fact].add(f'{f} {name}')
        types = [p.strip() for p in re.split(r',(?![^<]*>)', parameters) if ':' in p]
        for a, b in itertools.combinations(types, 2):
            pairs[a + ', ' + b].add(f'{f} {name}')
show('5  facts in the contracts of three or more functions', [f'{k}: {len(v)}' for k, v in facts.items() if len(v) > 2])
show('5  two parameters that eight or more functions take together', [f'{k}: {len(v)}' for k, v in pairs.items() if len(v) > 7])

# ---- 6
show('6  machines as slices of numbers', lines(r'\w+: &(mut )?\[u32\]'))
show('6  a buffer with a count, a place or an end beside it', lines(r'(out: &mut \[u8\], at: usize|rows: &(mut )?\[u8\].*count: usize|found: &mut \[u16\]|&found\[\.\.count\]|Range\b.*\{$)'))

# ---- 7
show('7  a match on an operation or a mode that picks what runs', lines(r'match (operation|mode|wanted)\b'))
