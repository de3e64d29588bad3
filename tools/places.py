#!/usr/bin/env python3
"""Lists places in crates/*/src (and proofs/) that an older style of writing leaves, a section for each kind.

    python3 tools/places.py          counts
    python3 tools/places.py --list   counts, and every place

It finds by form alone: a place that it lists may be right as it stands.
"""
import glob, re, sys
from collections import defaultdict

LIST = '--list' in sys.argv
SOURCES = sorted(glob.glob('crates/*/src/**/*.rt', recursive=True))

def text_of(path):
    return open(path, encoding='utf-8').read()

def line_at(text, at):
    return text.count('\n', 0, at) + 1

def end_of_block(text, at):
    """The place behind the brace that closes the one at `at`."""
    depth, i, quote = 0, at, None
    while i < len(text):
        c = text[i]
        if quote:
            if c == '\\':
                i += 1
            elif c == quote:
                quote = None
        elif c == '"':
            quote = c
        elif text[i:i + 3] in ("'{'", "'}'", "'\"'"):
            i += 2
        elif text[i:i + 2] == '//':
            i = text.find('\n', i)
            continue
        elif c == '{':
            depth += 1
        elif c == '}':
            depth -= 1
            if depth == 0:
                return i + 1
        i += 1
    return len(text)

class Fn:
    def __init__(self, path, line, name, head, clauses, body):
        self.path, self.line, self.name = path, line, name
        self.head, self.clauses, self.body = head, clauses, body

def functions():
    """Each function with its head, the text of its clauses and its body."""
    out = []
    for path in SOURCES:
        text = text_of(path)
        for m in re.finditer(r'^ *(?:pub(?:\(\w+\))? )?(?:final )?fn (\w+)', text, re.M):
            i = m.end()
            head_end = re.compile(r'\n *(?:requires|ensures)\b|\{|;').search(text, i)
            head = text[m.start():head_end.start()]
            i, clauses = head_end.start(), []
            while True:
                c = re.compile(r'\s*(requires|ensures)\b[^{]*').match(text, i)
                if not c:
                    break
                end = end_of_block(text, text.index('{', c.start()))
                clauses.append(' '.join(text[c.start():end].split()))
                i = end
            body = ''
            b = re.compile(r'\s*\{').match(text, i)
            if b:
                start = text.index('{', i)
                body = text[start:end_of_block(text, start)]
            out.append(Fn(path, line_at(text, m.start()), m.group(1), head, clauses, body))
    return out

FNS = functions()

def show(title, places):
    print(f'{len(places):4}  {title}')
    if LIST:
        for p in places:
            print(f'        {p}')

def at(fn):
    return f'{fn.path}:{fn.line} {fn.name}'

def enums():
    for path in SOURCES:
        text = text_of(path)
        for m in re.finditer(r'^ *(?:pub(?:\(\w+\))? )?(enum|struct) (\w+)[^{;(]*\{', text, re.M):
            yield path, line_at(text, m.start()), m.group(1), m.group(2), text[m.end() - 1:end_of_block(text, m.end() - 1)]

def result_shapes():
    good = r'^ *(Done|Taken|Removed|Told|Opened|Open|Held|At|Found|Some|Ok)\b'
    return [f'{p}:{l} {n}' for p, l, kind, n, body in enums() if kind == 'enum' and re.search(good, body, re.M)]

def flags():
    out = []
    for f in FNS:
        result = f.head.split('->')[-1] if '->' in f.head else ''
        params = f.head.split('->')[0]
        if result.strip() == 'bool' and '&mut' in params:
            out.append(f'{at(f)}: a flag that says whether it was done')
        if re.search(r', bool\)|\(bool,|, Option<usize>\)', result):
            out.append(f'{at(f)}: a flag beside a value')
        if re.search(r'\b\w+: bool\b', params):
            out.append(f'{at(f)}: a flag as a parameter')
    for p, l, kind, n, body in enums():
        if kind == 'struct' and re.search(r': bool\b', body):
            out.append(f'{p}:{l} {n}: a flag beside values')
    return out

def number_codes():
    out = []
    for f in FNS:
        arms = re.findall(r'=> ([^\n{]+?),?\n', f.body)
        if arms and all(re.fullmatch(r'0x[0-9A-Fa-f_]+|\d[\d_]*', a) for a in arms):
            out.append(f'{at(f)}: {len(arms)} cases to numbers by hand')
        if re.search(r'-> u8$', f.head.strip()) and f.body.strip('{} \n') == '0':
            out.append(f'{at(f)}: a number that means nothing')
    return out

def shape_of(text):
    text = re.sub(r'//[^\n]*', '', text)
    text = re.sub(r'"(?:[^"\\]|\\.)*"', '"_"', text)
    text = re.sub(r"'(?:[^'\\]|\\.)'", "'_'", text)
    text = re.sub(r'\b(?:0x)?[0-9][0-9A-Fa-f_]*(?:u8|u16|u32|u64|usize)?\b', '0', text)
    words = {}
    keep = {'let', 'mut', 'match', 'if', 'else', 'for', 'in', 'while', 'loop', 'return', 'self', 'Some', 'None', 'Ok', 'Err', 'true', 'false', 'as'}
    def name(m):
        w = m.group(0)
        return w if w in keep else words.setdefault(w, f'w{len(words)}')
    return ' '.join(re.sub(r'\b[A-Za-z_]\w*\b', name, text).split())

def twins():
    groups = defaultdict(list)
    for f in FNS:
        if len(f.body) > 60:
            groups[shape_of(f.body)].append(f)
    return [' = '.join(at(f) for f in g) for g in groups.values() if len(g) > 1]

def loops():
    out = []
    for path in SOURCES:
        for i, line in enumerate(text_of(path).splitlines(), 1):
            if re.match(r' *(while |loop\b|for \S+ in .*\.\.)', line):
                out.append(f'{path}:{i} {line.strip()}')
    return out

def counters():
    out = []
    for f in FNS:
        if re.search(r'\b(for|while|loop)\b', f.body) and re.search(r'(\w+) \+= \d|(\w+) = \2\.saturating_add', f.body):
            out.append(at(f))
    return out

def by_hand():
    out = []
    for f in FNS:
        body = f.body.strip('{} \n')
        arms = re.findall(r'=>\s*\{?\s*([^\n]+?),?\n', f.body)
        if body.startswith('match') and arms and all(re.match(r"[\"']|&\[", a) for a in arms):
            out.append(f'{at(f)}: printing')
        elif re.search(r'\*\w+ as u8\)? [<>=]', f.body):
            out.append(f'{at(f)}: order')
        elif re.match(r'match \w+ \{\s*"', body):
            out.append(f'{at(f)}: reading a word')
        elif re.search(r'_words\(|fn \w+_words', f.head):
            out.append(f'{at(f)}: printing')
        elif re.search(r'256 %|/ 256|\* 256|65536', f.body):
            out.append(f'{at(f)}: bytes of a number')
    return out

def facts():
    groups = defaultdict(list)
    for f in FNS:
        for c in f.clauses:
            if c.startswith('requires'):
                groups[re.sub(r'^requires( \w+)? ', '', c)].append(f)
    return [f'{len(g)} x {c}: ' + ', '.join(at(f) for f in g) for c, g in groups.items() if len(g) > 2]

def travellers():
    groups = defaultdict(set)
    for f in FNS:
        params = re.findall(r'\b(\w+): ([^,()]+(?:\([^)]*\))?)', f.head.split('->')[0])
        names = [n for n, t in params if n not in ('heap', 'rt')]
        for i in range(len(names)):
            for j in range(i + 1, len(names)):
                groups[(names[i], names[j])].add(f)
    return [f'{len(g)} x {" and ".join(k)}: ' + ', '.join(sorted(at(f) for f in g)) for k, g in groups.items() if len(g) > 3]

def buffers():
    out = []
    for p, l, kind, n, body in enums():
        if kind == 'struct' and re.search(r': \[\w+; ', body) and re.search(r': (usize|Option<u32>)', body):
            out.append(f'{p}:{l} {n}: a buffer with a length or a mark beside it')
        if kind == 'struct' and re.search(r': Option<usize>|: usize', body) and 'image' in body:
            out.append(f'{p}:{l} {n}: an index for a value')
    for f in FNS:
        if re.search(r'\(Vec<[^()]*>, Vec<', f.head):
            out.append(f'{at(f)}: lists side by side')
        if re.search(r'-> .*(Vec<usize>|Vec<Option<usize>>|Result<usize, Stop>|Option<usize>)', f.head):
            out.append(f'{at(f)}: indices')
        if re.search(r'for \S+ in [^{]*\{\s*(?:let [^;]*;\s*)?if [^{]*\{\s*return', f.body):
            out.append(f'{at(f)}: a list searched by hand')
    return out

def switches():
    out = []
    for f in FNS:
        if re.search(r'match command\b|match \w+\(words, 0\)', f.body):
            out.append(f'{at(f)}: a switch on the name of a command')
    for path in SOURCES:
        text = text_of(path)
        for m in re.finditer(r'^impl Wanted', text, re.M):
            out.append(f'{path}:{line_at(text, m.start())} a type for one test')
    return out

def named(files, pattern):
    """What the pattern names in each file."""
    return [f'{path} {m.group(1)}'
            for path in sorted(glob.glob(files, recursive=True))
            for m in re.finditer(pattern, text_of(path), re.M)]

def answers():
    return named('crates/*/proofs/**/Answers.antt', r'^(?:pub )?([\w.-]+) : goal\.')

def lemmas():
    return named('crates/*/proofs/*.antt', r'^ *(?:pub )?([\w.-]+) : ')

print('1. Own shapes of Option and Result, flags, numbers')
show('own enums with a case of success', result_shapes())
show('flags', flags())
show('numbers by hand', number_codes())
print('2. Twins')
show('groups of functions of one shape', twins())
print('3. Loops')
show('while, loop, and for over a range', loops())
show('loops with a counter by hand', counters())
print('4. Conversion, order and printing by hand')
show('functions', by_hand())
print('5. Facts and parameters that repeat')
show('requirements of three or more functions', facts())
show('pairs of parameters of four or more functions', travellers())
print('6. Buffers, lists, indices')
show('places', buffers())
print('7. Switches and types for a step')
show('places', switches())
print('8. Proofs')
show('answers', answers())
show('lemmas', lemmas())
