#!/usr/bin/env python3
"""make.py TESTS PEER: writes the jobs, the first lines of ../stdin, to standard output. TESTS is the folder tests/ of
regex 1.7.1, PEER the program of peer.rs. Standard error names what was left out, and counts the jobs, texts and matches
of each group. See README.md."""
import pathlib
import random
import re
import subprocess
import sys
import unicodedata

import model

TESTS, PEER = pathlib.Path(sys.argv[1]), sys.argv[2]
SUITE = 'crazy flags fowler multiline regression suffix_reverse word_boundary word_boundary_ascii unicode bytes set'


def peer(mode, lines):
    text = ''.join(line + '\n' for line in lines)
    done = subprocess.run([PEER, mode], input=text, capture_output=True, text=True, check=True)
    return done.stdout.splitlines()


# ---- literals of Rust ---------------------------------------------------------------------------------------------

PREFIX = r'\s*(?:b|bytes!\(b|)'
RAW, PLAIN = r'r(?P<hashes>#*)"(?P<raw>.*?)"(?P=hashes)', r'"(?P<plain>(?:[^"\\]|\\.)*)"'
LITERAL = re.compile('%s(?:%s|%s)\\)?' % (PREFIX, RAW, PLAIN), re.S)
ESCAPE = re.compile(r'\\\n\s*|\\u\{(?P<u>\w+)\}|\\x(?P<x>\w\w)|\\(?P<c>.)|(?P<other>[^\\]+)', re.S)


def literal(source, at):
    """the bytes of a literal of Rust, and where it ends; None if there is none"""
    found = LITERAL.match(source, at)
    if not found:
        return None, at
    if found['raw'] is not None:
        return found['raw'].encode(), found.end()
    simple = {'n': '\n', 't': '\t', 'r': '\r', '0': '\0'}
    out = b''
    for part in ESCAPE.finditer(found['plain']):
        if part['u']:
            out += chr(int(part['u'], 16)).encode()
        elif part['x']:
            out += bytes([int(part['x'], 16)])
        elif part['c']:
            out += simple.get(part['c'], part['c']).encode()
        elif part['other']:
            out += part['other'].encode()
    return out, found.end()


def strings(source, at):
    """the literals that stand one after another between commas"""
    found = []
    while True:
        text, at = literal(source, at)
        if text is None:
            return found
        found.append(text)
        comma = re.compile(r'\s*,').match(source, at)
        if not comma:
            return found
        at = comma.end()


def utf8(pattern):
    try:
        return pattern.decode()
    except UnicodeDecodeError:
        return None


def suite():
    """the patterns and texts of the tests of regex, as far as they stand in its macros"""
    jobs = {}
    for name in SUITE.split():
        source = (TESTS / (name + '.rs')).read_text()
        for found in re.finditer(r'^(?:mat|matiter|ismatch)!\(\s*\w+,', source, re.M):
            words = strings(source, found.end())
            if len(words) >= 2 and utf8(words[0]) is not None:
                jobs.setdefault((utf8(words[0]),), []).append(words[1])
        for found in re.finditer(r'^(?:no)?matset!\(\s*\w+,\s*&\[', source, re.M):
            words = strings(source, found.end())
            end = source.index(']', found.end() + sum(map(len, words)))
            text = strings(source, source.index(',', end) + 1)
            if words and text:
                jobs.setdefault(tuple(map(utf8, words)), []).append(text[0])
    return jobs


def crates():
    source = (TESTS / 'crates_regex.rs').read_text()
    return [utf8(strings(source, m.end())[0]) for m in re.finditer(r'^consistent!\(\s*\w+,', source, re.M)]


# ---- texts --------------------------------------------------------------------------------------------------------


def sample(rng, p):
    """a text that the pattern matches, if its assertions hold"""
    kind = p[0]
    if kind == 'literal':
        return p[1]
    if kind == 'class':
        plain = [byte for a, b in p[1] for byte in range(a, b + 1) if 32 < byte < 127]
        every = plain or [byte for a, b in p[1] for byte in range(a, b + 1)]
        return bytes([rng.choice(every)]) if every else b''
    if kind == 'capture':
        return sample(rng, p[1])
    if kind == 'concat':
        return b''.join(sample(rng, q) for q in p[1])
    if kind == 'alternation':
        return sample(rng, rng.choice(p[1])) if p[1] else b''
    if kind == 'repetition':
        most = p[1] + 2 if p[2] is None else min(p[2], p[1] + 2)
        return b''.join(sample(rng, p[4]) for _ in range(rng.randint(p[1], most)))
    return b''


def around(rng, text):
    part = lambda: bytes(rng.choice(b'a1 -.\n') for _ in range(rng.randint(0, 3)))
    return part() + text + part()


def texts_for(rng, patterns):
    """texts that hold a match, and one that was changed at a byte"""
    found = []
    for _ in range(40):
        first = sample(rng, rng.choice(patterns))
        whole = around(rng, first) if rng.random() < .6 else first
        if rng.random() < .3:
            whole += around(rng, sample(rng, rng.choice(patterns)))
        found.append(whole)
    fits = sorted((text for text in set(found) if len(text) <= 48), key=lambda text: (len(text), text))
    short = once([fits[len(fits) // 3], fits[len(fits) * 4 // 5]] if fits else [])
    for text in short[-1:]:
        if text:
            at = rng.randrange(len(text))
            short.append(text[:at] + rng.choice([b'', b'x', b'0', b' ']) + text[at + 1:])
    return short


# ---- random patterns ----------------------------------------------------------------------------------------------

SIX = ['Start', 'End', 'StartLF', 'EndLF', 'WordAscii', 'WordAsciiNegate']
ALL = list(model.REGEX_LOOKS)
LETTERS = b'aaaabbb\n\n\xff'
# Some ranges are out of order, or overlap.
BYTES = [((97, 97),), ((98, 98),), ((97, 98),), ((97, 97),), ((10, 10),), ((0, 96), (98, 255))] * 2 + [
    ((98, 99), (97, 97)), ((98, 255), (0, 9), (97, 98)), ((128, 255),), ((97, 110), (99, 100), (108, 120))]
COUNTS = [(0, None), (0, None), (1, None), (1, None), (0, 1), (0, 1), (2, None), (0, 2), (1, 2), (2, 2), (0, 0), (2, 3)]


def parts(rng, size, looks):
    """patterns with this number of nodes in all"""
    found = []
    while size > 0:
        take = rng.randint(1, size)
        found.append(random_pattern(rng, take, looks))
        size -= take
    return tuple(found)


def random_pattern(rng, size, looks):
    if size <= 1:
        k = rng.random()
        if k < .22:
            return ('look', rng.choice(looks))
        if k < .30:
            return ('empty',)
        if k < .50:
            return ('literal', bytes(rng.choice(b'ab') for _ in range(rng.choice([0, 1, 1, 2, 2, 3]))))
        return ('class', rng.choice(BYTES) if rng.random() < .97 else ())
    k = rng.random()
    if k < .42:
        low, high = rng.choice(COUNTS)
        return ('repetition', low, high, rng.random() < .6, random_pattern(rng, size - 1, looks))
    if k < .47:
        return ('capture', random_pattern(rng, size - 1, looks))
    return (rng.choice(['concat', 'concat', 'alternation']), parts(rng, size - 1, looks))


def wanted(rng, size, looks, is_empty_loop):
    while True:
        p = random_pattern(rng, rng.randint(2, size), looks)
        if model.has_empty_loop(p) == is_empty_loop:
            return p


def random_texts(rng, letters, count, most=7):
    return once(bytes(rng.choice(letters) for _ in range(rng.randint(0, most))) for _ in range(count))


def once(xs):
    return list(dict.fromkeys(xs))


# ---- jobs ---------------------------------------------------------------------------------------------------------


def line_of(text, matches):
    words = ','.join('%d:%d-%d' % m for m in matches) if isinstance(matches, list) else matches
    return '%s %s' % (text.hex() or '-', words or '-')


def comment(pattern):
    escape = lambda c: c if ' ' <= c <= '~' else c.encode('unicode_escape').decode()
    return '# ' + ''.join(map(escape, pattern))


def job(shown, patterns, lines, term=10):
    words = ' '.join(map(model.write, patterns))
    keys = [] if any(map(model.has_empty_loop, patterns)) else ['states=%d' % model.states_of(patterns)]
    keys += ['term=%02x' % term] if term != 10 else []
    head = ' '.join(['>'] + keys + ['|', words])
    texts = ['= ' + model.printed_whole(p) for p in patterns]
    return '\n'.join([comment(pattern) for pattern in shown] + [head] + texts + lines)


def flat(line):
    """a value, with the parts of each concatenation in place of it in another, and adjacent literals joined"""
    def flatten(p):
        if p[0] not in ('repetition', 'capture', 'concat', 'alternation'):
            return p
        if p[0] in ('repetition', 'capture'):
            return p[:-1] + (flatten(p[-1]),)
        subs = [flatten(sub) for sub in p[1]]
        if p[0] == 'concat':
            parts = [part for sub in subs for part in (sub[1] if sub[0] == 'concat' else [sub])]
            subs = []
            for part in parts:
                if part[0] == 'literal' and subs and subs[-1][0] == 'literal':
                    part = ('literal', subs.pop()[1] + part[1])
                subs.append(part)
            if len(subs) == 1:
                return subs[0]
        return p[0], tuple(subs)
    return line if line == 'none' else flatten(model.read(line)[0])


def check_printed(jobs):
    """Checks that regex-syntax reads each printed text as the grouped one, if it knows the assertions, and no class in
    it is empty"""
    lines = [line for text in jobs for line in text.split('\n') if line[0] in '>=']
    texts = [line[2:] for line in lines if line[0] == '='][:-len(PRINTED)]
    heads = [line for line, after in zip(lines, lines[1:]) if line[0] == '>' and after[0] == '=' and '*' not in line]
    patterns = [p for head in heads for p in model.read(head.partition('| ')[2])]
    ours = peer('values', [text.encode().hex() for text in texts])
    grouped = peer('values', [model.show(p).encode().hex() for p in patterns])
    for p, one, other in zip(patterns, ours, grouped):
        assert one == 'none' or flat(one) == flat(other), (p, one, other)
    known = [line for line in ours if line != 'none']
    print('texts: %d, of %d patterns, read back: %d' % (len(texts), len(patterns), len(known)), file=sys.stderr)


def leave_out(shown, text, reason):
    print('left out: %r on %r: %s' % (shown, text, reason), file=sys.stderr)


class Jobs:
    """the jobs of regex: lists of regex texts, of values and of texts"""

    def __init__(self):
        self.all, self.loops = [], []

    def add(self, shown, patterns, texts):
        self.all.append((shown, patterns, once(texts)))

    def finish(self):
        """Asks the peer, and returns the jobs. A text for which regex differs from the model, or in itself, is
        left out; a job with loops whose body may read nothing then goes to those loops."""
        ask = []
        for shown, _, texts in self.all:
            ask += [','.join(p.encode().hex() for p in shown) + '\t' + text.hex() for text in texts]
        answers = iter(peer('matches', ask))
        found = []
        for shown, patterns, texts in self.all:
            lines, others = [], []
            for text in texts:
                own, pike = next(answers).split('\t')
                line, by_model = line_of(text, own), line_of(text, model.matches_of(patterns, text))
                if own == pike and line == by_model:
                    lines.append(line)
                elif any(map(model.has_empty_loop, patterns)):
                    others += ['# regex 1.7.1: %s' % own, by_model]
                else:
                    leave_out(shown, text, 'regex: %s, its Pike VM: %s, the model: %s' % (own, pike, by_model))
            if lines:
                found.append(job(shown, patterns, lines))
            if others:
                self.loops.append(job(shown, patterns, others))
        self.all = []
        return found


def values(patterns):
    """the value of each regex text, or None"""
    lines = peer('values', [p.encode().hex() for p in patterns])
    return [None if line == 'none' else model.read(line)[0] for line in lines]


def of_suite(jobs):
    for shown, texts in suite().items():
        found = values(shown)
        short = [text for text in texts if len(text) <= 60]
        if None not in found and short:
            jobs.add(shown, found, short[:6])
    return jobs.finish()


def of_crates(rng, jobs, count):
    usable = [(p, v) for p, v in zip(crates(), values(crates())) if v is not None and 12 <= len(model.write(v)) <= 260]
    for p, value in sorted(rng.sample(usable, count), key=lambda pair: len(pair[0])):
        jobs.add((p,), [value], texts_for(rng, [value]))
    return jobs.finish()


def of_random(rng, jobs, count, size):
    for _ in range(count):
        p = wanted(rng, size, SIX, False)
        jobs.add((model.show(p),), [p], random_texts(rng, LETTERS, 4))
    return jobs.finish()


def of_several(rng, jobs, count, size):
    for _ in range(count):
        patterns = [wanted(rng, size, SIX, False) for _ in range(rng.randint(2, 4))]
        jobs.add(tuple(map(model.show, patterns)), patterns, random_texts(rng, LETTERS, 3))
    return jobs.finish()


def matches_of_python(patterns, text, look):
    whole = '|'.join('(?P<pattern%d>%s)' % (i, model.show(p, look, '(?!)')) for i, p in enumerate(patterns))
    compiled, found, at, before = re.compile(whole.encode()), [], 0, None
    while at <= len(text):
        m = compiled.search(text, at)
        if not m:
            break
        if m.start() == m.end() == before:
            at, before = before + 1, None
            continue
        number = [i for i in range(len(patterns)) if m['pattern%d' % i] is not None][0]
        found.append((number, m.start(), m.end()))
        at = before = m.end()
    return found


def job_of_look(rng, name, size, term):
    """a job whose matches would be others if the assertion held everywhere, or nowhere, or if lines ended in `\\n`; or
    None"""
    patterns = [wanted(rng, size, ALL, False) for _ in range(rng.choice([1, 1, 2]))]
    texts = random_texts(rng, b'aab\r\n\r\n; ', 5, 9)
    by = lambda look: [matches_of_python(patterns, text, look) for text in texts]
    this = lambda found: model.look_of_python(found, term)
    said = by(this)
    instead = lambda text: lambda found: text if found == name else this(found)
    others = [instead('(?:)'), instead('(?!)')]
    if term != 10:
        others.append(lambda found: model.look_of_python(found, 10))
    if any(by(other) == said for other in others):
        return None
    if said != [model.matches_of(patterns, text, term) for text in texts]:
        leave_out(list(map(model.show, patterns)), texts, 'Python: %s' % said)
        return None
    return job(list(map(model.show, patterns)), patterns, [line_of(*both) for both in zip(texts, said)], term)


def of_looks(rng, count, size):
    """for each assertion this number of jobs"""
    found = []
    for name in ALL:
        terms = [10, 13, 59] if name in ('StartLF', 'EndLF') else [10]
        for number in range(count):
            made = None
            while not made:
                made = job_of_look(rng, name, size, terms[number % len(terms)])
            found.append(made)
    return found


# Loops whose body may read nothing, with a text: engines differ in most of them.
ROWS = [
    (r'(a|)*', 'aab'), (r'(|a)+', 'aa'), (r'(a*)*', 'aa'), (r'(a??)*', 'aa'), (r'(\b|a)*', 'aa'),
    (r'(a*|b)+', 'ab'), (r'(a|b*?)*', 'abb'), (r'(a?b??)+', 'ab'), (r'(a*?)*\B', 'aab'), (r'(a??)*\B', 'aab'),
]


def of_loops(rng, jobs, count, more):
    """the jobs where regex agrees; those where it differs are in `jobs.loops`"""
    for shown, text in ROWS:
        jobs.add((shown,), values([shown]), [text.encode()])
    found = jobs.finish()
    for _ in range(more):
        p = wanted(rng, 8, SIX, True)
        jobs.add((model.show(p),), [p], random_texts(rng, LETTERS, 4))
    return (found + jobs.finish())[:count]


# Patterns, and the limits for which the compiler has enough, if it counts as the page says.
HOSTILE = [
    (r'a{1000}{1000}', 'R:1000,1000,g R:1000,1000,g L:61', ()),
    (r'((){1000}){1000}', 'R:1000,1000,g G R:1000,1000,g G E', ()),
    (r'(?:)* in counted loops', 'R:1000,1000,g R:1000,1000,g R:0,-,g E', ()),
    (r'a{0,4294967295}', 'R:0,4294967295,g L:61', ()),
    (r'a{4294967295}', 'R:4294967295,4294967295,g L:61', ()),
    (r'a{4294967295,}', 'R:4294967295,-,l L:61', ()),
    (r'a?{4294967295,}', 'R:4294967295,-,g R:0,1,g L:61', ()),
    (r'(?:){0,4294967295}', 'R:0,4294967295,l E', ()),
    ('a greatest number below the least one', 'R:3,2,g L:61', (1000, 100000)),
    ('no class, in loops', 'R:4294967295,-,g C:', ()),
    ('100000 parts in a row', 'S:100000 L:61*100000', ()),
    ('100000 empty parts in a row', 'S:100000 E*100000', ()),
    ('100000 branches', 'A:100000 L:61*100000', ()),
    ('100000 empty branches in a loop', 'R:0,-,g A:100000 E*100000', ()),
    ('100000 branches in a loop over what may read nothing', 'R:0,-,g A:100001 E L:61*100000', ()),
    ('20 counted loops of 4294967295, one in another', 'R:4294967295,4294967295,g*20 K:Start', ()),
    ('50 lazy loops over loops', 'R:1,-,l*50 R:0,1,g L:61', (1000, 100000)),
    ('1000 captures, one in another', 'G*1000 L:61', (100000,)),
    ('1000 counted loops, one in another', 'R:1,1,g*1000 L:61', (100000,)),
    ('1000 loops over what may read nothing', 'R:0,-,g*1000 R:0,1,g L:61', (100000,)),
    ('2000 assertions in a loop', 'R:2,-,g S:2000 K:WordAscii*2000', (100000,)),
    ('240 loops, one in another', 'R:0,-,g*240 L:61', (100000,)),
    ('240 loops of three kinds, one in another', 'R:0,-,g R:0,1,l R:1,-,l ' * 80 + 'L:61', (100000,)),
    ('120 loops over choices, one in another', 'R:0,-,g A:2 ' * 120 + 'L:61 L:62*120', (100000,)),
]

# Patterns by depth: the greatest depth, if it is not the usual one, whether it suffices, and the patterns.
DEEP = [
    (None, True, 'G*250 L:61'), (None, False, 'G*251 L:61'), (None, True, 'R:1,1,g*250 L:61'),
    (None, False, 'R:1,1,g*251 L:61'), (None, True, 'S:1*250 L:61'), (None, False, 'S:1*251 L:61'),
    (None, True, 'A:1*250 L:61'), (None, False, 'A:1*251 L:61'), (None, False, 'L:61 L:61 G*251 L:61'),
    (0, True, 'L:6162'), (0, True, 'C:61-7a'), (0, True, 'K:Start'), (0, True, 'E'), (0, False, 'S:0'), (0, False, 'A:0'),
    (0, False, 'G E'), (0, False, 'R:0,-,g L:61'), (1, True, 'S:2 L:61 L:62'), (1, False, 'S:2 L:61 G L:62'),
    (3, True, 'A:3 L:61 S:2 L:61 G L:62 L:63'), (2, False, 'A:3 L:61 S:2 L:61 G L:62 L:63'),
    (None, False, 'G*100000 L:61'), (None, False, 'R:1,-,g*100000 L:61'), (None, False, 'S:1*100000 L:61'),
    (None, False, 'A:1*100000 L:61'), (None, False, 'S:2*100000 E*100001'), (None, False, 'A:3*50000 L:61*100001'),
]


def of_hostile():
    found = []
    for shown, words, enough in HOSTILE:
        nest = 'nest=1001 ' if '*1000 ' in words else ''
        for limit in (0, 1000, 100000):
            error = '' if limit in enough else 'error=size '
            found.append('> limit=%d %s%s| %s' % (limit, nest, error, words))
            if limit == 0:
                found[-1] = '# ' + shown + '\n' + found[-1]
    for shown, words, _ in HOSTILE[:2]:
        found.append('# %s, with the usual limit\n> error=size | %s' % (shown, words))
    return found


# Patterns of 1000 levels, which are printed.
PRINTED = ['G*1000 L:61', 'R:0,-,l*1000 L:61', 'S:2*1000 L:61*1001', 'A:2*1000 L:61*1001', 'A:1*1000 R:1,1,g K:Start']


def of_deep():
    found = []
    for nest, is_within, words in DEEP:
        keys = ([] if nest is None else ['nest=%d' % nest]) + ([] if is_within else ['error=nest'])
        found.append(' '.join(['>'] + keys + ['|', words]))
    for words in PRINTED:
        found.append('> error=nest | %s\n= %s' % (words, model.printed_whole(model.read(repeated(words))[0])))
    return found


CHARS = [
    [(0xE9, 0xE9)],
    [(0x20AC, 0x20AC), (0x1D11E, 0x1D11E)],
    [(0x70, 0x70), (0x6D, 0xFF), (0x61, 0x7A)],
    [(0x7F, 0x80), (0x7FF, 0x800), (0xFFFF, 0x10000)],
    [(0xD7FF, 0xE000)],
    [(0x0, 0x10FFFF)],
    [(0x7A, 0x61)],
    [],
]
CHAR_TEXTS = [
    'aé€𝄞z'.encode(),
    'éa'.encode() + b'\xed\xa0\x80' + 'm€'.encode() + b'\xc0\x80\xc3' + '𝄞'.encode() + b'\xf4\x90\x80\x80\xe0\x80\x80',
    ''.join(map(chr, [0x0, 0x7F, 0x80, 0x7FF, 0x800, 0xD7FF, 0xE000, 0xFFFF, 0x10000, 0x10FFFF])).encode(),
]


def character(text, i):
    """the character at a position, and where it ends, by the codec of Python; None if there is none"""
    for j in range(i + 1, min(i + 4, len(text)) + 1):
        try:
            return ord(text[i:j].decode()), j
        except UnicodeDecodeError:
            pass
    return None


def most_states(ranges, negated):
    """the states that read the UTF-8 of the characters byte by byte, and the match state"""
    chosen, tree = {c for a, b in ranges for c in range(a, b + 1)}, {}
    for c in range(0x110000):
        if not 0xD800 <= c < 0xE000 and (c in chosen) != negated:
            node = tree
            for byte in chr(c).encode():
                node = node.setdefault(byte, {})
    return nodes(tree) + 1


def nodes(tree):
    """one state, and those after each byte, once for neighbors that the same bytes may follow"""
    count, before = 1, None
    for byte in sorted(tree):
        if tree[byte] and before != (byte - 1, tree[byte]):
            count += nodes(tree[byte])
        before = byte, tree[byte]
    return count


def of_category(name):
    """the ranges of the characters whose general category begins with the name"""
    found = []
    for c in range(0x110000):
        if unicodedata.category(chr(c)).startswith(name):
            if found and found[-1][1] == c - 1:
                found[-1] = found[-1][0], c
            else:
                found.append((c, c))
    return found


def of_chars():
    found = []
    for ranges in CHARS:
        for word, negated in [('U', False), ('N', True)]:
            lines = []
            for text in CHAR_TEXTS:
                matches, i = [], 0
                while i < len(text):
                    read = character(text, i)
                    if read and any(a <= read[0] <= b for a, b in ranges) != negated:
                        matches.append((0, i, read[1]))
                        i = read[1]
                    else:
                        i += 1
                lines.append(line_of(text, matches))
            shown = ','.join('%x-%x' % pair for pair in ranges)
            head = '# %s: %s' % ('characters but these' if negated else 'these characters', shown or 'none')
            keys = 'most=%d' % most_states(ranges, negated)
            found.append('\n'.join([head, '> %s | %s:%s' % (keys, word, shown)] + lines))
    for shown, name in [('letters', 'L'), ('decimal digits', 'Nd')]:
        ranges = of_category(name)
        words = ','.join('%x-%x' % pair for pair in ranges)
        found.append('# %s\n> most=%d | U:%s' % (shown, most_states(ranges, False), words))
    return found


def repeated(words):
    """the words, each as often as its number says"""
    split = [word.partition('*') for word in words.split(' ')]
    return ' '.join(word for word, _, count in split for _ in range(int(count or 1)))


def main():
    rng, jobs = random.Random(20271127), Jobs()
    groups = [
        ('From the tests of the crate regex 1.7.1', of_suite(jobs)),
        ('Patterns of published crates, from these tests, on texts made of them', of_crates(rng, jobs, 190)),
        ('Random patterns, by regex 1.7.1', of_random(rng, jobs, 220, 9)),
        ('Several patterns, by regex 1.7.1', of_several(rng, jobs, 70, 6)),
        ('All assertions and several line terminators, by the module re of Python', of_looks(rng, 6, 6)),
        ('Loops whose body may read nothing, where regex 1.7.1 agrees', of_loops(rng, jobs, 45, 400)),
    ]
    groups += [
        ('Loops whose body may read nothing, where regex 1.7.1 differs: by the rule of this project', jobs.loops[:35]),
        ('Sizes: the error, or at most this number of states and the prefix', of_hostile()),
        ('Depths: the error, or an NFA', of_deep()),
        ('Classes of characters, by the codec of Python', of_chars()),
    ]
    for title, found in groups:
        print('# %s: %d jobs.' % (title, len(found)))
        for text in found:
            print(text)
        lines = [line for text in found for line in text.split('\n') if line[0] not in '#>=']
        print(title, len(found), len(lines), sum(line.count(':') for line in lines), file=sys.stderr)
    check_printed([text for _, found in groups for text in found])


main()
