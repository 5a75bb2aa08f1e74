"""Patterns as values, what they match, and the number of states that a compiler makes of them.

A pattern is a tuple: ('empty',), ('literal', bytes), ('class', ((first, last), ..)), ('look', name),
('repetition', min, max or None, is_greedy, sub), ('capture', sub), ('concat', (sub, ..)), ('alternation', (sub, ..)).
"""
import sys

sys.setrecursionlimit(100000)

# ---- the notation of the jobs -------------------------------------------------------------------------------------


def read(words):
    """the patterns of a text of words"""
    stack = []
    for word in reversed(words.split(' ')):
        kind, _, rest = word.partition(':')
        take = lambda count: tuple(stack.pop() for _ in range(count))
        if kind == 'E':
            stack.append(('empty',))
        elif kind == 'L':
            stack.append(('literal', bytes.fromhex(rest)))
        elif kind == 'C':
            ranges = [part.split('-') for part in rest.split(',') if part]
            stack.append(('class', tuple((int(a, 16), int(b, 16)) for a, b in ranges)))
        elif kind == 'K':
            stack.append(('look', rest))
        elif kind == 'R':
            low, high, choice = rest.split(',')
            stack.append(('repetition', int(low), None if high == '-' else int(high), choice == 'g', stack.pop()))
        elif kind == 'G':
            stack.append(('capture', stack.pop()))
        else:
            stack.append(({'S': 'concat', 'A': 'alternation'}[kind], take(int(rest))))
    return stack[::-1]


def write(p):
    """the words of a pattern"""
    kind = p[0]
    if kind == 'empty':
        return 'E'
    if kind == 'literal':
        return 'L:' + p[1].hex()
    if kind == 'class':
        return 'C:' + ','.join('%02x-%02x' % r for r in p[1])
    if kind == 'look':
        return 'K:' + p[1]
    if kind == 'repetition':
        return 'R:%d,%s,%s %s' % (p[1], '-' if p[2] is None else p[2], 'g' if p[3] else 'l', write(p[4]))
    if kind == 'capture':
        return 'G ' + write(p[1])
    return ' '.join(['%s:%d' % ('S' if kind == 'concat' else 'A', len(p[1]))] + [write(q) for q in p[1]])


# ---- text for other programs --------------------------------------------------------------------------------------

WORD = '[0-9A-Za-z_]'
REGEX_LOOKS = {
    'Start': r'\A', 'End': r'\z', 'StartLF': '(?m:^)', 'EndLF': '(?m:$)', 'StartCRLF': '(?mR:^)', 'EndCRLF': '(?mR:$)',
    'WordAscii': r'\b', 'WordAsciiNegate': r'\B', 'WordUnicode': r'(?u:\b)', 'WordUnicodeNegate': r'(?u:\B)',
    'WordStartAscii': r'\b{start}', 'WordEndAscii': r'\b{end}', 'WordStartUnicode': r'(?u:\b{start})',
    'WordEndUnicode': r'(?u:\b{end})', 'WordStartHalfAscii': r'\b{start-half}', 'WordEndHalfAscii': r'\b{end-half}',
    'WordStartHalfUnicode': r'(?u:\b{start-half})', 'WordEndHalfUnicode': r'(?u:\b{end-half})',
}


def look_of_python(name, term):
    """an assertion in Python's notation, by what stands behind and ahead"""
    line = '\\x%02x' % term
    start, end = r'(?:(?<![\s\S])|(?<=%s))', r'(?:(?![\s\S])|(?=%s))'
    before, ahead = '(?<=%s)' % WORD, '(?=%s)' % WORD
    no_before, no_ahead = '(?<!%s)' % WORD, '(?!%s)' % WORD
    name = name.replace('Unicode', 'Ascii')
    return {
        'Start': r'(?<![\s\S])', 'End': r'(?![\s\S])', 'StartLF': start % line, 'EndLF': end % line,
        'StartCRLF': r'(?:(?<![\s\S])|(?<=\n)|(?<=\r)(?!\n))', 'EndCRLF': r'(?:(?![\s\S])|(?=\r)|(?<!\r)(?=\n))',
        'WordAscii': '(?:%s|%s)' % (before + no_ahead, no_before + ahead),
        'WordAsciiNegate': '(?:%s|%s)' % (before + ahead, no_before + no_ahead),
        'WordStartAscii': no_before + ahead, 'WordEndAscii': before + no_ahead,
        'WordStartHalfAscii': no_before, 'WordEndHalfAscii': no_ahead,
    }[name]


def show(p, look=REGEX_LOOKS.get, nothing=r'(?:\b\B)'):
    """a pattern as text: in the notation of regex, or in that of Python with its assertions"""
    kind = p[0]
    inner = lambda q: show(q, look, nothing)
    if kind == 'empty':
        return '(?:)'
    if kind == 'literal':
        return '(?:%s)' % ''.join(map(show_byte, p[1]))
    if kind == 'class':
        if not p[1]:
            return nothing
        return '[%s]' % ''.join(show_byte(a) + ('-' + show_byte(b) if a < b else '') for a, b in p[1])
    if kind == 'look':
        return look(p[1])
    if kind == 'capture':
        return '(%s)' % inner(p[1])
    if kind == 'concat':
        return '(?:%s)' % ''.join(map(inner, p[1]))
    if kind == 'alternation':
        return '(?:%s)' % '|'.join(map(inner, p[1])) if p[1] else nothing
    low, high, greedy, sub = p[1:]
    counted = '{%d}' % low if low == high else '{%d,%s}' % (low, '' if high is None else high)
    sign = {(0, None): '*', (1, None): '+', (0, 1): '?'}.get((low, high), counted)
    return '(?:%s)%s%s' % (inner(sub), sign, '' if greedy else '?')


def show_byte(byte):
    return chr(byte) if chr(byte).isalnum() and byte < 128 else '\\n' if byte == 10 else '\\x%02x' % byte


def printed(p, is_operand=False):
    """the text that `Display` writes of a pattern, which is in front of an operator if `is_operand` is set"""
    kind = p[0]
    if kind == 'look':
        bare, is_grouped = REGEX_LOOKS[p[1]], is_operand
    elif kind == 'literal':
        bare, is_grouped = ''.join(map(printed_byte, p[1])) or '(?:)', is_operand and len(p[1]) > 1
    elif kind == 'class':
        ranges = [printed_byte(a) + ('-' + printed_byte(b) if a < b else '') for a, b in merged(p[1])]
        bare, is_grouped = '[%s]' % ''.join(ranges) if ranges else r'[^\x00-\xFF]', False
    elif kind == 'capture':
        bare, is_grouped = '(%s)' % printed_whole(p[1]), False
    elif kind == 'concat':
        bare, is_grouped = ''.join(map(printed, p[1])) or '(?:)', is_operand and bool(p[1])
    elif kind == 'alternation':
        return '(?:%s)' % printed_whole(p) if p[1] else printed_whole(p)
    elif kind == 'repetition':
        low, high, greedy, sub = p[1:]
        counts = '{%d}' % low if high is not None and high <= low else '{%d,%s}' % (low, '' if high is None else high)
        sign = {(0, None): '*', (1, None): '+', (0, 1): '?'}.get((low, high), counts)
        bare, is_grouped = printed(sub, True) + sign + ('' if greedy else '?'), is_operand
    else:
        bare, is_grouped = '(?:)', False
    return '(?:%s)' % bare if is_grouped else bare


def printed_whole(p):
    """the same of a whole pattern, or of what is in a group"""
    if p[0] == 'alternation':
        return '|'.join(map(printed, p[1])) if p[1] else r'[^\x00-\xFF]'
    return printed(p)


def merged(ranges):
    """the ranges in order, with those joined that meet"""
    found = []
    for a, b in sorted(ranges):
        if found and a <= found[-1][1] + 1:
            found[-1] = (found[-1][0], max(b, found[-1][1]))
        else:
            found.append((a, b))
    return found


def printed_byte(byte):
    if not 32 <= byte <= 126:
        return '\\x%02X' % byte
    return ('\\' if chr(byte) in r'\.+*?()|[]{}^$#&-~' else '') + chr(byte)


# ---- what a pattern matches ---------------------------------------------------------------------------------------


def is_word(byte):
    return byte is not None and byte < 128 and (chr(byte).isalnum() or byte == 95)


def holds(name, text, i, term):
    """does the assertion hold at the position"""
    p, q = text[i - 1] if i else None, text[i] if i < len(text) else None
    before, ahead = is_word(p), is_word(q)
    return {
        'Start': p is None, 'End': q is None, 'StartLF': p in (None, term), 'EndLF': q in (None, term),
        'StartCRLF': p in (None, 10) or p == 13 and q != 10, 'EndCRLF': q in (None, 13) or q == 10 and p != 13,
        'WordAscii': before != ahead, 'WordAsciiNegate': before == ahead, 'WordStartAscii': not before and ahead,
        'WordEndAscii': before and not ahead, 'WordStartHalfAscii': not before, 'WordEndHalfAscii': not ahead,
    }[name.replace('Unicode', 'Ascii')]


def once(xs):
    return list(dict.fromkeys(xs))


class Matcher:
    """The ends of the matches of patterns in a text. A round of a loop that reads nothing is allowed only as the
    first one, and is then the last one."""

    def __init__(self, text, term):
        self.text, self.term, self.kept = text, term, {}

    def ends(self, p, i):
        """where a match that begins at the position may end, most preferred first"""
        key = (id(p), i)
        if key not in self.kept:
            self.kept[key] = once(self.ends_anew(p, i))
        return self.kept[key]

    def each(self, p, starts):
        return once(end for start in starts for end in self.ends(p, start))

    def ends_anew(self, p, i):
        kind, text = p[0], self.text
        if kind == 'empty':
            return [i]
        if kind == 'literal':
            return [i + len(p[1])] if text.startswith(p[1], i) else []
        if kind == 'class':
            return [i + 1] if i < len(text) and any(a <= text[i] <= b for a, b in p[1]) else []
        if kind == 'look':
            return [i] if holds(p[1], text, i, self.term) else []
        if kind == 'capture':
            return self.ends(p[1], i)
        if kind == 'alternation':
            return [end for q in p[1] for end in self.ends(q, i)]
        if kind == 'concat':
            found = [i]
            for q in p[1]:
                found = self.each(q, found)
            return found
        return self.ends_of_loop(i, *p[1:])

    def ends_of_loop(self, i, low, high, greedy, sub):
        prefer = lambda more, stop: more + stop if greedy else stop + more

        def after(j):
            return once(prefer([end for k in self.ends(sub, j) if k > j for end in after(k)], [j]))

        def plus(j):
            return once(end for k in self.ends(sub, j) for end in (after(k) if k > j else [j]))

        def up_to(count, j):
            if count == 0:
                return [j]
            return once(prefer([end for k in self.ends(sub, j) for end in up_to(count - 1, k)], [j]))

        found = [i]
        for _ in range(low if high is not None else low - 1):
            found = self.each(sub, found)
        if high is not None:
            return once(end for j in found for end in up_to(high - low, j))
        if low == 0:
            return prefer(plus(i), [i])
        return once(end for j in found for end in plus(j))


def matches_of(patterns, text, term=10):
    """all matches, as a list of pattern, start and end"""
    matcher, found, at, before = Matcher(text, term), [], 0, None
    while at <= len(text):
        here = [(number, at, end) for number, p in enumerate(patterns) for end in matcher.ends(p, at)[:1]]
        if not here:
            at += 1
            continue
        if here[0][2] == at == before:
            at, before = at + 1, None
            continue
        found.append(here[0])
        at = before = here[0][2]
    return found


# ---- the states of an NFA -----------------------------------------------------------------------------------------


def min_len(p):
    """no match is shorter"""
    kind = p[0]
    if kind == 'literal':
        return len(p[1])
    if kind == 'class':
        return 1 if p[1] else 0
    if kind == 'capture':
        return min_len(p[1])
    if kind == 'concat':
        return sum(map(min_len, p[1]))
    if kind == 'alternation':
        return min(map(min_len, p[1])) if p[1] else 0
    return p[1] * min_len(p[4]) if kind == 'repetition' else 0


def has_empty_loop(p):
    """is there a loop without a greatest number of rounds, and whose body may read nothing"""
    kind = p[0]
    if kind in ('concat', 'alternation'):
        return any(map(has_empty_loop, p[1]))
    if kind == 'capture':
        return has_empty_loop(p[1])
    return kind == 'repetition' and (has_empty_loop(p[4]) or p[2] is None and min_len(p[4]) == 0)


def states(p):
    """the number of states that the compiler of regex-automata 0.4.18 makes of the pattern without captures, and
    without its trie for alternations of literals"""
    kind = p[0]
    if kind == 'empty':
        return 0
    if kind == 'literal':
        return len(p[1])
    if kind in ('class', 'look'):
        return 1
    if kind == 'capture':
        return states(p[1])
    if kind == 'concat':
        return sum(map(states, p[1]))
    if kind == 'alternation':
        return sum(map(states, p[1])) + (len(p[1]) != 1)
    low, high, sub = p[1], p[2], states(p[4])
    if high is not None:
        return low * sub + (high - low) * (sub + 1)
    if low == 0:
        return sub + (1 if min_len(p[4]) else 2)
    return low * sub + 1


def states_of(patterns):
    """the same for several patterns: a match state for each, and a union of their starts if there are several"""
    return sum(states(p) + 1 for p in patterns) + (len(patterns) > 1)
