#!/usr/bin/env python3
"""A second checker, written from docs/SPEC.md: reads a page from standard input and prints its answer.

It explores pairs of stage and elapsed minutes one by one (no tallies, no shortest or longest ways), so it is slow and
shares no step with the product. The stage that refusals 13 and 14 name is the lowest that fits; the product may name
another one.
"""
import sys


class No(Exception):
    """A refusal: its number, and the stage or the line."""
    def __init__(self, number, place=0):
        self.number, self.place = number, place


def signs(text):
    out, i = [], 0
    while i < len(text):
        c = text[i:i + 1]
        if c == b' ':
            i += 1
        elif text[i:i + 3] in (b'U<=', b'U>='):
            out.append(text[i:i + 3].decode()); i += 3
        elif c.isdigit():
            j = i
            while j < len(text) and text[j:j + 1].isdigit():
                j += 1
            if j - i > 1 and c == b'0':
                raise No(9)
            out.append(int(text[i:j])); i = j
        elif c in (b'(', b')', b'[', b']', b'!', b'&', b'|', b'E', b'A', b'U') or b'a' <= c <= b'p':
            out.append(c.decode()); i += 1
        else:
            raise No(9)
    return out


def read(text):
    """The rule as a nested tuple."""
    if len(text) > 512:
        raise No(8)
    rest = signs(text)[::-1]

    def take(*which):
        if rest and rest[-1] in which and type(rest[-1]) is str:
            return rest.pop()
        raise No(9)

    def number():
        if rest and type(rest[-1]) is int:
            return rest.pop()
        raise No(9)

    def joined(sign, part):
        f = part()
        while rest and rest[-1] == sign:
            rest.pop()
            f = (sign, f, part())
        return f

    def rule():
        return joined('|', lambda: joined('&', item))

    def item():
        if not rest:
            raise No(9)
        s = rest.pop()
        if s == 1 and type(s) is int:
            return ('1',)
        if s == '!':
            return ('!', item())
        if s == '(':
            f = rule(); take(')')
            return f
        if s in ('E', 'A'):
            take('[')
            f = rule()
            u = take('U', 'U<=', 'U>=')
            c = number() if u != 'U' else 0
            g = rule(); take(']')
            return (s, f, '<=' if u == 'U<=' else '>=', c, g)
        if type(s) is str and len(s) == 1 and 'a' <= s <= 'p':
            return (s,)
        raise No(9)

    sys.setrecursionlimit(10000)
    f = rule()
    if rest:
        raise No(9)
    return f


def parts(f):
    return [x for x in f[1:] if isinstance(x, tuple)]


def numbers(f):
    return ([f[3]] if f[0] in 'EA' and len(f) == 5 else []) + [n for x in parts(f) for n in numbers(x)]


def lines(f):
    return 1 + sum(lines(x) for x in parts(f))


def until(program, every, f, sense, c, g):
    """Stages from which some (or every) run has the until, over pairs of stage and minutes, these capped."""
    stages, moves = program
    cap = c + 1 if sense == '<=' else c
    out = [[] for _ in stages]
    for s, d, t in moves:
        out[s].append((d, t))
    good = lambda s, t: s in g and (t <= c if sense == '<=' else t >= c)
    # the pairs that can be come to, then the least set that has them by the until's own law
    todo, seen = [(s, 0) for s in range(len(stages)) if stages[s] is not None], set()
    while todo:
        x = todo.pop()
        if x not in seen:
            seen.add(x)
            todo += [(t, min(cap, x[1] + d)) for d, t in out[x[0]]]
    before, left, holds = {}, {}, []
    for x in seen:
        nexts = [(t, min(cap, x[1] + d)) for d, t in out[x[0]]]
        left[x] = len(nexts)
        for y in nexts:
            before.setdefault(y, []).append(x)
        if good(*x):
            holds.append(x)
    done = set(holds)
    while holds:
        y = holds.pop()
        for x in before.get(y, []):
            left[x] -= 1
            if x not in done and (stages[x[0]] is None or x[0] in f) and (not every or left[x] == 0):
                done.add(x)
                holds.append(x)
    return {s for s in range(len(stages)) if stages[s] is not None and (s, 0) in done}


def where(program, f):
    stages, _ = program
    shown = {s for s in range(len(stages)) if stages[s] is not None}
    if f[0] == '1':
        return shown
    if f[0] == '!':
        return shown - where(program, f[1])
    if f[0] == '&':
        return where(program, f[1]) & where(program, f[2])
    if f[0] == '|':
        return where(program, f[1]) | where(program, f[2])
    if f[0] in 'EA':
        return until(program, f[0] == 'A', where(program, f[1]), f[2], f[3], where(program, f[4]))
    return {s for s in shown if f[0] in stages[s]}


def check(program, text):
    f = read(text)
    if any(n > 1000000 for n in numbers(f)):
        raise No(10)
    if lines(f) > 32:
        raise No(11)
    stages, moves = program
    if not stages:
        raise No(12)
    for s in range(len(stages)):
        if all(m[0] != s for m in moves):
            raise No(13, s)
    for s in range(len(stages)):
        todo, seen = [s], set()
        while todo:
            x = todo.pop()
            for a, d, b in moves:
                if a == x and d == 0 and b not in seen:
                    seen.add(b); todo.append(b)
        if s in seen:
            raise No(14, s)
    return lines(f), sorted(where(program, f))


def number_of(text):
    if not (1 <= len(text) <= 5) or not all(48 <= b <= 57 for b in text) or (len(text) > 1 and text[0] == 48):
        raise No(16)
    return int(text)


def put(stages, moves, rules, line):
    if line.startswith(b'stage=') and not moves and not rules:
        marks = line[6:]
        if any(not 97 <= b <= 112 for b in marks) or any(a >= b for a, b in zip(marks, marks[1:])):
            raise No(16)
        if len(stages) >= 1024:
            raise No(5)
        stages.append(marks.decode())
    elif line.startswith(b'move=') and not rules:
        numbers_ = line[5:].split(b',')
        if len(numbers_) != 3:
            raise No(16)
        s, d, t = map(number_of, numbers_)
        if s >= len(stages) or t >= len(stages):
            raise No(1)
        if d > 10080:
            raise No(4)
        if len(moves) >= 4096:
            raise No(6)
        moves.append((s, d, t))
    elif line.startswith(b'rule='):
        rules.append(line[5:])
    else:
        raise No(16)


def answer(page):
    if len(page) > 16384:
        return 'refused=16\nline=0\n'
    stages, moves, rules = [], [], []
    texts = page.split(b'\n')
    for i, line in enumerate(texts):
        try:
            if i == len(texts) - 1:
                if line:
                    raise No(16)
            else:
                put(stages, moves, rules, line)
        except No as no:
            return f'refused={no.number}\nline={i + 1}\n'
    out = ''
    for i, text in enumerate(rules):
        out += f'rule={i}\n'
        try:
            n, named = check((stages, moves), text)
            out += f'lines={n}\nholds={",".join(map(str, named))}\n'
        except No as no:
            out += f'refused={no.number}\nat={no.place}\n'
    return out


if __name__ == '__main__':
    sys.stdout.write(answer(sys.stdin.buffer.read()))
