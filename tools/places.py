#!/usr/bin/env python3
"""The places that docs/DESIGN-PASS.md counts: what today's Rattle may say better, point by point.

    python3 tools/places.py            the counts of each point
    python3 tools/places.py 3          the places of one point, a line for each
    python3 tools/places.py --at DIR   the same of another checkout

A place is found by its text, so a list shows what to read and not what to change.
"""
import collections
import glob
import os
import re
import sys

FN = re.compile(r'^( *)(?:pub(?:\([a-z]+\))? )?(?:final )?(?:unsafe )?(?:const )?(?:extern "C" )?fn (\w+)')


def functions(path):
    """Each function of a file: its name, line, head (parameters and clauses) and body."""
    lines = open(path).read().split('\n')
    i = 0
    while i < len(lines):
        m = FN.match(lines[i])
        if not m:
            i += 1
            continue
        indent, name, at, head = m.group(1), m.group(2), i, []
        while i < len(lines):
            line = lines[i]
            if line == indent + '{':
                break
            head.append(line)
            if line.endswith('{') and (i == at or line.startswith(indent + ')')):
                break
            if line.endswith('};') or (i == at and line.endswith(';')):
                break
            i += 1
        body = []
        i += 1
        while i < len(lines) and lines[i] != indent + '}':
            body.append(lines[i])
            i += 1
        yield name, at + 1, '\n'.join(head), '\n'.join(body)
        i += 1


def parameters(head):
    """The parameters of a head, as text; `self` counts."""
    text = head[head.index('fn '):]
    depth, start, out, at = 0, None, [], ''
    for c in text:
        if c in '([<{':
            depth += 1
            if c == '(' and start is None:
                start, depth = True, 1
                continue
        elif c in ')]>}':
            depth -= 1
            if start and c == ')' and depth == 0:
                break
        if start:
            if c == ',' and depth == 1:
                out.append(at.strip())
                at = ''
            else:
                at += c
    if at.strip():
        out.append(at.strip())
    return out


def clauses(head):
    return [' '.join(m.group(1).split()) for m in re.finditer(r'requires(?: \w+)? \{(.*?)\}(?=\n|$)', head, re.S)]


def shape(body):
    """A body with its names and numbers left out."""
    text = re.sub(r'//[^\n]*', '', body)
    text = re.sub(r'[A-Za-z_][\w:]*', 'n', re.sub(r'\b(if|else|while|for|in|return|match|let|mut)\b', r'@\1@', text))
    return ' '.join(re.sub(r'\b\d[\w.]*', '0', text).split())


def grep(pattern, files):
    for path in files:
        for n, line in enumerate(open(path), 1):
            if re.search(pattern, line):
                yield f'{path}:{n}: {line.strip()}'


def main():
    args = sys.argv[1:]
    if '--at' in args:
        os.chdir(args[args.index('--at') + 1])
        del args[args.index('--at'):args.index('--at') + 2]
    else:
        os.chdir(os.path.dirname(os.path.abspath(__file__)) + '/..')
    src = sorted(glob.glob('crates/*/src/**/*.rt', recursive=True))
    proofs = sorted(glob.glob('crates/*/proofs/**/*.antt', recursive=True))
    fns = [(path,) + f for path in src for f in functions(path)]
    points = collections.OrderedDict()

    points['1a enums with a value in one variant and a refusal or nothing in the other'] = [
        f'{path}: {m.group(1)}' for path in src for m in re.finditer(r'enum (\w+) \{((?:\s*//[^\n]*\n|[^}])*)\}', open(path).read())
        if len(re.findall(r'^\s*[A-Z]\w*', m.group(2), re.M)) == 2 and '(' in m.group(2)]
    points['1b numbers in place of kinds and refusals'] = list(grep(r'^(pub )?const [A-Z_]+: u32 = \d{1,2};$', src))
    points['1c numbers that say none'] = list(grep(r'^ *//.*(0 if none|0 where|where there is none|which is no name|or the number of the line|or 0 where)', src))
    points['1d tests of such a number'] = list(grep(r'\b(number|got|end|limit)(\.number)? (!=|==) 0\b', src))
    same = collections.defaultdict(list)
    for path, name, at, head, body in fns:
        if body.count('\n') >= 2 and not path.startswith('crates/retake_c_c/'):
            same[shape(body)].append(f'{path}:{at}: {name}')
    points['2a functions whose bodies have one shape, of three lines and more'] = ['; '.join(v) for v in same.values() if len(v) > 1]
    structs = collections.defaultdict(list)
    for path in src:
        for m in re.finditer(r'struct (\w+)(?:<[^>]*>)? \{(.*?)\n\}', open(path).read(), re.S):
            structs[' '.join(re.findall(r'(\w+):', re.sub(r'//[^\n]*', '', m.group(2))))].append(f'{path}: {m.group(1)}')
    points['2b structs with the same fields'] = ['; '.join(v) for v in structs.values() if len(v) > 1]
    points['3 loops by while and loop'] = list(grep(r'^\s*(while|loop)\b', src))
    points['4 equality, copying, conversion and printing by hand'] = [
        f'{path}:{at}: {name}' for path, name, at, head, body in fns
        if re.match(r'(same|same_words?|copy_words|move_\w+|put_(word|words|half|digits|decimal|text|number)|i16_of|samples_of|sample|wide|word|is_digit|digit|lower_digit|half_word|is_half_word|say_\w+|print_answer|print_holds|none|keep)$', name)]
    points['5a functions of eight parameters and more'] = [
        f'{path}:{at}: {name}, {len(parameters(head))}' for path, name, at, head, body in fns if len(parameters(head)) >= 8]
    facts = collections.defaultdict(list)
    for path, name, at, head, body in fns:
        for clause in clauses(head):
            for fact in re.split(r' × ', re.sub(r'[()]', '', clause)):
                if not path.startswith('crates/retake_c_c/'):
                    facts[fact.strip()].append(f'{os.path.relpath(path, "crates")}:{name}')
    points['5b facts that three functions and more require'] = [f'{k}: {len(v)}: {", ".join(v)}' for k, v in facts.items() if len(v) >= 3]
    points['6a functions with a buffer and a length or a place beside it'] = [
        f'{path}:{at}: {name}' for path, name, at, head, body in fns
        if any(re.search(r': &(mut )?\[', p) for p in parameters(head))
        and any(re.match(r'(at|count|n|size|used|end|from|next|\w+_bytes): usize', p) for p in parameters(head))]
    points['6b functions with three buffers and more of one type'] = [
        f'{path}:{at}: {name}' for path, name, at, head, body in fns
        if max(collections.Counter(p.split(': ', 1)[-1] for p in parameters(head) if '&' in p).values(), default=0) >= 3]
    points['7 switches on which step to run'] = list(grep(r'\b(score|call\.kind|kind|how|which|terrain_index) (==|!=) |if score\b|match (which|terrain_index|instrument)\b|score & ', src))
    points['8a answer files'] = [f'{p}' for p in proofs if p.endswith('/Answers.antt')]
    points['8b lines of answers'] = [0] * sum(len(open(p).readlines()) for p in proofs if p.endswith('/Answers.antt'))
    points['8c imports from the logic\'s own modules'] = list(grep(r'^use (native|lib|borrow|mathlib|Prim|mir)\.', proofs))

    wanted = args[0] if args else None
    for title, places in points.items():
        if wanted is None:
            print(f'{len(places):5}  {title}')
        elif title.startswith(wanted):
            print(f'{len(places):5}  {title}')
            for place in places:
                if place:
                    print('       ' + place)


main()
