#!/usr/bin/env python3
"""Lists the places of crates/*/src that an older Rattle's forms leave, by the points of docs/DESIGN-PASS.md; in the repository's top folder:
    python3 tools/places.py           the counts of all points
    python3 tools/places.py POINT     the places of one point, each with its file and line"""
import collections, glob, os, re, sys

TEXTS = {p: open(p, encoding='utf-8').read() for p in sorted(glob.glob('crates/*/src/**/*.rt', recursive=True))}

def lines_like(pattern):
    out = []
    for path, text in TEXTS.items():
        for n, line in enumerate(text.split('\n'), 1):
            if not line.lstrip().startswith('//') and re.search(pattern, line):
                out.append(f'{path}:{n}: {line.strip()}')
    return out

def functions():
    """Each function: its path, name, parameters, clauses and body."""
    for path, text in TEXTS.items():
        for m in re.finditer(r'^( *)(?:pub(?:\([a-z]+\))? )?(?:const )?(?:extern "C" )?fn (\w+)', text, re.M):
            brace = text.find('\n' + m.group(1) + '{\n', m.end())
            same = text.find(' {\n', m.end())
            if brace < 0 or (0 <= same < brace and 'requires' not in text[m.end():same] and 'ensures' not in text[m.end():same]):
                brace = same
            end = text.find('\n' + m.group(1) + '}\n', brace)
            if brace < 0 or end < 0:
                continue
            yield path, text.count('\n', 0, m.start()) + 1, m.group(2), text[m.end():brace], text[brace:end]

def enums():
    return lines_like(r'^\s*(pub )?enum \w+')

def flags():
    return lines_like(r'\b\w+: bool\b')

def numbers():
    return lines_like(r'\b(kind|code|detail|found|number|which|suffix|base|digit)\b: u(8|32|64|size)\b') + lines_like(r'\b(MISMATCH|UNSPELLED|UNKNOWN)\b')

def twins():
    """Functions whose bodies agree once names, numbers and number types are set aside, by their first lines."""
    shapes = collections.defaultdict(list)
    for path, n, name, head, body in functions():
        words = re.findall(r"[A-Za-z_]\w*|\d[\w]*|[^\s\w]", re.sub(r'//[^\n]*', '', body))
        keep = {'if', 'while', 'for', 'loop', 'match', 'return', 'let', 'mut', 'as', 'in', 'else', 'break', 'continue', 'true', 'false'}
        shape = ' '.join(w if w in keep or not re.match(r'\w', w) else '0' if w[0].isdigit() else 'x' for w in words)
        if shape.count(' ') > 24:
            shapes[shape].append(f'{path}:{n}: {name}')
    return [' = '.join(group) for group in shapes.values() if len(group) > 1]

def loops():
    return lines_like(r"^\s*('\w+: )?(while|loop)\b")

BY_HAND = (r'\bfn (lesser|hex_digit|is_hex_digit|is_digit|is_blank|is_indent|is_among|digit_of|decimal_places|put_digits|put_decimal|put_scalar|later_byte'
           r'|with_digit|number|spelled|times_prime|with_word|low|code_of|number_of|suffix_number|suffix_length|base_of|suffix_at|batch|distance_of'
           r'|shows_scalar|has_numbers|same_five|put_five|function_of|content_size|in_range|lowest_second|highest_second|scalar_size|scalar_value)\b')

def by_hand():
    return lines_like(BY_HAND)

def conjuncts(head):
    for clause in re.findall(r'(?:requires|ensures)\*?(?: \w+)? \{(.*)\}\s*$', head, re.M):
        for part in clause.split('×'):
            yield re.sub(r'^\s*(?:ensures|requires).*\{', '', part).strip(' ()')

def facts():
    seen = collections.defaultdict(set)
    for path, n, name, head, body in functions():
        for fact in set(conjuncts(head)):
            if len(fact) > 8 and not fact.startswith('result') and '.new' not in fact:
                seen[fact].add(f'{path}:{n}')
    return [f'{len(at)} x {fact}' for fact, at in sorted(seen.items(), key=lambda x: -len(x[1])) if len(at) >= 3]

def together():
    """Runs of three parameters or more that stand in the heads of three functions or more."""
    seen = collections.Counter()
    for path, n, name, head, body in functions():
        params = re.findall(r'(\w+): [^,)]+', head.split('requires')[0].split('ensures')[0])
        for size in range(3, len(params) + 1):
            for i in range(len(params) - size + 1):
                seen[tuple(params[i:i + size])] += 1
    runs = [r for r, k in seen.items() if k >= 3]
    longest = [r for r in runs if not any(len(s) > len(r) and any(s[i:i + len(r)] == r for i in range(len(s))) for s in runs)]
    return [f'{seen[r]} x {", ".join(r)}' for r in sorted(longest)]

def buffers():
    return lines_like(r'\blet (mut )?\w+: \[\w+; [^\]]+\]') + lines_like(r'-> \[\w+; [\d_]+\]')

def switches():
    return lines_like(r'\bmatch (f|which|kind|detail) \{') + lines_like(r'^\s*if (line|up|write|!write|!has|named|place\.write|!place\.write) \{')

def proofs():
    walks = sorted(glob.glob('crates/*/proofs/**/Proof.antt', recursive=True))
    sources = [p for p in glob.glob('crates/*/*/**/*.antt', recursive=True) if p.split('/')[2] != 'out']
    cited = ''.join(open(p, encoding='utf-8').read() for p in sources) + ''.join(TEXTS.values())
    idle = []
    for p in sorted(glob.glob('crates/*/proofs/*.antt')):
        if p.startswith('crates/rules/'):
            continue
        for name in re.findall(r'^ *pub (?:data |record |ruleset |abbrev )?(?:unfoldable pub )?([^\s:=]+) ', open(p, encoding='utf-8').read(), re.M):
            if name != 'mod' and len(re.findall(r'(?<![\w\'-])' + re.escape(name) + r'(?![\w\'-])', cited)) < 3:
                idle.append(f'{p}: {name}')
    return walks + idle

POINTS = {'1a': ('own enums', enums), '1b': ('flags', flags), '1c': ('numbers for kinds, details and refusals, and numbers for none', numbers),
          '2': ('twins', twins), '3': ('loops that count by hand', loops), '4': ('written by hand', by_hand),
          '5a': ('facts in three contracts or more', facts), '5b': ('parameters that travel together', together),
          '6': ('local buffers and arrays handed out', buffers), '7': ('switches on a step', switches), '8': ('walks, and lemmas that nothing cites', proofs)}

if __name__ == '__main__':
    if len(sys.argv) > 1:
        for place in POINTS[sys.argv[1]][1]():
            print(place)
    else:
        for point, (what, find) in POINTS.items():
            print(f'{point:3} {len(find()):4}  {what}')
