#!/usr/bin/env python3
"""twins.py [COMMIT]: pairs of functions in crates/*/src that are alike but for names, numbers and types.

Bodies are compared as tokens, every name and number read as one: a pair is listed where at least 0.85 of the
tokens agree in order, and both bodies have 12 tokens or more. A theorem function has no body and is never listed."""
import difflib, re, subprocess, sys

commit = sys.argv[1] if len(sys.argv) > 1 else 'HEAD'
names = subprocess.run(['git', 'ls-tree', '-r', '--name-only', commit], capture_output=True, text=True, check=True).stdout.split()
TOKEN = re.compile(r'//[^\n]*|b?"[^"\n]*"|b?\'(?:[^\'\\\n]|\\.)\'|[^\W\d]\w*|\d\w*|\S')
KEEP = {'for', 'in', 'while', 'let', 'mut', 'if', 'else', 'match', 'return', 'as', 'fn', 'Some', 'None', 'Ok', 'Err', 'self', 'Self'}

def bodies(path, text):
    owner = ''
    for m in re.finditer(r'^(impl[^{]*)\{|^ *(?:pub(?:\([a-z]+\))? )?fn (\w+)', text, re.M):
        if m.group(1):
            owner = ' '.join(m.group(1).split()) + ' '
            continue
        if not m.group(0).startswith(' '):
            owner = ''
        # the body begins at the first line that is a lone brace, or at the brace that ends the line of the signature
        start = re.compile(r'^( *)\{\n|\{\n', re.M).search(text, m.end())
        semi = re.compile(r';\n').search(text, m.end())
        if not start or semi and semi.start() < start.start():
            continue
        depth, i = 1, start.end()
        while depth and i < len(text):
            depth += {'{': 1, '}': -1}.get(text[i], 0)
            i += 1
        tokens = [t for t in TOKEN.findall(text[start.end():i - 1]) if not t.startswith('//')]
        shape = [t if not re.match(r'[\w"\']', t) or t in KEEP else 'x' for t in tokens]
        yield f'{path}: {owner}{m.group(2)}', shape

found = []
for name in names:
    if re.match(r'crates/[^/]+/src/.*\.rt$', name):
        text = subprocess.run(['git', 'show', f'{commit}:{name}'], capture_output=True, text=True, check=True).stdout
        found += [b for b in bodies(name, text) if len(b[1]) >= 12]
count = 0
for i, (a, s) in enumerate(found):
    for b, t in found[i + 1:]:
        if min(len(s), len(t)) * 100 >= 85 * max(len(s), len(t)):
            alike = difflib.SequenceMatcher(None, s, t, False).ratio()
            if alike >= 0.85:
                count += 1
                print(f'{alike:.2f}  {a}  ~  {b}')
print(f'{count} pairs among {len(found)} functions')
