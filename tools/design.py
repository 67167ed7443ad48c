#!/usr/bin/env python3
"""Counts the places that docs/DESIGN-PASS.md speaks of, in the .rt files of crates/*/src (and, for point 8, the .antt files of crates/*/proofs).

    tools/design.py [--list N] [--crates] [COMMIT]

Without COMMIT the work tree is read. --list N prints the places of point N, --crates counts them by crate. A place is a place to look at, not a fault."""
import collections, re, subprocess, sys, tarfile, io, os

args = sys.argv[1:]
by_crate = '--crates' in args
if by_crate: args.remove('--crates')
listed = None
if '--list' in args:
    at = args.index('--list'); listed = args[at + 1]; del args[at:at + 2]

def read():
    if args:
        raw = subprocess.run(['git', 'archive', args[0], 'crates'], stdout=subprocess.PIPE, check=True).stdout
        tar = tarfile.open(fileobj=io.BytesIO(raw))
        return sorted((m.name, tar.extractfile(m).read().decode()) for m in tar if m.isfile() and re.search(r'\.(rt|antt)$', m.name))
    out = []
    for top, dirs, names in os.walk('crates'):
        dirs[:] = [d for d in dirs if d != 'out']
        for n in names:
            if n.endswith(('.rt', '.antt')):
                p = os.path.join(top, n); out.append((p, open(p).read()))
    return sorted(out)

every = read()
src = [(p, t) for p, t in every if p.endswith('.rt')]
places = collections.defaultdict(list)   # (point, kind) -> places

def put(point, kind, path, line, text): places[(point, kind)].append((path, line, text.strip()))

def functions(path, text):
    lines = text.split('\n')
    i = 0
    while i < len(lines):
        m = re.match(r'(\s*)(?:pub )?(?:const )?(?:extern "C" )?fn (\w+)', lines[i])
        if not m: i += 1; continue
        pad = m.group(1); j = i
        while j < len(lines) and lines[j] != pad + '{' and not lines[j].rstrip().endswith('{'): j += 1
        k = j + 1
        while k < len(lines) and lines[k] != pad + '}': k += 1
        head = ' '.join(lines[i:j + 1]); body = '\n'.join(lines[j + 1:k])
        above = []; a = i - 1
        while a >= 0 and re.match(r'\s*(//|#\[)', lines[a]): above.append(lines[a]); a -= 1
        yield dict(path=path, line=i + 1, name=m.group(2), head=head, body=body, comment=' '.join(reversed(above)))
        i = k + 1

fns = [f for p, t in src for f in functions(p, t)]

def params(f):
    m = re.search(r'fn \w+(?:<.*?>)?\((.*?)\)\s*(?:->|requires|ensures|\{|$)', f['head'])
    if not m: return []
    out, depth, cur = [], 0, ''
    for c in m.group(1):
        if c in '<([': depth += 1
        if c in '>)]': depth -= 1
        if c == ',' and depth == 0: out.append(cur); cur = ''
        else: cur += c
    out.append(cur)
    return [p.strip() for p in out if p.strip() and ':' in p]

# 1: flags with a value beside, numbers for kinds and refusals
for p, t in src:
    for m in re.finditer(r'struct (\w+)[^{;]*\{(.*?)\n\}', t, re.S):
        fields = re.findall(r'(?:pub )?(\w+): ([^,\n]+)', m.group(2))
        if len(fields) > 1:
            for n, ty in fields:
                if ty.strip() == 'bool': put('1', 'flag with values beside', p, t[:m.start()].count('\n') + 1, m.group(1) + '.' + n)
    for n, l in enumerate(t.split('\n'), 1):
        if l.lstrip().startswith('//'): continue
        if re.search(r'const \w+: u(8|32|64) = \d+;.*//', l) and 'refusals' in p: put('1', 'number of a refusal', p, n, l)
        if re.search(r'\bcoded? (!=|==) 0|\.code (!=|==) 0|checked != 0', l): put('1', 'test of a number', p, n, l)
        if re.search(r'enum \w+', l): put('1', 'own enum (to look at)', p, n, l)
for f in fns:
    if re.search(r'-> (u8|u16|u32|u64|usize|Record)\s', f['head']) and re.search(r'\bor 0\b|\b0 (if|where|for|out)\b|; 0 |, 0 |the blank|, BAD|no page where', f['comment']):
        put('1', 'a value that says none', f['path'], f['line'], f['name'])

# 2: functions of one shape
KEEP = set('if else while for loop return let mut in as true false self match fn'.split())
def shape(body):
    body = re.sub(r'//[^\n]*', '', body)
    toks = re.findall(r'\w+|[^\w\s]', body)
    return tuple(t if t in KEEP or not re.match(r'\w', t) else 'x' for t in toks)
groups = collections.defaultdict(list)
for f in fns:
    s = shape(f['body'])
    if len(s) >= 30: groups[s].append(f)
for s, g in groups.items():
    if len(g) > 1:
        for f in g:
            kind = 'function of another\'s shape' + (' (test programs)' if '/test_' in f['path'] else '')
            put('2', kind, f['path'], f['line'], f['name'] + ' ~ ' + ', '.join(h['name'] for h in g if h is not f)[:90])

# 3: loops
for p, t in src:
    for n, l in enumerate(t.split('\n'), 1):
        if re.match(r'\s*(while |loop \{)', l): put('3', 'while, loop' + (' (test programs)' if '/test_' in p else ''), p, n, l)

# 4: equality, order, copying, conversion by hand
for f in fns:
    b = re.sub(r'\s+', ' ', re.sub(r'//[^\n]*', '', f['body'])).strip()
    if re.fullmatch(r'if [\w.]+ <=? [\w.]+ \{ [^{}]* \} else \{ [^{}]* \}', b): put('4', 'choice of two numbers', f['path'], f['line'], f['name'])
    elif re.fullmatch(r'\(?[\w.]+ as \w+\)?', b): put('4', 'conversion', f['path'], f['line'], f['name'])
    elif re.search(r'if (\S+) < (\S+) \{ return true; \} if \2 < \1 \{ return false; \}', b): put('4', 'order', f['path'], f['line'], f['name'])
    elif len(re.findall(r'return false;', b)) >= 2 and 'while' not in b and 'for ' not in b: put('4', 'tests one after the other', f['path'], f['line'], f['name'])

# 5: parameters that travel together, facts in many contracts
seen = collections.defaultdict(list)
for f in fns:
    ps = params(f)
    if len(ps) >= 6: put('5', 'six parameters or more' + (' (test programs)' if '/test_' in f['path'] else ''), f['path'], f['line'], '%s/%d' % (f['name'], len(ps)))
    for a in range(len(ps) - 2): seen[tuple(re.sub(r'\s+', '', x) for x in ps[a:a + 3])].append(f)
for k, g in seen.items():
    if len(g) >= 3: put('5', 'three parameters in three functions or more', g[0]['path'], g[0]['line'], ', '.join(k) + ': %d functions' % len(g))

# 6: buffers with a length beside, parallel arrays
for f in fns:
    ps = params(f)
    for a, b in zip(ps, ps[1:]):
        if re.search(r': &mut \[', a) and re.match(r'(n|at|count|held): usize', b): put('6', 'buffer with a length beside', f['path'], f['line'], f['name'] + ': ' + a + ', ' + b)
    names = [x.split(':')[0] for x in ps]
    for a, b in (('highs', 'lows'), ('firsts', 'lasts'), ('ids', 'holders'), ('ids', 'pages')):
        if a in names and b in names: put('6', 'parallel arrays', f['path'], f['line'], f['name'] + ': ' + a + ', ' + b)
for p, t in src:
    for m in re.finditer(r'struct (\w+)[^{;]*\{(.*?)\n\}', t, re.S):
        if re.search(r'count: usize', m.group(2)) and re.search(r': \[', m.group(2)): put('6', 'array with a count in a struct', p, t[:m.start()].count('\n') + 1, m.group(1))

# 7: switches
for p, t in src:
    for n, l in enumerate(t.split('\n'), 1):
        if re.match(r'\s*if (\w*level\w*|\w+\.act) == \d+ \{', l) or re.match(r'\s*if (!?(\w+\.)?(unweighted|weighted|dated|daily|bounded)) \{', l): put('7', 'switch', p, n, l)

# 8: proofs
for p, t in every:
    if p.endswith('Answers.antt'):
        for n, l in enumerate(t.split('\n'), 1):
            if re.match(r'pub \S+ : goal\.', l): put('8', 'answer', p, n, l)
            if re.match(r'use (mathlib|lib|native|borrow|mir|Prim)\.', l): put('8', 'use of a module of the logic\'s own', p, n, l)

for (point, kind), got in sorted(places.items()):
    print('%s  %4d  %s' % (point, len(got), kind))
    if by_crate:
        for c, n in collections.Counter(g[0].split('/')[1] for g in got).most_common(): print('          %4d  %s' % (n, c))
    if listed == point:
        for path, line, text in got: print('          %s:%d: %s' % (path, line, text))
