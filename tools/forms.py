#!/usr/bin/env python3
"""forms.py [COMMIT]: where crates/*/src has a form that today's Rattle has a plainer one for, by the points of docs/DESIGN-PASS.md.

Without COMMIT the files as they stand. Each line is POINT, file:line, text; the last lines are counts.
"""
import collections, re, subprocess, sys

def files(commit):
    listed = ['git', 'ls-tree', '-r', '--name-only', commit, 'crates'] if commit else ['git', 'ls-files', '-co', '--exclude-standard', 'crates']
    names = subprocess.run(listed, capture_output=True, text=True, check=True).stdout.split()
    for name in names:
        if not re.search(r'/src/.*\.rt$|/proofs/.*/(Answers|Invariants)\.antt$', name):
            continue
        if commit:
            yield name, subprocess.run(['git', 'show', f'{commit}:{name}'], capture_output=True, text=True, check=True).stdout
        else:
            try:
                yield name, open(name).read()
            except FileNotFoundError:
                pass

# by line of src/: what is looked for, and what it is
LINES = {
    '1 an enum of the shape of Option or Result': r'^\s*(Due\(|Neither\b,)',
    '1 a flag or a refusal beside a value': r'^\s*(pub )?(refused|last): (u32|bool),',
    '1 a refusal as a number': r'\breturn [0-9]+;|refused: u32\b.*[,)]|refused != 0|\brefused: [0-9]+,',
    '1 a kind or a wall as a number': r'\bkind: u64|^\s*[0-9_]+ => length|kind == |\bwall: u32|wall == 0|two_bytes\(.*\) == 1',
    '3 a loop that counts by hand': r'^\s*(while|loop)\b',
    '4 a conversion written by hand': r'256 \*|% 256|65536 \*|/ 65536|b\'0\' \+|fn number\(',
    '6 an array and its count or place side by side': r'heights: &\[u64; 24\]|places: &(mut )?\[usize; 7\]|heights: \[u64; 24\]',
    '7 a match on what is asked': r'match asked',
}

def clauses(text):
    """(line of the function, conjunct) of each requires and ensures."""
    name = None
    for number, line in enumerate(text.split('\n'), 1):
        if re.match(r'\s*(?:pub(?:\(crate\))? )?(?:extern "C" )?fn \w+', line):
            name = number
        c = re.match(r'\s*(?:requires|ensures)[ \w]*\{ (.*) \}\s*$', line)
        if c:
            for part in re.split(r' × ', c.group(1)):
                yield name, part.strip().strip('()')

def main():
    commit = sys.argv[1] if len(sys.argv) > 1 else None
    count, facts, params, answers = collections.Counter(), collections.defaultdict(set), collections.defaultdict(set), [0, 0]
    for name, text in files(commit):
        if name.endswith('/Answers.antt') or name.endswith('/Invariants.antt'):
            answers[0] += 1
            answers[1] += text.count('\n')
        if not re.match(r'crates/\w+/src/.*\.rt$', name):
            continue
        for number, line in enumerate(text.split('\n'), 1):
            if line.lstrip().startswith('//'):
                continue
            for form, pattern in LINES.items():
                if re.search(pattern, line):
                    count[form] += 1
                    print(f'{form[0]}  {name}:{number}: {line.strip()}')
        for function, fact in clauses(text):
            facts[fact].add(f'{name}:{function}')
        for f in re.finditer(r'fn (\w+)(?:<[^>]*>)?\(([^)]*)\)', text):
            names = [p.split(':')[0].strip() for p in f.group(2).split(',') if ':' in p]
            for i, a in enumerate(names):
                for b in names[i + 1:]:
                    params[(a, b)].add(f'{name}:{f.start()}')
    for fact, where in sorted(facts.items(), key=lambda x: -len(x[1])):
        if len(where) >= 3:
            count['5 a fact in three contracts or more'] += 1
            print(f'5  {len(where)} times: {fact}')
    for pair, where in sorted(params.items(), key=lambda x: -len(x[1])):
        if len(where) >= 3:
            count['5 two parameters that travel together in three functions or more'] += 1
            print(f'5  {len(where)} functions: {pair[0]}, {pair[1]}')
    for form in sorted(count):
        print(f'{count[form]:4}  {form}')
    print(f'{answers[0]:4}  8 files of answers and invariants, {answers[1]} lines')

main()
