#!/usr/bin/env python3
"""laws.py COMMIT [NEW]: the laws of crates/*/proofs that are open to other files (pub), in the checkout NEW (this one, if none is named)
beside those at COMMIT: how many are the same, each that changed, old and new, and the names of those that are gone. Answers and invariants
of single functions are left out. A law keeps its name in its crate; where the file is another, both are named."""
import glob, os, re, subprocess, sys, tempfile

commit = sys.argv[1]
new_root = sys.argv[2] if len(sys.argv) > 2 else os.path.join(os.path.dirname(os.path.abspath(__file__)), '..')
OPEN = re.compile(r'^( *)(?:abbrev |unfoldable )?pub (?:abbrev |unfoldable |record |data |ruleset )?([^\s:({=]+)(.*)$')


def laws(root):
    """(crate, name) -> [(file, statement)]"""
    found = {}
    for path in sorted(glob.glob(os.path.join(root, 'crates/*/proofs/*.antt'))):
        crate, file = path.split('/')[-3], os.path.basename(path)[:-5]
        lines = open(path, encoding='utf-8').read().split('\n')
        for n, line in enumerate(lines):
            m = OPEN.match(line)
            if not m or m.group(2) in ('mod', 'use'):
                continue
            indent, name, text = m.groups()
            part = [text.strip()]
            for more in lines[n + 1:]:
                word = more.strip().split(' ')[0] if more.strip() else ''
                if not more.strip() or word in (name, 'unfolding', '--') or len(more) - len(more.lstrip()) <= len(indent):
                    break
                part.append(more.strip())
            found.setdefault((crate, name), []).append((file, re.sub(r'\s+', ' ', ' '.join(part)).lstrip(': ')))
    return found


with tempfile.TemporaryDirectory() as folder:
    archive = subprocess.run(['git', 'archive', commit, 'crates'], cwd=new_root, stdout=subprocess.PIPE, check=True).stdout
    subprocess.run(['tar', '-x', '-C', folder], input=archive, check=True)
    old, new = laws(folder), laws(new_root)

names = {}
for crate, name in new:
    names.setdefault(name, set()).add(crate)
same, changed, moved, gone = 0, [], [], {}
for (crate, name), was in sorted(old.items()):
    if (crate, name) not in new:
        others = [c for c in sorted(names.get(name, ())) if sorted(s for _, s in new[c, name]) == sorted(s for _, s in was)]
        if others:
            moved.append((crate, others[0], name))
        else:
            for file in dict.fromkeys(f for f, _ in was):
                gone.setdefault((crate, file), []).append(name)
    else:
        now = new[crate, name]
        same += sum(1 for _, s in was if s in [t for _, t in now])
        less = [(f, s) for f, s in was if s not in [t for _, t in now]]
        more = [(f, s) for f, s in now if s not in [t for _, t in was]]
        if less:
            changed.append((crate, name, less, more))
total = lambda laws: sum(map(len, laws.values()))
fresh = total({k: v for k, v in new.items() if k not in old and not any(k[1] == m[2] and k[0] == m[1] for m in moved)})
print('laws open to other files: %d -> %d; the same %d, changed %d, moved to another crate %d, gone %d, new %d' % (
    total(old), total(new), same, len(changed), len(moved), sum(map(len, gone.values())), fresh))
for crate, to, name in moved:
    print('law, moved: %s -> %s %s' % (crate, to, name))
for crate, name, less, more in changed:
    print('law, changed: %s %s' % (crate, name))
    for sign, part in (('-', less), ('+', more)):
        for file, statement in part:
            print('    %s [%s] %s' % (sign, file, statement))
for (crate, file), lost in sorted(gone.items()):
    print('laws, gone: %s/proofs/%s: %s' % (crate, file, ', '.join(sorted(lost))))
