#!/usr/bin/env python3
"""Turns the walks of a crate's functions (Proof.antt) into Invariants.antt and Answers.antt.

usage: tools/port/turn_walks.py CRATE NAMES.json WALKS     at the top of the repository

CRATE is the crate's folder, WALKS a folder with its walks as they stood in proofs/, and NAMES.json what `rt check --generated DIR --old-names` in CRATE wrote.
The parts of a walk become invariants, measures and answers: each `.before` of a chain goes, steps, arms and goals get the names of NAMES.json, and an answer that only searches goes too.
What several answers used of a place on their way is written out in each. Places that it can't turn are marked `??`."""

import json
import re
import sys
from pathlib import Path

crate = Path(sys.argv[1]).resolve()
names = json.load(open(sys.argv[2], encoding="utf-8"))
OLD = Path(sys.argv[3])
cname = crate.name
TOK = r"[^\s(){}.;,@\"«»\[\]]+"
norm = lambda s: s.replace('-', '_')


def decls(t):
    """top-level declarations: (comment lines, sig text, body text)"""
    out, com, cur = [], [], None
    for l in t.split('\n'):
        if l.startswith('--'):
            if cur: out.append(cur); cur = None
            com.append(l)
        elif not l.strip():
            if cur: cur[1].append(l)
        elif l[0] != ' ' and not l.startswith(')'):
            head = re.match(r"(?:(?:abbrev|unfoldable|pub) )*(\S+)", l)[1] if not l.startswith('use ') else None
            if head is not None and cur and (cur[2] == head or l.startswith('unfolding')):
                cur[1].append(l)
            else:
                if cur: out.append(cur)
                cur = [com, [l], head]; com = []
        else:
            cur[1].append(l)
    if cur: out.append(cur)
    return out, com

def conv_file(p):
    rel = p.parent.relative_to(OLD)
    path = '.'.join(rel.parts)
    key = f"Rattle-{cname}-proofs.{path}.Lts"
    if key not in names:
        print('no names for', key); return
    N = names[key]
    t = p.read_text()
    ds, tail = decls(t)
    needs = {}
    for o, n in N['needs']:
        needs.setdefault(norm(o), n)
    strip = lambda x: re.sub(r'^(overflow|slice_bounds|offset_bounds|bounds|nonzero)_(?=(add|sub|mul|cast|div|rem|shl|shr|neg)_)', '', x)
    steps = {}
    for pl in N['places']:
        o, n = pl[2]
        if o: steps.setdefault(norm(o).lower(), n)
    armmap = {}
    for arm in N['arms']:
        if arm:
            for field, old, path_ in arm[2]:
                if path_: armmap.setdefault(norm(old).lower(), []).append((path_, [arm[0], field]))
    named, several = {}, {}
    for pl, cl in zip(N['places'], N['clauses']):
        if cl and len(cl['fields']) == 1 and pl[2][1]: named[pl[2][1]] = cl['fields'][0]
        if cl and len(cl['fields']) > 1 and pl[2][1]: several[pl[2][1]] = cl['fields']
    placeof = {}
    for pl, n in zip(N['places'], N['places_by_name']):
        placeof[norm(pl[0])] = n
    argsub = []
    for pair in N['args']:
        o, n = pair
        if o.startswith('.args '): argsub.append((o[5:].strip(), n[5:].strip()))

    def body(s):
        s = re.sub(r"not-(?:true|false) _ (?=\w+(?:\.before)*\.if)", '', s)
        s = re.sub(r"(?:\.before)+", "", s)
        clike = {'c'} | set(re.findall(rf"let ({TOK}) = c(?= in|$)", s, re.M))
        for _ in range(12): clike |= {x for x, y in re.findall(rf"let ({TOK}) = ({TOK})(?= in|$)", s, re.M) if y in clike}
        def chain(m):
            root, rest = m[1], m[2]
            parts = rest[1:].split('.')
            outp = []
            if root in clike and parts[0].endswith('_lem') and norm(parts[0][:-4]).lower() in steps: parts[0] = parts[0][:-4]
            if root in clike and norm(parts[0]).lower() in armmap:
                for path_, to in armmap[norm(parts[0]).lower()]:
                    if parts[1:1 + len(path_)] == path_:
                        return root + '.' + '.'.join(to + parts[1 + len(path_):])
            for i, q in enumerate(parts):
                if q == 'pre': q = 'requires'
                elif q == 'well-formed': q = 'well_formed'
                elif q == 'inv': q = 'invariant'
                if norm(q).lower() in steps and i == 0 and root in clike: q = steps[norm(q).lower()]
                outp.append(q)
            if len(outp) >= 2 and outp[0].startswith(('if-', 'loop-')) and outp[1] in ('taken', 'left'):
                outp[1] = {'taken': 'true', 'left': 'false'}[outp[1]]
            if len(outp) >= 2 and outp[0].startswith('enum_told') and outp[1] == 'given':
                v = re.search(r"-in-(\w+?)(-\d+)?$", outp[0])
                outp = ['in-' + (v[1] if v else '??'), 'is'] + outp[3:]
            if len(outp) >= 3 and outp[1] == 'ensures' and outp[0] in several and outp[2].isdigit():
                outp[2] = several[outp[0]][int(outp[2])]
            if len(outp) >= 2 and outp[1] == 'ensures' and outp[0] in named and (len(outp) < 3 or outp[2] != named[outp[0]]):
                outp.insert(2, named[outp[0]])
            return root + '.' + '.'.join(outp)
        s = re.sub(rf"(?<![\w.)])({TOK})((?:\.{TOK})+)", chain, s)
        for o, n in argsub:
            s = re.sub(re.escape(o) + r"(?![\w-])", n, s)
        # types of places
        def place(m):
            q = norm(m[1])
            return 'goal.' + placeof.get(q, '??' + m[1])
        s = re.sub(r"tie\.((?:(?:After|At|In|Untold|Start)(?:-[^\s(){},;→]+)?|Then\d+|Else\d+))(?: invariant-[^\s()]+)?(?: decreases-[^\s()]+)?", place, s)
        return s

    # helpers that only walk back
    access = []
    for _ in range(6):
        for com, ls, head in ds:
            if not head or head in access: continue
            m = re.search(rf"^{re.escape(head)} (\S+) =\s*(.*?)\s*$", '\n'.join(ls).rstrip(), re.M | re.S)
            if not m or ' tie.' not in ls[0]: continue
            b = re.sub(r"(?:\.before)+", "", m[2])
            if b == m[1] or any(b in (f"{h} {m[1]}", f"{h} ({m[1]})") for h in access): access.append(head)
    def plain(s):
        for h in access * 4:
            for _ in range(6):
                n = re.sub(rf"\((?<![\w-]){re.escape(h)} ({TOK}(?:\.{TOK})*)\)", r"\1", s)
                n = re.sub(rf"\({re.escape(h)} \(([^()]*)\)\)", r"(\1)", n)
                n = re.sub(rf"(?<![\w.-]){re.escape(h)} ((?!in\b|also\b|let\b|where\b)[A-Za-z][^\s(){{}}.;,]*(?:\.[^\s(){{}}.;,]+)*)(?![\w-])", r"\1", n)
                if n == s: break
                s = n
        return s
    header = []
    invs, answers, uses, goals = [], [], [], []
    loops = {norm(l[0][0]): (l[0][1], l[1], ch) for l, ch in zip(N['loops'], N['changed'])}
    first_comment = None
    for com, ls, head in ds:
        txt = plain('\n'.join(ls).rstrip())
        if head in access: continue
        if head is None:
            if first_comment is None: first_comment = com
            if re.search(r"\.(Statement|Tie|Reads|Lts)\b", txt) : continue
            uses.append(txt); continue
        m = re.search(r":\s+tie\.(invariant|decreases)-(\S+)", txt)
        if m:
            kind, lp = m[1], norm(m[2])
            new, vars_, ch = loops.get(lp, (None, [], []))
            eq = re.search(rf"^{re.escape(head)} ([^=]*)=\s*(.*)$", txt, re.M | re.S)
            ps, b = eq[1].split(), eq[2]
            sub = {}
            want = len(vars_) + sum(ch)
            note = '' if len(ps) == want else f"-- ?? parameters {ps} for {vars_} {ch}\n"
            i = 0
            for v, c in zip(vars_, ch):
                if i < len(ps): sub[ps[i]] = (f"l.initial.{v}" if c else f"l.{v}")
                i += 1
            for v, c in zip(vars_, ch):
                if c:
                    if i < len(ps): sub[ps[i]] = f"l.{v}"
                    i += 1
            def rep(m): return sub.get(m[0], m[0])
            b = re.sub(rf"(?<!\.)(?<![^\s(){{}}\[\],.]){TOK}", rep, b)
            unf = re.search(r"^unfolding .*$", txt, re.M)
            invs.append('\n'.join(com) + ('\n' if com else '') + note + f"abbrev pub {kind}-{new} : goal.{kind}-{new}\n" + (unf[0] + '\n' if unf else '') + f"{kind}-{new} l = {b}")
            continue
        m = re.search(r":\s+tie\.Need-(\S+)", txt)
        if m:
            q = norm(m[1])
            new = needs.get(q) or needs.get(strip(q))
            if new is None:
                for pre in ('overflow_', 'slice_bounds_', 'nonzero_', 'bounds_', 'offset_bounds_'):
                    if q.startswith(pre):
                        r = q[len(pre):]
                        new = needs.get(r) or needs.get('part_' + r)
                        if new: break
            eq = re.search(rf"^{re.escape(head)}( [^=\n]*)?=\s*(.*)$", txt, re.M | re.S)
            b = eq[2].strip(); ps = (eq[1] or '').split()
            ps = [x for x in ps if x not in ('κs',)]
            trivial = b in ('search rules', 'omega arith', 'search needs', 'refl') and not re.search(r'^unfolding ', txt, re.M)
            if trivial: continue
            unf = re.search(r"^unfolding .*$", txt, re.M)
            nm = new or ('??' + m[1])
            goals.append((nm, b))
            answers.append('\n'.join(com) + ('\n' if com else '') + f"pub {nm} : goal.{nm}\n" + (unf[0] + '\n' if unf else '') + f"{nm} {' '.join(ps)} =" + ('\n    ' if '\n' in b else ' ') + body(b))
            continue
        if re.search(r":\s+\{M : Type 1\} → statement M", txt) or 'statement M' in txt: continue
        answers.append(('helper', head, '\n'.join(com) + ('\n' if com else '') + body(txt)))
    at = {n: a[1] for (o, n), a in zip(N['needs'], N['asked_at'])}
    asked = set(at.values())
    final = []
    helpers = {}
    W = rf"(?<![^\s(){{}},;.\[])%s(?![^\s(){{}},;.\]])"
    for a in answers:
        if isinstance(a, tuple):
            if 'goal.' not in a[2]:
                continue
            m = re.match(rf"(?:--[^\n]*\n)*(?:abbrev )?{re.escape(a[1])} :\s+(?:\((\w+) : [^()]*\)|goal\.\S+|\?\?\S+)\s*→?\s*(.*?)\n(unfolding [^\n]*\n)?{re.escape(a[1])} (\w+)((?: \S+)*?) =(.*)$", a[2], re.S)
            helpers[a[1]] = dict(text=a[2], m=m, uses=[])
    def users(h):
        out = [n for n, b in goals if re.search(W % re.escape(h), b)]
        for k, v in helpers.items():
            if k != h and re.search(W % re.escape(h), v['text']): out += users(k)
        return sorted(set(out))
    single = {}
    for h, v in helpers.items():
        pl = {at.get(u) for u in users(h)}
        if len(pl) == 1 and None not in pl: single[h] = pl.pop()
        elif not v['m']: single[h] = '??'
    for _ in range(5):
        for h in list(single):
            if helpers[h]['m'] and any(k != h and k not in single and re.search(W % re.escape(k), helpers[h]['text']) for k in helpers): del single[h]
    def order(names_):
        return [h for h in helpers if h in names_]
    def closure(b):
        got = set()
        todo = [h for h in helpers if h not in single and re.search(W % re.escape(h), b)]
        while todo:
            h = todo.pop()
            if h in got: continue
            got.add(h)
            todo += [k for k in helpers if k not in single and k != h and re.search(W % re.escape(k), helpers[h]['m'][2] + ' ' + helpers[h]['m'][6])]
        return order(got)
    def called(s, hs):
        al = {'c'} | set(re.findall(rf"let ({TOK}) = c(?= in|$)", s, re.M))
        for _ in range(8): al |= {x for x, y in re.findall(rf"let ({TOK}) = ({TOK})(?= in|$)", s, re.M) if y in al}
        for h in hs:
            for x in sorted(al, key=len, reverse=True):
                n = norm(h)
                s = re.sub(rf"\({re.escape(h)} {re.escape(x)}\)", n, s)
                s = re.sub(rf"\({re.escape(h)} \({re.escape(x)}\)\)", n, s)
                s = re.sub(rf"(?<![\w.-]){re.escape(h)} \({re.escape(x)}\)", n, s)
                s = re.sub(rf"(?<![\w.-]){re.escape(h)} {re.escape(x)}(?![\w.-])", n, s)
        return s
    for a in answers:
        if isinstance(a, tuple):
            if a[1] not in helpers:
                final.append(a[2])
            elif a[1] in single:
                place = single[a[1]]
                txt = re.sub(r"goal\.((?:After|At|In|Untold|Start|Then|Else)[^\s(){},;→]*)", lambda m: 'goal.' + place if place != '??' else m[0], a[2])
                if place == '??': txt = f"-- ?? used at {[(u, at.get(u)) for u in users(a[1])]}\n" + txt
                final.append(txt)
        else:
            hs = closure(a)
            if hs:
                m = re.match(r"((?:--[^\n]*\n)*pub [^\n]*\n)(unfolding [^\n]*\n)?([^\n=]*?=)(.*)$", a, re.S)
                unf = m[2][10:].split() if m[2] else []
                lets = ''
                for h in hs:
                    hm = helpers[h]['m']
                    for u in (hm[3] or '')[10:].split():
                        if u not in unf: unf.append(u)
                    ty, bd = hm[2], hm[6]
                    v = hm[4]
                    if hm[1] and hm[1] != 'c': ty = re.sub(rf"(?<![\w.-]){hm[1]}(?![\w-])", 'c', ty)
                    if v != 'c': bd = re.sub(rf"(?<![\w.-]){v}(?![\w-])", 'c', bd)
                    if hm[5].strip(): bd = ' λ' + hm[5] + '.' + bd
                    ty = ' '.join(ty.split())
                    bd = called(bd.rstrip(), hs).strip('\n')
                    lets += f"    let {norm(h)} : {called(ty, hs)} =" + ('\n' + bd if '\n' in bd else bd) + " in\n"
                b = called(m[4], hs).strip()
                a = m[1] + (f"unfolding {' '.join(unf)}\n" if unf else '') + m[3] + '\n' + lets + '    ' + b
            final.append(a)
    answers = final
    out = crate / 'proofs' / rel
    out.mkdir(parents=True, exist_ok=True)
    words = lambda s: set(re.findall(TOK, s)) | set(re.findall(r"[^\w\s(){}.;,@\"«»\[\]]+", s))
    def imports(text):
        w = set(re.findall(TOK, text))
        res = []
        for u in uses:
            m = re.match(r"use (\S+?)\.\{([^}]*)\}", u)
            if m:
                keep = []
                for it in m[2].split(','):
                    it = it.strip()
                    nm = it.split(' as ')[-1]
                    core = nm.strip('◌')
                    if nm in w or core in w or ('◌' in nm and re.sub('◌', '', nm) in text) or (nm == '[]' and '[]' in text): keep.append(it)
                if keep: res.append(f"use {m[1]}.{{{', '.join(keep)}}}")
            else:
                m = re.match(r"use (\S+)( as (\S+))?$", u)
                nm = (m[3] or m[1].split('.')[-1]) if m else None
                if nm and nm in w: res.append(u)
        return res
    com = '\n'.join(first_comment or [])
    if invs:
        text = '\n\n'.join(invs) + '\n'
        (out / 'Invariants.antt').write_text('\n'.join([com] + imports(text) + [f"use Rattle.{cname}.proofs.{path}.Given as goal"]).strip() + '\n\n' + text)
    if answers:
        text = '\n\n'.join(answers) + '\n'
        (out / 'Answers.antt').write_text('\n'.join(([com] if not invs else []) + imports(text) + [f"use Rattle.{cname}.proofs.{path}.Goals as goal"]).strip() + '\n\n' + text)

for p in sorted((OLD).rglob('Proof.antt')):
    conv_file(p)
