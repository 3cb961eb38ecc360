#!/usr/bin/env python3
"""The page of `rvsuite report`, written again: from what `validate`, `generate`, `reference` and
`coverage` say and from the files that a run left.

usage: page.py RVSUITE ISA DEVICE WORK [--log FILE].. -- CGF [CGF]..  > report.html

It calls `validate`, `generate` (into a folder of its own) and, with logs, `coverage`, and reads of WORK the three
files of each test: its text and both signatures. Each function below is one definition of the page's text: what
is put together here by + is `++` there, and nothing else goes in: no time, no name of a file, no name of a machine.
"""
import os, re, subprocess, sys, tempfile

# ---------------------------------------------------------------- what is found (in Rattle: the inputs, as checked)
class Label:
    def __init__(self, name, selected): self.name, self.selected = name, selected; self.points = []; self.skipped = []; self.steps = None
    def cases(self): return [(k, kind, key) for (k, kind, key) in self.points if k is not None]
    def unsolved(self): return [p for p in self.points if p[0] is None]

def read_listing(text):
    labels = []
    for line in text.splitlines():
        word, _, rest = line.partition(" ")
        if word == "label":
            labels.append(Label(rest[:-len(" unselected")], False) if rest.endswith(" unselected") else Label(rest, True))
        elif word == "case":
            k, kind, key = rest.split(" ", 2); labels[-1].points.append((int(k), kind, key))
        elif word == "unsolved":
            kind, key = rest.split(" ", 1); labels[-1].points.append((None, kind, key))
        elif word == "skipped":
            node, key = rest.split(" ", 1); labels[-1].skipped.append((node, key))
        elif word == "steps": labels[-1].steps = int(rest)
    return labels

def read_counts(text):
    """per label name: list of counts in the order of the points; and the number of instructions"""
    counts, instructions, name = {}, 0, None
    for line in text.splitlines():
        word, _, rest = line.partition(" ")
        if word == "instructions": instructions = int(rest)
        elif word == "label": name = rest.rsplit(" hit ", 1)[0]; counts[name] = []
        elif word.isdigit(): counts[name].append(int(word))
    return counts, instructions

def words_of(data):
    """the words of a signature file, or the first line that is none"""
    if data == b"": return []
    lines = data.split(b"\n")
    if lines[-1] == b"": lines.pop()
    out = []
    for n, line in enumerate(lines, 1):
        if line.endswith(b"\r"): line = line[:-1]
        if len(line) != 8 or any(c not in b"0123456789abcdefABCDEF" for c in line): return n
        out.append(line.decode().lower())
    return out

def slurp(path):
    try:
        with open(path, "rb") as f: return f.read()
    except FileNotFoundError: return None

# the state of a test: ("unrun",), ("other",), ("pass", n), ("none",), ("long",), ("bad", line), ("lengths", n, m), ("differs", [k..], words, words)
def state_of(text, reference, left_text, left_reference, left_device):
    if left_text is None: return ("unrun",)
    if left_text != text: return ("other",)
    if left_reference is None: return ("unrun",)
    if left_reference != reference: return ("other",)
    words = words_of(reference)
    if left_device is None or (left_device == b"" and words): return ("none",)
    if len(left_device) > 2621440: return ("long",)
    got = words_of(left_device)
    if isinstance(got, int): return ("bad", got)
    if len(got) > 262144: return ("long",)
    if len(got) != len(words): return ("lengths", len(got), len(words))
    at = [k for k in range(len(words)) if got[k] != words[k]]
    if not at: return ("pass", len(words))
    return ("differs", at, got, words)

def lines_at(text, k, n):
    """the n lines behind the symbol of a case"""
    lines = text.decode().splitlines()
    at = lines.index("case_%d:" % k)
    return [l.strip() for l in lines[at + 1 : at + 1 + n]]

# ---------------------------------------------------------------- the text
def esc(text):
    """the one function that every name, key and line goes through"""
    out = ""
    for c in text:
        if c == "&": out += "&amp;"
        elif c == "<": out += "&lt;"
        elif c == ">": out += "&gt;"
        elif c == '"': out += "&quot;"
        elif ord(c) < 32 or ord(c) == 127: out += "&#%03d;" % ord(c)
        else: out += c
    return out

def style():
    """the style, as crates/rvs_page/specs/Style.antt has it"""
    here = os.path.dirname(os.path.abspath(__file__))
    text = open(os.path.join(here, "../crates/rvs_page/specs/Style.antt")).read()
    return "".join(line + "\n" for line in re.findall(r'codes "(.*)\\n"', text))

STYLE = style()

def head(title):
    return ('<!DOCTYPE html>\n<html lang="en">\n<head>\n<meta charset="utf-8">\n'
            '<meta name="viewport" content="width=device-width, initial-scale=1">\n'
            '<meta name="color-scheme" content="light dark">\n'
            '<title>' + title + '</title>\n<style>\n' + STYLE + '</style>\n</head>\n<body>\n<main>\n')

def bar(name, parts):
    """parts: (class, number, word); a part of 0 has no width"""
    said = ", ".join("%d %s" % (n, word) for (_, n, word) in parts)
    return ('<span class="bar" role="img" aria-label="' + name + ": " + said + '">'
            + "".join('<i class="%s" style="flex-grow:%d"></i>' % (c, n) for (c, n, _) in parts if n) + '</span>')

BADGE = {"pass": ("ok", "PASS"), "unrun": ("no", "not run"), "other": ("no", "other test")}
def badge(state):
    c, word = BADGE.get(state[0], ("bad", "FAIL"))
    return '<b class="' + c + '">' + word + '</b>'

def said_of(state):
    """what is said of a test beside its badge"""
    if state[0] == "pass": return "%d words" % state[1]
    if state[0] == "none": return "no signature"
    if state[0] == "long": return "signature too long"
    if state[0] == "bad": return "bad signature line %d" % state[1]
    if state[0] == "lengths": return "lengths %d and %d" % (state[1], state[2])
    if state[0] == "differs":
        at, got, words = state[1:]
        cases = sorted({k // 2 for k in at})
        return ("word %d is <code>%s</code> and <code>%s</code>; %d of %d words and %d of %d cases differ"
                % (at[0], got[at[0]], words[at[0]], len(at), len(words), len(cases), len(words) // 2))
    if state[0] == "other": return "its files are of another test"
    return ""

def tile(number, word, c=""):
    return '<div' + (' class="' + c + '"' if c else '') + '><strong>%d</strong><span>%s</span></div>' % (number, word)

TABLE = ('<div class="wide"><table>\n<thead><tr><th class="n">case</th><th>kind</th><th>point</th><th>instruction</th><th>core</th><th>reference</th></tr></thead>\n<tbody>\n')
SHOWN = 8   # so many cases of a test are shown at once, and the rest is folded

def differing_row(label, state, text, k):
    at, got, words = state[1:]
    kind, key = {k: (kind, key) for (k, kind, key) in label.cases()}[k]
    places = len(key.split("::")[0].split(":")) if kind == "cross_comb" else 1
    code = "\n".join(lines_at(text, k, places))
    cell = lambda i: ('<code class="bad">' + got[i] + '</code>' if got[i] != words[i] else '<code>' + got[i] + '</code>')
    return ('<tr><td class="n">%d</td><td>%s</td><td class="key">%s</td><td class="key">%s</td><td>%s %s</td><td><code>%s</code> <code>%s</code></td></tr>\n'
            % (k, kind, esc(key), esc(code), cell(2 * k), cell(2 * k + 1), words[2 * k], words[2 * k + 1]))

def differing(label, state, text):
    cases = sorted({w // 2 for w in state[1]})
    rows = [differing_row(label, state, text, k) for k in cases]
    out = TABLE + "".join(rows[:SHOWN]) + '</tbody>\n</table></div>\n'
    if len(rows) > SHOWN:
        out += '<details>\n<summary>%d more cases</summary>\n' % (len(rows) - SHOWN) + TABLE + "".join(rows[SHOWN:]) + '</tbody>\n</table></div>\n</details>\n'
    return out

def page(core, device, labels, states, texts, counts, instructions):
    tests = [i for i, l in enumerate(labels) if l.steps is not None]
    num = lambda *names: sum(1 for i in tests if states[i][0] in names)
    passed = num("pass"); unrun = num("unrun", "other"); failed = len(tests) - passed - unrun
    solved = sum(len(l.cases()) for l in labels if l.selected)
    unsolved = sum(len(l.unsolved()) for l in labels if l.selected)
    skipped = sum(len(l.skipped) for l in labels if l.selected)
    word, c = ("FAIL", "bad") if failed else ("INCOMPLETE", "no") if unrun else ("PASS", "ok")
    out = head("rvsuite: " + word + ", " + esc(device) + ", " + esc(core["isa"]))
    out += ('<header>\n<p class="verdict ' + c + '">' + word + '</p>\n<div>\n<h1>' + esc(device) + '</h1>\n<p>'
            + esc(core["isa"]) + ', misaligned data ' + core["misaligned"] + ', ' + core["address_bits"] + ' address bits, misa '
            + core["misa"] + '</p>\n</div>\n</header>\n')
    out += '<section class="tiles">\n' + "\n".join([tile(len(tests), "tests"), tile(passed, "pass", "ok"), tile(failed, "fail", "bad" if failed else ""),
            tile(unrun, "not run", "no" if unrun else ""), tile(solved, "points tested"), tile(unsolved, "unsolved"), tile(skipped, "skipped")])
    if counts is not None:
        hit = sum(1 for l in labels if l.selected for n in counts[l.name] if n)
        out += "\n" + "\n".join([tile(instructions, "instructions"), tile(hit, "points hit")])
    out += '\n</section>\n'
    # failures
    if failed:
        out += '<section>\n<h2>Failures</h2>\n'
        for i in tests:
            if states[i][0] in ("pass", "unrun", "other"): continue
            out += ('<article class="fail">\n<h3>' + badge(states[i]) + ' <a href="#l-%s">%s</a></h3>\n<p>%s</p>\n' % (esc(labels[i].name), esc(labels[i].name), said_of(states[i])))
            if states[i][0] == "differs":
                out += differing(labels[i], states[i], texts[i])
            out += '</article>\n'
        out += '</section>\n'
    # labels
    out += ('<section>\n<h2>Labels</h2>\n<p class="legend"><i class="s"></i> tested <i class="u"></i> unsolved <i class="k"></i> skipped'
            + (' <i class="h"></i> hit in the logs <i class="m"></i> not hit' if counts is not None else '') + '</p>\n'
            '<div class="wide"><table>\n<thead><tr><th>label</th><th>verdict</th><th>detail</th><th>points</th><th class="n">tested</th>'
            + ('<th>coverage</th><th class="n">hit</th>' if counts is not None else '') + '</tr></thead>\n<tbody>\n')
    for i, l in enumerate(labels):
        if not l.selected:
            out += '<tr class="off"><td>%s</td><td colspan="%d">unselected</td></tr>\n' % (esc(l.name), 4 if counts is None else 6)
            continue
        s, u, k = len(l.cases()), len(l.unsolved()), len(l.skipped)
        verdict = badge(states[i]) if l.steps is not None else '<b class="no">no test</b>'
        note = said_of(states[i]) if l.steps is not None and states[i][0] != "differs" else ("%d of %d cases differ" % (len({w // 2 for w in states[i][1]}), len(states[i][3]) // 2) if l.steps is not None else "")
        out += ('<tr><td><a href="#l-%s">%s</a></td><td>%s</td><td>%s</td><td class="share">%s</td><td class="n">%d of %d</td>'
                % (esc(l.name), esc(l.name), verdict, note, bar("points", [("s", s, "tested"), ("u", u, "unsolved"), ("k", k, "skipped")]), s, s + u))
        if counts is not None:
            h = sum(1 for n in counts[l.name] if n)
            out += '<td class="share">%s</td><td class="n">%d of %d</td>' % (bar("coverage", [("h", h, "hit"), ("m", s + u - h, "not hit")]), h, s + u)
        out += '</tr>\n'
    out += '</tbody>\n</table></div>\n</section>\n'
    # points
    out += '<section>\n<h2>Points</h2>\n'
    for i, l in enumerate(labels):
        if not l.selected: continue
        bad = {w // 2 for w in states[i][1]} if l.steps is not None and states[i][0] == "differs" else set()
        out += ('<details id="l-%s">\n<summary>%s <small>%d tested, %d unsolved, %d skipped</small></summary>\n<table class="points">\n<thead><tr><th>case</th><th>kind</th><th>point</th>%s</tr></thead>\n<tbody>\n'
                % (esc(l.name), esc(l.name), len(l.cases()), len(l.unsolved()), len(l.skipped), '<th class="n">hits</th>' if counts is not None else ''))
        for at, (k, kind, key) in enumerate(l.points):
            row = '<tr class="bad">' if k in bad else '<tr class="u">' if k is None else '<tr>'
            out += row + '<td>' + ('unsolved' if k is None else 'case %d' % k) + '</td><td>' + kind + '</td><td class="key">' + esc(key) + '</td>'
            if counts is not None: out += '<td class="n">%d</td>' % counts[l.name][at]
            out += '</tr>\n'
        for node, key in l.skipped:
            out += '<tr class="k"><td>skipped</td><td>' + esc(node) + '</td><td class="key">' + esc(key) + '</td>' + ('<td></td>' if counts is not None else '') + '</tr>\n'
        out += '</tbody>\n</table>\n</details>\n'
    out += '</section>\n</main>\n</body>\n</html>\n'
    return out

def main():
    a = sys.argv[1:]; cut = a.index("--"); cgf = a[cut + 1:]; a = a[:cut]
    rvsuite, isa, device, work = a[:4]; logs = [a[i + 1] for i in range(4, len(a), 2)]
    run = lambda *w: subprocess.run([rvsuite, *w], stdout=subprocess.PIPE, check=True).stdout.decode()
    core = dict(l.split(" ", 1) for l in run("validate", "--isa", isa).splitlines() if not l.startswith("unread"))
    groups = [w for f in cgf for w in ("--cgf", f)]
    with tempfile.TemporaryDirectory() as own:
        labels = read_listing(run("generate", "--isa", isa, *groups, "--work", own))
        states, texts = {}, {}
        for i, l in enumerate(labels):
            if l.steps is None: continue
            text = slurp(os.path.join(own, l.name + ".S")); texts[i] = text
            run("reference", "--isa", isa, "--test", os.path.join(own, l.name + ".S"), "--signature", os.path.join(own, l.name + ".sig"))
            states[i] = state_of(text, slurp(os.path.join(own, l.name + ".sig")), slurp(os.path.join(work, l.name + ".S")),
                                 slurp(os.path.join(work, l.name + ".reference.sig")), slurp(os.path.join(work, l.name + ".device.sig")))
    counts = instructions = None
    if logs:
        counts, instructions = {}, 0
        for log in logs:   # several logs: each by itself, added up
            c, n = read_counts(run("coverage", "--isa", isa, *groups, "--log", log)); instructions += n
            for name, ns in c.items(): counts[name] = [x + y for x, y in zip(counts.get(name, [0] * len(ns)), ns)]
    name = next(l.split(":", 1)[1].strip().strip("'") for l in open(device) if l.startswith("name:"))
    sys.stdout.write(page(core, name, labels, states, texts, counts, instructions))
main()
