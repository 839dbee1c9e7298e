#!/usr/bin/env python3
"""Writes the second half of docs/CONTRACTS.md from the sources and the must-fail edits: every public function with its comment, the definitions
that its contract cites and the wrong programs that try it. `contracts.py --check` changes nothing and fails where the page is not up to date."""
import glob, os, re, sys

ROOT = os.path.dirname(os.path.dirname(os.path.abspath(__file__)))
PAGE = ROOT + "/docs/CONTRACTS.md"
MARK = "<!-- made by contracts.py from here on -->\n"
SUPPORT = {"scripts", "trials", "matrices", "piles", "swaps", "plain_days"}  # of the test programs: they promise nothing but to be safe and to end


def read(path):
    with open(path, encoding="utf-8") as f:
        return f.read()


def items(text):
    """The functions of a source file: name, public, comment, signature, ensures, body."""
    for chunk in re.split(r"\n\s*\n(?=//|#\[|pub |fn |struct |enum |const |type )", text):
        m = re.search(r'(?m)^(pub )?(extern "C" )?fn (\w+)', chunk)
        if not m:
            continue
        comment = " ".join(l[3:] for l in chunk[:m.start()].split("\n") if l.startswith("// "))
        rest = chunk[m.start():]
        head, _, body = rest.partition("\n{")
        signature = re.split(r"\n    (?:requires|ensures|decreases)", head)[0]
        yield m.group(3), bool(m.group(1)), comment, " ".join(signature.replace(",\n)", ")").split()).replace("( ", "("), head, body


def cited(text, head):
    """The definitions that an ensures names, each with its file."""
    ensures = " ".join(re.findall(r"ensures ?\w* \{(.*?)\}(?=\n|$)", head, re.S))
    found = []
    for crate, module, names in re.findall(r"ghost use Rattle\.(\w+)\.specs\.(\w+)\.\{(.*?)\};", text):
        for name in (n.strip().split(" as ")[-1] for n in names.split(",") if crate != "std"):
            if re.search(r"(?<![\w-])" + re.escape(name) + r"(?![\w-])", ensures):
                found.append(f"`{crate}/specs/{module}.antt`: `{name}`")
    for crate, module, alias in re.findall(r"ghost use Rattle\.(\w+)\.specs\.(\w+) as (\w+);", text):
        if crate == "std":
            continue
        for name in sorted(set(re.findall(r"(?<![\w.])" + alias + r"\.([\w-]+)", ensures))):
            found.append(f"`{crate}/specs/{module}.antt`: `{name}`")
    merged = {}
    for f in found:
        where, name = f.split(": ")
        merged.setdefault(where, []).append(name)
    return "; ".join(f"{w}: {', '.join(dict.fromkeys(n))}" for w, n in merged.items())


def edits(crate, functions):
    """Each wrong program with what it edits: a function, or a file of definitions."""
    for path in sorted(glob.glob(f"{ROOT}/crates/{crate}/must-fail/*.edit")):
        lines = read(path).split("\n")
        what = " ".join(l[2:] for l in lines if l.startswith("# "))
        file = [l[6:] for l in lines if l.startswith("file: ")][0]
        spot = file
        if file.startswith("src/"):
            for old in (l[5:] for l in lines if l.startswith("old: ")):
                hits = [n for n, text in functions.items() if old in text]
                if hits:
                    spot = hits[0]
                    break
        yield os.path.basename(path)[:-5], what, spot


def callers(name, texts, public):
    """The public functions that reach a private one."""
    seen, todo = set(), [name]
    while todo:
        f = todo.pop()
        for g, text in texts.items():
            if g not in seen and g != f and re.search(r"(?<![\w:.])" + f + r"\(", text.partition("\n{")[2]):
                seen.add(g)
                todo.append(g)
    return [g for g in texts if g in seen and public[g]]


def page():
    out = []
    for line in read(ROOT + "/crates.txt").split("\n"):
        crate = line.split(":")[0].split(" ")[0].strip()
        if ":" not in line or line.startswith("#") or crate in SUPPORT or os.path.exists(f"{ROOT}/crates/{crate}/src/main.rt"):
            continue
        files = sorted(glob.glob(f"{ROOT}/crates/{crate}/src/*.rt"))
        source = "\n\n".join(read(f) for f in files)
        fns = list(items(source))
        texts = {n: h + "\n{" + b for n, p, c, s, h, b in fns}
        public = {n: p for n, p, c, s, h, b in fns}
        tried = {}
        for label, what, spot in edits(crate, texts):
            spots = [spot] if public.get(spot, True) else (callers(spot, texts, public) or [spot])
            note = f" (also {', '.join('`' + s + '`' for s in spots[1:])})" if spots[1:] else ""
            tried.setdefault(spots[0], []).append(f"- `{label}`{note}: {what}")
        if not (fns or tried):
            continue
        heading = " ".join(l[3:] for l in source.split("\n\n")[0].split("\n") if l.startswith("// "))
        out.append(f"## {crate}\n\n{heading}\n")
        for n, p, c, s, h, b in fns:
            if p:
                where = cited(source, h)
                inner = "*Inner: it has a `requires`.* " if "\n    requires " in h else ""
                out.append(f"`{s}`\n\n{inner}{c}" + (f" → {where}" if where else "") + "\n" + "".join(t + "\n" for t in tried.pop(n, [])))
        for spot, lines in tried.items():
            out.append(f"Edits of `{spot}`:\n\n" + "\n".join(lines) + "\n")
    return "\n".join(out)


def main():
    text = read(PAGE)
    new = text.partition(MARK)[0] + MARK + "\n" + page()
    if "--check" in sys.argv:
        sys.exit(0 if new == text else "docs/CONTRACTS.md is not up to date: run docs/contracts.py")
    with open(PAGE, "w", encoding="utf-8") as f:
        f.write(new)


main()
