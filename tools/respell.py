#!/usr/bin/env python3
"""Spells the repository's own definitions and lemmas as the toolchain's library does.

usage: tools/respell.py [--list] [FOLDER]

It is for a tree that the toolchain's port.py has turned, and ran once, right after it. In specs/ and proofs/ and in the clauses of src/ a name
of this repository that begins with a small letter is in snake case: `nearest-root` and `nearestRoot` become `nearest_root`. Names of the
toolchain's library, of the goals and steps that the toolchain makes, of Rust functions and of exported C functions stay.

A name stays that a file imports from a library, that stands behind the name of a library's module, or, behind a dot, that this
repository does not declare. A name whose new spelling would meet another name of the same file stands in APART with the spelling that it gets; a lemma gets `_lem`.
In a comment and in pages a name turns behind the name of one of our modules or in code quotes.

--list prints what would turn, and the names that would fall together, and writes nothing. The last line counts these; the exit status is 1 if there are any.
"""
import collections
import pathlib
import re
import sys

WORD = re.compile(r"[^\s(){}.;,@\"«»\[\]\\`]+")
OLD = re.compile(r"^[a-z](?=\w*[A-Z]|.*-)[\w'-]*$")
# Where one spelling would stand for two names, the spelling that one of them gets: in all files, and in the files whose path ends so.
APART = {
    name: name.replace("-", "_") + "_lem"
    for name in (
        "kinds-a kinds-b kinds-row stepped-at list-refusal put-fields is-nan root-units line-length answer-length exact-of first-of has-direction"
        " recip-other with-length length-squared length-recip distance-squared"
    ).split()
} | {"leading-zero": "leading_zero_ill", "line-feed": "at_line_feed"}
APART_IN = {
    "commands/proofs/LateLaws.antt": {"in_order": "in_order_lem"},
    "lines/proofs/columns/CommandLineLaws.antt": {"is_read": "is_read_lem"},
    "lines/proofs/command_line/fields/Proof.antt": {"is_read": "is_read_lem"},
    "sheet/proofs/ring/TakeBackLaws.antt": {"taken_back": "taken_back_lem"},
    "sheet/proofs/LentLaws.antt": {"taken_back": "taken_back_lem"},
    "vector/proofs/units/NonZeroLaws.antt": {"non_zero": "non_zero_lem"},
    "vector/proofs/units/AssertedLaws.antt": {"non_zero": "non_zero_lem"},
}
# A function's old proof: what stands behind a dot there is a step that the toolchain names.
WALK = re.compile(r"/Proof\.antt$")
USE = re.compile(r"(?m)^(?:ghost |pub )*use +([^\s;{]+?)(?:\.?\{([^}]*)\})?(?: as ([^\s;]+))?;?$")
DECLARED = re.compile(r"(?m)^ *(?:(?:pub|abbrev|unfoldable|record|data|syntax|ruleset) +)*([a-z][^\s(){}.;,]*)(?: \{[^{}\n]*\})*(?: [a-z][^\s(){}.;,]*)* :(?= )")
# Names of goals and of loops in a function's old proof.
MADE = re.compile(r"(?:returns|loop|needs)(?:-|$)")


def snake(name):
    """The new spelling of a name."""
    return APART.get(name) or plain(name)


def plain(name):
    return re.sub(r"(?<=[a-z0-9])([A-Z])", lambda m: "_" + m[1], name).replace("-", "_").lower()


def is_old(name):
    return OLD.match(name) is not None and not MADE.match(name)


def code_and_comments(text, mark):
    """The pieces of a text, each with whether it is code."""
    for line in text.splitlines(keepends=True):
        at = re.search(rf"(?:^|(?<=\s)){mark}(?=\s|$)", line)
        if at:
            yield line[: at.start()], True
            yield line[at.start() :], False
        else:
            yield line, True


class Texts:
    """The texts of a tree: what they declare, and what they become."""

    def __init__(self, top):
        self.top = top
        self.crates = {p.name for p in (top / "crates").iterdir() if p.is_dir()}
        self.files = {
            p: p.read_text()
            for p in sorted((top / "crates").rglob("*"))
            if p.suffix in (".antt", ".rt") and "out" not in p.relative_to(top).parts
        }
        self.own, self.all = set(), set()
        for path, text in self.files.items():
            if path.suffix == ".antt":
                bare = "".join(piece for piece, is_code in code_and_comments(text, "--") if is_code)
                self.all |= set(DECLARED.findall(bare))
                for line in bare.splitlines():
                    at = re.match(r" *(?:pub )?(\S+(?: \S+)*?) : ", line)
                    if at:
                        self.all |= set(at[1].split())
        self.own = {name for name in self.all if is_old(name)}
        self.together = []

    def is_ours(self, module):
        parts = module.split(".")
        return len(parts) > 1 and parts[0] == "Rattle" and parts[1] in self.crates

    def foreign(self, text):
        """The names that a file has from a library, and the names of modules of libraries."""
        names, modules, ours = set(), set(), set()
        for module, listed, alias in USE.findall(text):
            head = alias or module.split(".")[-1]
            (ours if self.is_ours(module) else modules).add(head)
            if listed and not self.is_ours(module):
                for one in listed.split(","):
                    one = one.strip()
                    names |= {one.split(" as ")[0], one.split(" as ")[-1]}
        return names, modules, ours

    def turned(self, path):
        text = self.files[path]
        names, modules, ours = self.foreign(text)
        is_walk = bool(WALK.search(str(path)))
        apart = next((a for end, a in APART_IN.items() if str(path).endswith(end)), {})
        seen = collections.defaultdict(set)

        def one(name, before, after):
            """The new spelling of a name between the texts before and after it."""
            if name in apart:
                return apart[name]
            is_label = name in self.own and re.search(r"(?:^|[{;]) *$", before) and re.match(r" = ", after)
            if not is_old(name) or (name in names and not is_label):
                return name
            head = re.search(r"([^\s(){}.;,@\"«»\[\]\\`]+)\.$", before)
            behind_dot = before.endswith(".")
            if behind_dot:
                if head and head[1] in modules:
                    return name
                if not (head and head[1] in ours) and name not in self.own:
                    return name
            if is_walk and name not in self.own:
                return name
            return plain(name) if is_walk and behind_dot else snake(name)

        def code(piece):
            out, at = [], 0
            for m in WORD.finditer(piece):
                out.append(piece[at : m.start()])
                new = one(m[0], piece[: m.start()], piece[m.end() :])
                seen[new].add(m[0])
                out.append(new)
                at = m.end()
            return "".join(out) + piece[at:]

        def use_line(line):
            """A 'use' of ours has names of ours; that of a library stays."""
            m = USE.match(line.rstrip("\n"))
            if not m:
                return None
            if not self.is_ours(m[1]):
                return line

            def name_of(x):
                return apart.get(x) or (snake(x) if is_old(x) else x)

            def listed(one_of):
                return ", ".join(" as ".join(name_of(x) for x in item.strip().split(" as ")) for item in one_of.split(","))

            for item in (m[2] or "").split(","):
                for x in item.strip().split(" as "):
                    if x:
                        seen[name_of(x)].add(x)
            return line if m[2] is None else line.replace("{" + m[2] + "}", "{" + listed(m[2]) + "}")

        if path.suffix == ".antt":
            parts = []
            for piece, is_code in code_and_comments(text, "--"):
                parts.append((use_line(piece) or code(piece)) if is_code else self.prose(piece))
            new = "".join(parts)
        else:
            parts, depth = [], 0
            for piece, is_code in code_and_comments(text, "//"):
                if not is_code:
                    parts.append(self.prose(piece))
                    continue
                used = use_line(piece)
                if used is not None:
                    parts.append(used)
                    continue
                if depth == 0:
                    at = re.search(r"\b(?:requires|ensures)\*? *(?:\w+ *)?\{|\bghost \w+: *\{", piece)
                    if not at:
                        parts.append(piece)
                        continue
                    parts.append(piece[: at.end()])
                    piece, depth = piece[at.end() :], 1
                end = 0
                for k, ch in enumerate(piece):
                    depth += (ch == "{") - (ch == "}")
                    if depth == 0:
                        end = k
                        break
                else:
                    end = len(piece)
                parts.append(code(piece[:end]) + piece[end:])
            new = "".join(parts)
        for spelling, olds in seen.items():
            if len(olds) > 1 and not is_walk:
                self.together.append(f"{path.relative_to(self.top)}: {spelling}: {', '.join(sorted(olds))}")
        return new

    def in_prose(self, name):
        """A name's spelling in a comment or a page: also of those that port.py has turned where they are declared."""
        return snake(name) if name in self.own or (is_old(name) and snake(name) in self.all) else name

    def prose(self, text):
        text = re.sub(r"\b([A-Z]\w+)\.([a-z][\w'-]*\w)", lambda m: f"{m[1]}.{self.in_prose(m[2])}", text)
        return re.sub(r"`([^`\n]*)`", lambda m: "`" + WORD.sub(lambda w: self.in_prose(w[0]), m[1]) + "`", text)


def main():
    words = [w for w in sys.argv[1:] if w != "--list"]
    top = pathlib.Path(words[0] if words else ".").resolve()
    texts = Texts(top)
    new = {path: texts.turned(path) for path in texts.files}
    for page in sorted([*top.glob("*.md"), *top.glob("docs/**/*.md"), *top.glob("compare/**/*.md")]):
        texts.files[page] = page.read_text()
        new[page] = texts.prose(texts.files[page])
    count = 0
    for path, text in new.items():
        if text != texts.files[path]:
            count += 1
            if "--list" not in sys.argv:
                path.write_text(text)
    print("\n".join(texts.together))
    print(f"respell: {count} files turned, {len(texts.together)} spellings that would stand for two names")
    return 1 if texts.together else 0


if __name__ == "__main__":
    sys.exit(main())
