#!/usr/bin/env python3
"""Brings the names of this repository's definitions, record fields and lemmas to one spelling: words in snake case.

usage: python3 tools/snake_names.py [--list]     at the top of the repository, once, on the files as port.py leaves them

A name that .antt files declare and that is in lower camel case (nodeLimit) or joined by dashes (entry-is) becomes
node_limit and entry_is, in .antt files and in the clauses of .rt files. Goals and generated names, types, modules,
Rust's own names, strings and comments keep their spelling. OTHER holds the names that would fall together with one
that stands already. With --list it only prints the renamings.
"""
import collections
import os
import re
import sys

# names that would meet another one, or a word of the library or a variable in a file that cites them
OTHER = {
    "after-letter": "after_letter_lem",
    "kind-exits": "kind_exits_lem",
    "label-fault": "label_fault_lem",
    "node-fault": "node_fault_lem",
    "nothing_left": "nothing_left_lem",
    "on-entry": "on_entry_lem",
    "op-number": "op_number_lem",
    "same-node": "same_node_lem",
    "isWord": "is_word_at",
    "oneMore": "one_step_more",
    "operand-word": "operand_is_word",
}

WORD = r"[\w'\-◌]"
DEF = re.compile(r"^\s*(?:abbrev\s+|unfoldable\s+|pub\s+)*([^\s{}()\[\],;:=λ.]+)\s*:(?!=)\s")
HEAD = re.compile(r"^\s*(?:pub\s+)?(?:data|record|ruleset)\s+(\S+)")
FIELD = re.compile(r"^\s+pub\s+([^\s{}()\[\],;:=λ.]+)\s*:\s")


def files():
    for folder, dirs, names in os.walk("crates"):
        dirs[:] = sorted(d for d in dirs if d != "out")
        for name in sorted(names):
            if name.endswith((".rt", ".antt")):
                yield os.path.join(folder, name)


def snake(name):
    parts = re.sub(r"([a-z0-9'])([A-Z])", r"\1_\2", name.replace("-", "_"))
    return parts.lower()


def declared(texts):
    names, fields = collections.defaultdict(set), set()
    for path, text in texts.items():
        if not path.endswith(".antt"):
            continue
        for line in text.splitlines():
            if line.lstrip().startswith("--") or re.search(r":\s*goal\.", line):
                continue
            m = HEAD.match(line) or DEF.match(line)
            if m:
                names[m.group(1)].add(path)
            m = FIELD.match(line)
            if m:
                fields.add(m.group(1))
    return names, fields


def renamings(names):
    out = {}
    for n in sorted(names):
        if n in OTHER:
            out[n] = OTHER[n]
        elif re.match(r"^[a-z_][\w']*[A-Z]", n) or ("-" in n and re.match(r"^[a-z]", n)):
            out[n] = snake(n)
    return out


def meeting(table, names, texts):
    """Names that fall together: two that become one, or one that becomes a name that stands already in some file."""
    back = collections.defaultdict(set)
    for old, new in table.items():
        back[new].add(old)
    bad = [f"{sorted(olds)} all become {new}" for new, olds in back.items() if len(olds) > 1]
    for new in sorted(back):
        pattern = re.compile(rf"(?<!{WORD}){re.escape(new)}(?!{WORD})")
        at = [p for p, t in texts.items() if pattern.search(t)]
        olds = re.compile("|".join(rf"(?<!{WORD}){re.escape(o)}(?!{WORD})" for o in back[new]))
        both = [p for p in at if olds.search(texts[p])]
        if new in names and new not in table:
            bad.append(f"{sorted(back[new])} becomes {new}, which {sorted(names[new])} declares")
        elif both and not SAME.search(new):
            bad.append(f"{sorted(back[new])} becomes {new}, which stands in {both}")
    return bad


def turned(text, table, fields, rust):
    pattern = re.compile(rf"(?<!{WORD})(" + "|".join(sorted(map(re.escape, table), key=len, reverse=True)) + rf")(?!{WORD})")

    def one(line):
        comment = "//" if rust else "--"
        if line.lstrip().startswith(comment):
            return line
        imports = re.match(r"\s*(pub |ghost )*use ", line)

        def put(m):
            name, before = m.group(1), line[: m.start()]
            if before.count('"') % 2 == 1:
                return name
            if before.endswith(".") and not imports:
                alias = re.search(r"([\w']+)\.$", before)
                if before.endswith(".auto.") or not (name in fields or (alias and alias.group(1) in ALIASES)):
                    return name
            if imports and (".Goals" in line or ".Given" in line):
                return name
            return table[name]

        return pattern.sub(put, line)

    return "\n".join(one(l) for l in text.split("\n"))


# spec functions named as the Rust function that they describe
SAME = re.compile(r"^(after_letter|bad_targets?|before_colon|binary_name|change_at|first_operand|second_operand|fixed_exit|is_(arrow|copied|itself|known|proposal|skip|straight|trailer)|kind_name|last_fits|row_fits|set_fits|simpler_binary|nothing_left)$")

# names under which proof files import modules of lemmas
ALIASES = set()


def main():
    texts = {p: open(p, encoding="utf-8").read() for p in files()}
    for text in texts.values():
        ALIASES.update(re.findall(r"^use \S+ as (\w+)$", text, re.M))
    ALIASES.difference_update({"goal"})
    names, fields = declared(texts)
    table = renamings(names)
    bad = meeting(table, names, texts)
    if "--list" in sys.argv:
        for old, new in table.items():
            print(old, new)
    print("\n".join("falls together: " + b for b in bad), file=sys.stderr)
    if "--list" in sys.argv:
        return 0
    if bad:
        return 1
    for path, text in texts.items():
        new = turned(text, table, fields, path.endswith(".rt"))
        if new != text:
            with open(path, "w", encoding="utf-8") as f:
                f.write(new)
    return 0


if __name__ == "__main__":
    sys.exit(main())
