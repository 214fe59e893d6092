#!/usr/bin/env python3
"""Respells the names of specs/ and proofs/: loaderOf becomes loader_of, writeRows-length write_rows-length.

usage: python3 tools/port_names.py        at the top of the repository, once, after port.py

A dash still joins two names. Types, variants of enums and the names of src/ stay. Where a definition takes the name that a lemma got
from port.py (go_on, which was go-on), that lemma has its dash again.
It reads what is declared in crates/, and writes .antt, .rt and .edit files there and the texts in tests/wrong-answers.
"""
import os
import re

TOKEN = re.compile(r"[^\s(){}\[\].;,«»:=|`\"]+")
WORD = re.compile(r"[a-z]\w*?[A-Z]")
DECLARED = re.compile(r"(?m)^\s*(?:(?:abbrev|unfoldable|pub|data|record) )*((?:[^\s(){}\[\].;,:=|]+ )+):(?= |$)")
BOUND = re.compile(r"[({]((?:[^\s(){}\[\].;,:=|]+ )+):")
GARBLED = ("is_Known", "is_Within", "no_Walk")  # port.py's, mended by hand


def files(endings, tops=("crates",)):
    for top in tops:
        for folder, dirs, names in os.walk(top):
            dirs[:] = sorted(d for d in dirs if d != "out")
            for name in sorted(names):
                if name.endswith(endings):
                    yield os.path.join(folder, name)


def read(path):
    with open(path, encoding="utf-8") as file:
        return file.read()


def snake(name):
    def part(word):
        if not re.match(r"[a-z]\w*[A-Z]", word):
            return word
        return re.sub(r"(?<=[a-z0-9])([A-Z])", lambda it: "_" + it[1].lower(), word)

    return "-".join(part(word) for word in name.split("-"))


def main():
    camel, declared = set(), set()
    for path in files(".antt"):
        text = re.sub(r"--.*", "", read(path))
        for word in TOKEN.findall(text):
            if re.match(r"[a-z]", word) and word not in GARBLED and any(re.match(r"[a-z]\w*[A-Z]", it) for it in word.split("-")):
                camel.add(word)
        for pattern in (DECLARED, BOUND):
            for it in pattern.finditer(text):
                declared.update(it[1].split())
    new = {it: snake(it) for it in camel}
    assert len(set(new.values())) == len(new), "two names would fall together"
    back = {it: it.replace("_", "-") for it in new.values() if it in declared}
    assert not any(it in declared for it in back.values()), "a lemma's old name is taken"

    def of_camel(text):
        return TOKEN.sub(lambda it: new.get(it[0], it[0]), text)

    def of_lemmas(text):
        return re.sub(r"(?<![.\w])" + TOKEN.pattern, lambda it: back.get(it[0], it[0]), text)

    for path in files((".antt", ".rt", ".edit", ".txt"), ("crates", "tests/wrong-answers")):
        text = old = read(path)
        if path.endswith(".antt"):
            text = of_lemmas(text)
        if path.endswith(".rt"):
            parts = re.split(r'("(?:[^"\\\n]|\\.)*")', text)
            text = "".join(it if at % 2 else of_camel(it) for at, it in enumerate(parts))
        else:
            text = of_camel(text)
        if text != old:
            with open(path, "w", encoding="utf-8") as file:
                file.write(text)
    print(f"{len(new)} names respelled; with their dash again: {', '.join(sorted(back.values()))}")


if __name__ == "__main__":
    main()
