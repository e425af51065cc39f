#!/usr/bin/env python3
"""Checks that what the documents name is there: each file, each crate, and each name of code in backticks.

    checks/documents.py

It prints a line for each name that isn't there, and then ends with 1. A name of code is a word with an underscore or with capitals inside; a
path is taken from the top, from the document's folder, or as the end of the path of some file. A word in capitals is a placeholder. The plan and
the drafts name what is yet to be written, so only their links are checked.
"""
import os
import re
import subprocess
import sys

TOP = os.path.dirname(os.path.dirname(os.path.realpath(__file__)))
# Names of the system, of the kit and of SQLite.
FOREIGN = {"TCP_NODELAY", "FailsBy", "group_concat", "sqlite3_stmt_readonly"}
# Paths that the kit makes, that the system has, or in which a word stands for others; and SQL's comments.
ELSEWHERE = re.compile(r"/.*|out/.*|(.*[/.])?[A-Z]{2,}([/.].*)?")


def tracked():
    """Returns the files that git lists. If git refuses the checkout, or is not there, all files but those of builds are returned."""
    try:
        listed = subprocess.run(["git", "ls-files", "-co", "--exclude-standard"], cwd=TOP, capture_output=True, text=True, check=True).stdout.split("\n")
    except (OSError, subprocess.CalledProcessError):
        listed = []
        for at, folders, names in os.walk(TOP):
            folders[:] = [it for it in folders if it not in (".git", "out")]
            listed += [os.path.relpath(f"{at}/{name}", TOP) for name in names]
    return [file for file in listed if os.path.isfile(f"{TOP}/{file}")]


def text_of(file):
    with open(f"{TOP}/{file}", encoding="utf-8", errors="replace") as it:
        return it.read()


def known_words(files):
    """Returns all words of code, of scripts, and of names of files and folders."""
    words = set()
    for file in files:
        words.update(re.findall(r"[A-Za-z_][\w'-]*", file))
        if file.endswith((".rt", ".antt", ".edit", ".txt", ".py", ".script")) or "." not in os.path.basename(file) or "/must-fail/" in file:
            for word in re.findall(r"[A-Za-z_][\w'-]*", text_of(file)):
                words.add(word)
                words.update(word.split("-"))
    return words


def main():
    files = tracked()
    folders = {os.path.dirname(file) for file in files}
    folders |= {"/".join(it.split("/")[:n]) for it in folders for n in range(1, it.count("/") + 1)}
    paths = [*files, *folders]
    words = known_words([it for it in files if not it.endswith((".md", ".gz"))])
    missing = 0

    def is_path(path, document):
        path = path.rstrip("/")
        if any(os.path.exists(f"{TOP}/{at}/{path}") for at in ("", os.path.dirname(document))):
            return True
        pattern = re.compile("(?:.*/)?" + re.escape(path).replace(r"\*", "[^/]*") + r"(\.\w+)?")
        return any(pattern.fullmatch(it) for it in paths)

    def defined_in(file):
        """Returns the text of the file of which a crate's path names the end, or None."""
        return text_of(f"crates/{file}") if os.path.isfile(f"{TOP}/crates/{file}") else None

    def tell(document, line, what):
        nonlocal missing
        missing += 1
        print(f"{document}:{line}: {what}")

    for document in (it for it in files if it.endswith(".md")):
        is_code, tells_of_what_is_to_come = False, document == "docs/PLAN.md" or document.startswith("docs/drafts/")
        for number, line in enumerate(text_of(document).split("\n"), 1):
            if line.startswith("```"):
                is_code = not is_code
            for link in re.findall(r"\]\(([^)#\s]+)(?:#[^)]*)?\)", line):
                if "://" not in link and not os.path.exists(f"{TOP}/{os.path.dirname(document)}/{link}"):
                    tell(document, number, f"no file {link}")
            for file, names in re.findall(r"`(\w+/(?:specs|src|proofs)/[\w/]+\.(?:antt|rt))`: (`[^;|]*)", line):
                text = defined_in(file)
                for name in re.findall(r"`(\w+)`", re.split(r", `[\w/]+\.(?:antt|rt)`", names)[0]) if text else []:
                    if not re.search(rf"(?<![\w-]){name}(?![\w-])", text):
                        tell(document, number, f"no {name} in {file}")
            for name in [] if is_code or tells_of_what_is_to_come else re.findall(r"`([^`]+)`", line):
                if re.fullmatch(r"[\w./*-]+", name) and ("/" in name or re.search(r"\.(rt|antt|md|py|script|table|edit|output)$", name)):
                    if not ELSEWHERE.fullmatch(name) and not is_path(name, document):
                        tell(document, number, f"no file {name}")
                elif re.fullmatch(r"[A-Za-z_]\w*(?:(?:::|\.)[A-Za-z_]\w*)*", name):
                    for word in re.split(r"::|\.", name):
                        is_code_name = "_" in word.strip("_") or re.search(r"[a-z][A-Z]|[A-Z][a-z]\w*[A-Z]", word)
                        if is_code_name and word not in words and word not in FOREIGN:
                            tell(document, number, f"no name {word}")
    return 1 if missing else 0


sys.exit(main())
