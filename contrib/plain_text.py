"""The house style (CONTRIBUTING.md), as far as a program can look at it: sentences of at most 25 words, no clause that begins with "what", and none of the
words that the style replaces. contrib/check_docs.py uses it.

A sentence ends at a full stop, a question mark or an exclamation mark, and at the end of its paragraph, its list item or its cell. In a cell a semicolon ends
it too, because a cell may have a list. A piece of code and a link's text count as words, quoted words and paths of links do not.
"""
import glob
import os
import re

LIMIT = 25
COINED = (r"what stands\b|what meets\b|\b(?:is|are) told\b|drawn by lot|\bby lot\b|\bwanting\b|\brobbed\b|begun anew|wrong bod(?:y|ies) that the gate|"
          r"(?<!there )\b(?:is|are) no (?!longer\b|more\b)[a-z]+|\bin front of\b|\w \.\.(?![./])|\btool uses (?:it|this) yet\b")
WHAT = r"(?<!does )(?<!change )\bwhat\b"
STOP = r"(?:(?<=[.!?])|(?<=[.!?][)\"]))\s+(?=[A-Z(\"0-9]|(?:mfu|dwalk|dfind|dcmp|dcp|dsync|ddup|drm|dtest|rsync|stat|docs/\S*)\b)"
TABLE = "contrib/tools.txt"
MADE = "docs/TOOLS.md"
FIGURES = "bench/FIGURES.md"
HELP = ["help", "reading_pages", "changing_pages", "topics"]


def texts_of_page(text):
    """The paragraphs, list items and cells of a Markdown page, without headings and blocks of code. A cell begins with `|`."""
    text = re.sub(r"^```.*?^```$", "\n", text, flags=re.S | re.M)
    found, block = [], []

    def close():
        if block:
            found.append(" ".join(block))
            block.clear()

    for line in text.splitlines():
        words = line.strip()
        if not words or words.startswith(("#", "<!--", "![")) or (line.startswith("    ") and not block):
            close()
        elif words.startswith("|"):
            close()
            found += ["|" + cell for cell in re.split(r"(?<!\\)\|", words)[1:-1]]
        else:
            item = re.match(r"(?:[-*]|\d+\.) ", words)
            if item:
                close()
            block.append(words[item.end():] if item else words)
    close()
    return found


def texts_of_table(text):
    """The texts of contrib/tools.txt: its fields, each with the lines that continue it. Each is a cell."""
    found = [""]
    for line in text.splitlines():
        field = re.match(r"  (?:say|term|shows|short|does) (.*)", line)
        if field:
            found.append("|" + field[1])
        elif line.startswith("    ") and found[-1]:
            found[-1] += " " + line.strip()
        else:
            found.append("")
    return [text for text in found if text]


def texts_of_help(text):
    """The paragraphs of the texts of the help. A line that begins with a space is a cell."""
    found = []
    for body in re.findall(r': &str =\s*"((?:[^"\\]|\\.)*)";', text):
        for block in body.replace("\\\\", "\\").split("\n\n"):
            lines = block.splitlines()
            found += ["|" + line for line in lines if line.startswith(" ")]
            found.append(" ".join(line for line in lines if not line.startswith(" ")))
    return found


def sentences(text):
    cell = text.startswith("|")
    text = re.sub(r"`[^`]*`", "CODE", text.lstrip("|"))
    text = re.sub(r"!?\[([^\]]*)\]\([^)]*\)", r"\1", text).replace("*", "")
    text = re.sub(r'"[^"]*"', "QUOTED", text)
    return re.split(r"(?<=;)\s+|" + STOP if cell else STOP, text)


def faults_of(text, any_length=False):
    for sentence in sentences(text):
        count = len([word for word in sentence.split() if re.search(r"\w", word)])
        if count > LIMIT and not any_length:
            yield f"a sentence of {count} words: {sentence}"
        if re.search(WHAT, sentence, re.I):
            yield f'a clause begins with "what": {sentence}'
        for found in re.findall(COINED, sentence, re.I):
            yield f"the house style replaces: {found}"


def faults(top):
    """Each fault of each text for readers, as (file, fault)."""
    pages = [name for part in ("*.md", "docs/*.md", "bench/*.md") for name in sorted(glob.glob(os.path.join(top, part)))]
    texts = [(os.path.relpath(name, top), texts_of_page) for name in pages] + [(TABLE, texts_of_table)]
    texts += [(f"crates/help_pages/src/{name}.rt", texts_of_help) for name in HELP]
    for name, divided in texts:
        if name != MADE:
            with open(os.path.join(top, name), encoding="utf-8") as file:
                parts = divided(file.read())
            for part in parts:
                for fault in faults_of(part, name == FIGURES):
                    yield name, fault
