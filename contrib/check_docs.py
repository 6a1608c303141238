#!/usr/bin/env python3
"""Checks that the documents, the man pages and the completions agree with the program. usage: check_docs.py

- The table contrib/tools.txt has the options that the program reads (tool_words/specs/Table.antt) and those of its help
  (help_pages/src/help.rt and the two files of pages), and the files made from it are up to date.
- Each help begins with one screen, 24 lines of 80 columns, that has the call, every status of its tool, and that paths are absolute.
- The man page of a tool has each of its options, and bash, zsh and fish offer it. `apropos` finds a page by each word for the work of a tool.
- `man --warnings` prints nothing, and each shell reads its completion.
- docs/PROMISES.md names each must-fail edit, and each definition, function and edit that it names is in the crates. Each clause that it or docs/PROVED.md
  names by its function and its label is there.
- docs/ARCHITECTURE.md and docs/PROVED.md have each crate. bench/README.md lists each script of bench/, and docs/ shows each script of contrib/ that is installed.
- Each link in a Markdown file leads to a file and a heading that exist, and each path in backquotes to a file.
- The texts for readers follow the house style of CONTRIBUTING.md, as far as contrib/plain_text.py can look at it. README.md has fewer than 130 lines.
- If the program is built, a run on a terminal shows a line that it erases, and a hint after a refusal; a run whose standard error is a file or a pipe has neither.
- If the program is built, each command in README.md, docs/TOOLS.md, docs/RECIPES.md, docs/LISTS.md and docs/CHECKPOINTS.md that begins with `$ ` prints the
  lines below it. A line `...` matches any lines.

A check that needs a missing tool is skipped, and a line says so. The exit status is 1 if something is wrong.
"""
import glob
import os
import pty
import re
import shutil
import subprocess
import sys
import tempfile

import make_pages
import plain_text

TOP = make_pages.TOP
TRIED = ["README.md", "docs/TOOLS.md", "docs/RECIPES.md", "docs/LISTS.md", "docs/CHECKPOINTS.md"]
HELP = ["help", "reading_pages", "changing_pages"]
OPTION = r"(?<![\w-])--?[a-z][a-z-]*"
wrong = []


def said(text):
    wrong.append(text)
    print(f"wrong: {text}", file=sys.stderr)


def text_of(name):
    with open(os.path.join(TOP, name), encoding="utf-8") as file:
        return file.read()


def have(command):
    if shutil.which(command):
        return True
    print(f"skipped: {command} is not there")
    return False


def run(words, **more):
    return subprocess.run(words, capture_output=True, text=True, cwd=TOP, **more)


def names(table, tool):
    return {option.flags()[0] for option in table.options(tool)}


def options_are_read(table):
    read = set(re.findall(r'^text_of .*codes "([^"]*)"', text_of("crates/tool_words/specs/Table.antt"), re.M))
    ours = set().union(*(names(table, tool) for tool in table.tools))
    for name in sorted(read ^ ours):
        said(f"the option {name} stands in {'contrib/tools.txt' if name in ours else 'tool_words/specs/Table.antt'} alone")


def helps_of(parts=HELP):
    """The texts of the help, or of its topics, each by the name of its constant."""
    text = "".join(text_of(f"crates/help_pages/src/{part}.rt") for part in parts)
    texts = re.findall(r'^(?:pub\(crate\) )?const ([A-Z]+): &str = "((?:[^"\\]|\\.)*)";', text, re.M)
    return {name: text.replace("\\\\", "\\") for name, text in texts if name != "VERSION"}


def helps_begin_with_a_screen(table):
    statuses = {"TOOLS": {b.name for b in table.of("status") if b.words("tools")}}
    statuses.update({tool.name.upper(): {b.name for b in table.of_tool("status", tool)} for tool in table.tools})
    for name, text in helps_of().items():
        screen = text.split("\n")[:24]
        told = re.search(r"^Exit status:\n((?:  .*\n)+)", "\n".join(screen) + "\n", re.M)
        if not text.startswith("usage: ") or "absolute" not in "\n".join(screen):
            said(f"the first 24 lines of the help {name} have no usage, or say nothing of absolute paths")
        if told is None or set(re.findall(r"  ([0-9])  ", told.group(1))) != statuses.get(name):
            said(f"the first 24 lines of the help {name} have other statuses than contrib/tools.txt")
        for line in text.split("\n"):
            if len(line) > 80:
                said(f"a line of the help {name} has more than 80 columns: {line}")


def options_are_in_help(table):
    helps = helps_of()
    for tool in table.tools:
        told = set(re.findall(r"^  (--?[a-z][a-z-]*)", helps.get(tool.name.upper(), ""), re.M))
        if not told and tool.name != "dtest":
            said(f"the help says nothing of {tool.name}")
        for name in sorted(told - names(table, tool)):
            said(f"the help of {tool.name} has {name}, and contrib/tools.txt has not")
    every = set(re.findall(OPTION, " ".join(helps.values()))) - {"--help", "--version"}
    for tool in table.tools:
        for name in sorted(names(table, tool) - every):
            said(f"the help says nothing of {name}")
    for name, text in helps_of(["topics"]).items():
        if name.lower() not in make_pages.HELPS or f"mfu help {name.lower()}" not in " ".join(helps["TOOLS"].split()):
            said(f"mfu help does not name the topic {name.lower()}, or contrib/make_pages.py does not")
        for line in text.split("\n"):
            if len(line) > 80:
                said(f"a line of the help {name} has more than 80 columns: {line}")
    for number in re.findall(r"^  ([0-9])  ", helps["TOOLS"], re.M):
        if f"\n| {number} |" not in text_of("README.md"):
            said(f"README.md says nothing of status {number}")


def options_are_in_pages(table):
    for tool in table.tools:
        page = text_of(f"man/mfu-{tool.name}.1").replace("\\-", "-").replace("\\fB", "").replace("\\fR", "")
        for name in sorted(names(table, tool) - set(re.findall(OPTION, page))):
            said(f"mfu-{tool.name}(1) says nothing of {name}")


def pages_are_found():
    """Whether `apropos` finds a page by each word for the work of a tool."""
    lines = " ".join(text_of(f"man/{page}").split("\n.SH ")[1] for page in os.listdir(os.path.join(TOP, "man")))
    for word in ("list", "search", "compare", "copy", "synchronize", "duplicate", "delete"):
        if word not in lines:
            said(f"no man page has the word {word} in its NAME")


def pages_are_sound():
    if not have("man") or "dpkg" in run(["man", "--version"]).stdout:
        return
    for page in sorted(os.listdir(os.path.join(TOP, "man"))):
        env = dict(os.environ, LC_ALL="C.UTF-8", MANROFFSEQ="", MANWIDTH="80")
        told = run(["man", "--warnings", "-E", "UTF-8", "-l", "-Tutf8", "-Z", "man/" + page], env=env).stderr
        if told:
            said(f"man/{page}: {told.strip()}")


def offered_by_bash(tool):
    script = "source completions/mfu.bash; COMP_WORDS=(mfu \"$1\" -); COMP_CWORD=2; _mfu; printf '%s\\n' \"${COMPREPLY[@]}\""
    return run(["bash", "-c", script, "bash", tool]).stdout


def offered_by_fish(tool):
    return run(["fish", "--no-config", "-c", "source completions/mfu.fish; complete -C \"mfu $argv[1] -\"", tool]).stdout


def offered_by_zsh(tool):
    part = re.search(rf"^        {tool}\)$(.*?);;$", text_of("completions/_mfu"), re.M | re.S)
    return part.group(1) if part else ""


def completions_offer(table):
    shells = [("bash", ["bash", "-n", "completions/mfu.bash"], offered_by_bash),
              ("zsh", ["zsh", "-n", "completions/_mfu"], offered_by_zsh),
              ("fish", ["fish", "--no-execute", "completions/mfu.fish"], offered_by_fish)]
    for shell, reads, offered in shells:
        if not have(shell):
            continue
        told = run(reads)
        if told.returncode:
            said(f"{shell}: {told.stderr.strip()}")
        for tool in table.tools:
            for name in sorted(names(table, tool) - set(re.findall(OPTION, offered(tool.name)))):
                said(f"{shell} does not offer {name} for {tool.name}")


def promises_name_what_is_there():
    files = [os.path.join(folder, name) for folder, _, names in os.walk(os.path.join(TOP, "crates")) for name in names if "/out/" not in folder + "/"]
    edits = {os.path.basename(name).removesuffix(".edit") for name in files if name.endswith(".edit")}
    there = edits | {os.path.basename(os.path.dirname(os.path.dirname(name))) for name in files}
    for name in files:
        if name.endswith((".rt", ".antt")):
            there.update(re.findall(r"\w+", text_of(name)))
    named = set(re.findall(r"`(?:\w+::)*([A-Za-z]\w+)`", text_of("docs/PROMISES.md")))
    for name in sorted(edits - named):
        said(f"docs/PROMISES.md does not name the must-fail edit {name}")
    named |= set(re.findall(r"`(?:\w+::)*([A-Za-z]\w+)`", text_of("docs/PROVED.md")))
    for name in sorted(name for name in named - there if "_" in name or name[0].isupper()):
        said(f"docs/PROMISES.md or docs/PROVED.md names {name}, which is nowhere in crates/")


def labels_of_clauses():
    """The labels of the clauses of each function, type, trait and crate, by its name, and the functions of each type and crate."""
    found = {}
    for file in glob.glob(os.path.join(TOP, "crates/*/src/**/*.rt"), recursive=True):
        crate, owner, function = os.path.relpath(file, TOP).split(os.sep)[1], "", ""
        for line in text_of(file).splitlines():
            head = re.match(r"(?:pub )?(?:ghost )?(?:trait (\w+)|impl\b.*?(\w+)(?:<[^{]*>)?(?: where.*)? *\{?$)", line)
            called = re.match(r"\s*(?:pub(?:\(crate\))? )?(?:const |ghost )?fn (\w+)", line)
            label = re.match(r"\s*(?:ensures (\w+) \{|ghost (\w+):)", line)
            if head:
                owner = head[1] or head[2]
            if called:
                function = called[1]
                owner = owner if line.startswith(" ") else ""
            word = called[1] if called else label and (label[1] or label[2])
            for name in {crate, owner, function} if word else ():
                found.setdefault(name, set()).add(word)
            if label and owner and " for " not in line:
                found.setdefault(f"{owner}::{function}", set()).add(word)
    return found


def clauses_are_there():
    """`name`: `label`, `label` names clauses of a function, or functions or clauses of a type, a trait or a crate."""
    found = labels_of_clauses()
    for page in ("PROVED", "PROMISES"):
        for name, labels in re.findall(r"`((?:\w+::)*\w+)`: ((?:`\w+`(?:, | and )?)+)", text_of(f"docs/{page}.md")):
            there = found.get(name) or found.get(name.split("::")[-1], set())
            for label in re.findall(r"`(\w+)`", labels):
                if label not in there:
                    said(f"docs/{page}.md: {name} has no clause {label}")


def crates_are_listed():
    """docs/ARCHITECTURE.md and docs/PROVED.md have each crate of crates.txt."""
    for crate in re.findall(r"^(\w+).*:", text_of("crates.txt"), re.M):
        for page in ("ARCHITECTURE", "PROVED"):
            if f"`{crate}`" not in text_of(f"docs/{page}.md"):
                said(f"docs/{page}.md does not have the crate {crate}")


def scripts_are_listed():
    """bench/README.md has each script of bench/, and docs/RECIPES.md or docs/CHECKPOINTS.md each one of contrib/ that is installed."""
    listed = text_of("bench/README.md")
    for name in sorted(os.listdir(os.path.join(TOP, "bench"))):
        if name.endswith((".py", ".sh", ".c")) and f"`{name}" not in listed:
            said(f"bench/README.md does not list {name}")
    shown = text_of("docs/RECIPES.md") + text_of("docs/CHECKPOINTS.md")
    for name in re.findall(r"contrib/[\w.-]+", re.search(r"^scripts = (.*)$", text_of("Makefile"), re.M)[1]):
        if name not in shown:
            said(f"docs/RECIPES.md does not show {name}")


def paths_are_there():
    """Each path in backquotes: from the top, or `specs/..`, `src/..` and `proofs/..` of the crate that its line names last before it."""
    for name in ["CONTRIBUTING.md", *(f"docs/{page}" for page in os.listdir(os.path.join(TOP, "docs")) if page.endswith(".md"))]:
        for line in text_of(name).splitlines():
            crate = "*"
            for word in re.findall(r"`([\w./-]+)`", line):
                if os.path.isdir(os.path.join(TOP, "crates", word)):
                    crate = word
                top = re.match(r"(?:crates|contrib|bench|docs|man|completions)/", word)
                path = word if top else f"crates/{crate}/{word}" if re.match(r"(?:specs|src|proofs)/", word) else f"crates/{word}"
                if (top or re.search(r"(?:^|/)(?:specs|src|proofs)/\w", word)) and "NAME" not in word and not glob.glob(os.path.join(TOP, path + "*")):
                    said(f"{name}: {word} is not there")


def headings(text):
    return {make_pages.anchor(title.replace("`", "")) for title in re.findall(r"^#+ (.*)$", text, re.M)}


def links_lead():
    for folder, below, files in os.walk(TOP):
        below[:] = [name for name in below if name not in (".git", "out")]
        for name in files:
            if name.endswith(".md"):
                links_of(os.path.relpath(os.path.join(folder, name), TOP))


def links_of(name):
    text = re.sub(r"```.*?```", "", text_of(name), flags=re.S)
    for link in re.findall(r"\]\(([^)\s]+)\)", text):
        if re.match(r"[a-z]+:", link):
            continue
        path, _, title = link.partition("#")
        to = os.path.normpath(os.path.join(os.path.dirname(name), path)) if path else name
        if not os.path.exists(os.path.join(TOP, to)):
            said(f"{name}: the link {link} leads nowhere")
        elif title and title not in headings(text_of(to)):
            said(f"{name}: {to} has no heading {title}")


def words_are_plain():
    if len(text_of("README.md").splitlines()) >= 130:
        said("README.md has 130 lines or more")
    for name, fault in plain_text.faults(TOP):
        said(f"{name}: {fault}")


def as_printed(want, got):
    """Whether the lines are those wanted; a line `...` matches any lines."""
    pattern = "".join("(?:.*\n)*" if line == "..." else re.escape(line) + "\n" for line in want)
    return re.fullmatch(pattern, got) is not None


def commands_of(name):
    """The commands of a file with the lines below them, in order."""
    found = []
    for block in re.findall(r"^```console\n(.*?)^```", text_of(name), re.M | re.S):
        for line in block.splitlines():
            if line.startswith("$ "):
                found.append((line[2:], []))
            elif line.startswith("> ") and not found[-1][1]:
                found[-1] = (found[-1][0] + "\n" + line[2:], [])
            else:
                found[-1][1].append(line)
    return found


def commands_print():
    program = os.path.join(TOP, "crates/mfu/out/mfu")
    if not os.path.exists(program):
        print("skipped: the program is not built, so no command of the documents is tried")
        return
    if glob.glob("/tmp/site*"):
        print("skipped: /tmp has something whose name begins with site, so no command of the documents is tried")
        return
    with tempfile.TemporaryDirectory() as work:
        os.symlink(program, os.path.join(work, "mfu"))
        env = dict(os.environ, PATH=work + ":" + os.environ["PATH"], LC_ALL="C.UTF-8")
        for name in TRIED:
            if not os.path.exists(os.path.join(TOP, name)):
                continue
            run(["sh", "-c", "rm -rf /tmp/site /tmp/site.*; [ \"$1\" = README.md ] || sh contrib/example_tree.sh /tmp/site", "sh", name])
            for command, want in commands_of(name):
                got = run(["bash", "-c", "exec 2>&1\n" + command], env=env).stdout
                if not as_printed(want, got):
                    said(f"{name}: $ {command}\nprints\n" + "\n".join(got.splitlines()[:20]))
        run(["sh", "-c", "rm -rf /tmp/site /tmp/site.*"])


def on_terminal(words):
    """The status of a command, its output, and all that it writes to a terminal as its standard error."""
    ours, its = pty.openpty()
    with tempfile.TemporaryFile() as out:
        child = subprocess.Popen(words, stdout=out, stderr=its, stdin=subprocess.DEVNULL)
        os.close(its)
        shown = b""
        while True:
            try:
                part = os.read(ours, 65536)
            except OSError:
                part = b""
            if not part:
                break
            shown += part
        os.close(ours)
        status = child.wait()
        out.seek(0)
        return status, out.read(), shown.replace(b"\r\n", b"\n")


def in_pipe(words):
    done = subprocess.run(words, capture_output=True)
    return done.returncode, done.stdout, done.stderr


def in_file(words):
    with tempfile.TemporaryFile() as err:
        done = subprocess.run(words, stdout=subprocess.PIPE, stderr=err)
        err.seek(0)
        return done.returncode, done.stdout, err.read()


def lines_are_on_terminals_alone(program):
    """Two large sparse files are compared or hashed, which takes some seconds and no disk. Each line fits into 80 columns."""
    compared, hashed = rb"compared \d+ files \([\d,]+ MB\)", rb"read [\d,]+ MB"
    for tool, size, numbers in (("dcmp", 6 << 30, compared), ("dsync", 6 << 30, compared), ("ddup", 200 << 20, hashed)):
        with tempfile.TemporaryDirectory() as work:
            sides = [os.path.join(work, side) for side in ("source", "dest")]
            for side in sides:
                os.mkdir(side)
                with open(os.path.join(side, "large"), "wb") as file:
                    file.truncate(size)
            words = [program, tool, *sides]
            status, out, shown = on_terminal(words)
            # The lines begin at the margin, each over the one before, and blanks are over the last.
            if not re.fullmatch(rb"(\rmfu: looked at \d+ paths, " + numbers + rb" *)+\r +\r", shown) or max(map(len, shown.split(b"\r"))) > 80:
                said(f"on a terminal {tool} shows {shown[-200:]!r}")
            for name, run_to in (("a pipe", in_pipe), ("a file", in_file)) if tool == "dcmp" else (("a pipe", in_pipe),):
                if run_to(words) != (status, out, b""):
                    said(f"{tool} to {name} prints something else than on a terminal")


def hints_are_on_terminals_alone(program):
    words, line = [program, "dwalk", "."], b"refused word 1 bad value\n"
    hint = b'mfu: word 1, ".": paths must be absolute; see mfu help dwalk\n'
    for name, got, want in (("a terminal", on_terminal(words), line + hint), ("a pipe", in_pipe(words), line), ("a file", in_file(words), line)):
        if got != (2, b"", want):
            said(f"a refusal to {name} prints {got!r}")
    for words in (["dwalk", "/x", "--help"], ["dwalk", "-h", "--", "/x"]):
        status, out, err = in_pipe([program, *words])
        if status or err or not out.startswith(b"usage: mfu dwalk"):
            said(f"mfu {' '.join(words)} does not print the help")
    if in_pipe([program, "drm", "--name", "--help", "/proc/none"])[2] != b"gone /proc/none\n":
        said("the value --help of an option prints the help")
    for topic in make_pages.HELPS:
        if in_pipe([program, "help", topic])[:1] + in_pipe([program, "help", topic])[2:] != (0, b""):
            said(f"mfu help {topic} prints nothing")


def terminals_are_told_apart():
    program = os.path.join(TOP, "crates/mfu/out/mfu")
    if os.path.exists(program):
        lines_are_on_terminals_alone(program)
        hints_are_on_terminals_alone(program)
    else:
        print("skipped: the program is not built, so it was not tried on a terminal")


def main():
    sys.dont_write_bytecode = True
    if make_pages.main(["--check"]):
        said("run contrib/make_pages.py")
    table = make_pages.Table(os.path.join(TOP, "contrib/tools.txt"))
    options_are_read(table)
    options_are_in_help(table)
    helps_begin_with_a_screen(table)
    options_are_in_pages(table)
    pages_are_found()
    pages_are_sound()
    completions_offer(table)
    promises_name_what_is_there()
    clauses_are_there()
    crates_are_listed()
    scripts_are_listed()
    paths_are_there()
    links_lead()
    words_are_plain()
    terminals_are_told_apart()
    commands_print()
    print(f"documents: {len(wrong)} wrong")
    return 1 if wrong else 0


if __name__ == "__main__":
    sys.exit(main())
