#!/usr/bin/env python3
"""Makes the man pages, the completions and docs/TOOLS.md from the table contrib/tools.txt. usage: make_pages.py [--check]

With --check it writes nothing, and names each file that would change; the exit status is then 1.
"""
import os
import re
import sys
import textwrap

TOP = os.path.dirname(os.path.dirname(os.path.realpath(__file__)))
MADE = "contrib/make_pages.py from contrib/tools.txt"
HELPS = ["globs", "expressions", "messages", "statuses", "permissions"]


class Block:
    """A block of the table: its kind, its name, and its fields in order, each with a name and a text."""

    def __init__(self, kind, name):
        self.kind, self.name, self.fields = kind, name, []

    def all(self, field):
        return [text for name, text in self.fields if name == field]

    def one(self, field):
        return next(iter(self.all(field)), "")

    def has(self, field):
        return any(name == field for name, _ in self.fields)

    def words(self, field):
        return self.one(field).split()

    def examples(self):
        """Each example: its title, its command and the output."""
        shows = ""
        for name, text in self.fields:
            if name == "shows":
                shows = text
            elif name == "example":
                command, *printed = text.split("\n")
                yield shows, command, printed
                shows = ""

    def flags(self):
        """The name of an option, and the word for its value."""
        name, _, value = self.name.partition(" ")
        return name, value


class Table:
    def __init__(self, path):
        self.blocks = []
        for line in open(path, encoding="utf-8"):
            self.take(line.rstrip("\n"))
        self.tools = self.of("tool")
        self.groups = {}
        for block in self.blocks:
            if block.kind == "group":
                group = self.groups[block.name.split(" ")[0]] = []
            elif block.kind == "option":
                group.append(block)

    def take(self, line):
        if not line or line.startswith("#"):
            return
        if not line.startswith(" "):
            kind, _, name = line.partition(" ")
            self.blocks.append(Block(kind, name))
            return
        fields = self.blocks[-1].fields
        if not line.startswith("    "):
            name, _, text = line.strip().partition(" ")
            fields.append((name, text))
            return
        # The lines below an example are kept as they are, those of a text are joined.
        name, text = fields[-1]
        fields[-1] = (name, text + "\n" + line[4:] if name == "example" else text + " " + line.strip())

    def of(self, kind):
        return [block for block in self.blocks if block.kind == kind]

    def of_tool(self, kind, tool):
        return [block for block in self.of(kind) if tool.name in block.words("tools")]

    def meanings(self, kind, tool=None):
        """Each message or status by its name with its meaning: with this tool, or with all; a meaning of a few tools names them."""
        found = {}
        for block in self.of(kind):
            if tool is None or tool.name in block.words("tools"):
                found.setdefault(block.name, []).append(block)
        joint = "; or " if kind == "note" else " "
        return [(name, joint.join(self.meaning(block, block is blocks[0] or tool is not None) for block in blocks)) for name, blocks in found.items()]

    def meaning(self, block, plain):
        return block.one("say") if plain else f"{'with' if block.kind == 'note' else 'With'} {', '.join(block.words('tools'))}: {block.one('say')}"

    def title(self, group):
        return next(b.name.split(" ", 1)[1] for b in self.of("group") if b.name.split(" ")[0] == group)

    def options(self, tool):
        return [option for group in tool.words("groups") for option in self.groups[group]]

    def more(self, tool):
        """The further parts on a tool, with their titles."""
        return [(b.name.split(": ", 1)[1], b) for b in self.of("about") if b.name.split(": ")[0] == tool.name]


def version():
    """The version, which only the program's help has."""
    text = open(os.path.join(TOP, "crates/help_pages/src/help.rt"), encoding="utf-8").read()
    return re.search(r'"mfu ([0-9.]+)\\n"', text).group(1)


# Man pages

def roff(text):
    return text.replace("\\", "\\e").replace("-", "\\-")


def prose(text):
    """A text for a man page: text between backquotes is bold."""
    parts = text.split("`")
    out = "".join(roff(part) if k % 2 == 0 else "\\fB" + roff(part) + "\\fR" for k, part in enumerate(parts))
    return "\\&" + out if out[:1] in (".", "'") else out


def page(name, does, body):
    head = [f'.\\" Made by {MADE}.', f'.TH {name.upper()} 1 "" "mfu {version()}" "Rollerapple"']
    return "\n".join(head + [".SH NAME", f"{roff(name)} \\- {roff(does)}"] + body) + "\n"


def paragraphs(texts):
    return [line for text in texts for line in (".PP", prose(text))]


def man_topic(topic):
    lines = []
    for name, text in topic.fields:
        word, _, means = text.partition(": ")
        if name == "say":
            lines += [".PP", prose(text)]
        elif name == "term":
            lines += [".TP", "\\fB" + roff(word) + "\\fR", prose(means)]
    return lines


def man_options(table, tool):
    lines = []
    for group in tool.words("groups"):
        lines.append(f".SS {roff(table.title(group))}")
        for option in table.groups[group]:
            name, value = option.flags()
            lines += [".TP", f"\\fB{roff(name)}\\fR" + (f" \\fI{value}\\fR" if value else ""), prose(option.one("say"))]
    return lines


def man_terms(meanings):
    return [line for name, text in meanings for line in (".TP", "\\fB" + roff(name) + "\\fR", prose(text))]


def man_examples(tool):
    lines = [".SH EXAMPLES", "The examples use the tree that the script example_tree.sh makes; see FILES in \\fBmfu\\fR(1)."]
    for shows, command, printed in tool.examples():
        lines += [".PP", prose(shows)] if shows else []
        lines += [".PP", ".nf", ".RS", "\\fB$ " + roff(command) + "\\fR"] + ["\\&" + roff(line) for line in printed] + [".RE", ".fi"]
    return lines


def tool_page(table, tool):
    body = [".SH SYNOPSIS"]
    for takes in tool.all("takes"):
        body += [".PP", f"\\fBmfu {tool.name}\\fR {roff(takes)}"]
    body += [".SH DESCRIPTION"] + paragraphs(tool.all("say"))
    body += [".PP", "The command line, paths and the output are described in \\fBmfu\\fR(1)."]
    body += [".SH OPTIONS"] + man_options(table, tool)
    for title, block in table.more(tool):
        body += [f".SH {roff(title).upper()}"] + paragraphs(block.all("say"))
    body += [".SH MESSAGES ON STANDARD ERROR"] + man_terms(table.meanings("note", tool))
    body += [".SH EXIT STATUS"] + man_terms(table.meanings("status", tool))
    see = f", \\fB{tool.one('see')}\\fR(1)" if tool.has("see") else ""
    body += man_examples(tool) + [".SH SEE ALSO", "\\fBmfu\\fR(1)" + see]
    return page(f"mfu-{tool.name}", tool.one("does"), body)


def main_page(table):
    body = [".SH SYNOPSIS", "\\fBmfu\\fR \\fITOOL\\fR \\fIWORD\\fR...", ".PP", "\\fBmfu\\fR \\fITOOL\\fR \\fB\\-\\-help\\fR"]
    body += [".PP", "\\fBmfu \\-\\-help\\fR | \\fB\\-\\-version\\fR", ".SH DESCRIPTION"]
    body += ["\\fB\\-h\\fR, \\fBhelp\\fR and \\fBhelp\\fR \\fITOOL\\fR do the same as \\fB\\-\\-help\\fR, and \\fB\\-V\\fR the same as \\fB\\-\\-version\\fR.",
             "\\fB\\-\\-version\\fR must be the whole command line.", ".PP", "The first word is one of these tools:"]
    for tool in table.tools:
        body += [".TP", f"\\fB{tool.name}\\fR", f"{roff(tool.one('does'))}; see \\fBmfu\\-{tool.name}\\fR(1)"]
    for topic in table.of("topic"):
        body += [f".SH {topic.name.upper()}"] + man_topic(topic)
    body += [".SH EXIT STATUS"] + man_terms(table.meanings("status"))
    body += [".SH ENVIRONMENT", ".TP", "\\fBMFU_ERRORS\\fR", "the file to which a line is appended for each call that failed; see FOLLOWING A RUN"]
    body += [".SH FILES", ".TP", "\\fIPREFIX\\fR/share/mfu", "the scripts; in the sources contrib/"]
    body += [".TP", "\\fIPREFIX\\fR/share/doc/mfu", "the documents: README.md, and docs/ with RECIPES.md, LISTS.md and others"]
    others = ", ".join(f"\\fBmfu\\-{tool.name}\\fR(1)" for tool in table.tools)
    return page("mfu", "list, search, compare, copy, synchronize and delete directory trees, and find duplicate files", body + [".SH SEE ALSO", others])


# Completions

BASH = """# bash completion for mfu. Made by {made}.
_mfu() {{
    local cur=${{COMP_WORDS[COMP_CWORD]}} prev=${{COMP_WORDS[COMP_CWORD-1]}} words
    COMPREPLY=()
    if [ "$COMP_CWORD" -eq 1 ]; then
        mapfile -t COMPREPLY < <(compgen -W '{tools} help --help --version' -- "$cur")
        return
    fi
    # A `=` between an option and its value is a word of its own.
    if [ "$cur" = = ]; then
        cur=
    elif [ "$prev" = = ]; then
        prev=${{COMP_WORDS[COMP_CWORD-2]}}
    fi
    case ${{COMP_WORDS[1]}}:$prev in
        help:help) words='{tools} {helps}' ;;
{cases}
        *) return ;;
    esac
    mapfile -t COMPREPLY < <(compgen -W "$words" -- "$cur")
}}

# Paths are absolute, so an empty word begins with a slash.
_mfu_paths() {{
    compopt -o filenames 2>/dev/null
    mapfile -t COMPREPLY < <(compgen -f -- "${{cur:-/}}")
}}

complete -F _mfu mfu
"""


def bash_value(tool, option):
    """The case of a value, which stands behind its option."""
    name, value = option.flags()
    if option.has("words"):
        return [f"        {tool.name}:{name}) words='{option.one('words')}' ;;"]
    if option.has("file") or option.has("path"):
        return [f"        {tool.name}:{name}) _mfu_paths; return ;;"]
    return [f"        {tool.name}:{name}) return ;;"] if value else []


def bash_word(table, tool):
    """The case of any other word: an option, or a plain word of the tool."""
    names = " ".join(option.flags()[0] for option in table.options(tool))
    plain = "_mfu_paths; return" if tool.one("plain") == "path" else "return"
    return [f"        {tool.name}:*)", f"            if [[ $cur != -* ]]; then {plain}; fi", f"            words='{names} --help' ;;"]


def bash_completion(table):
    cases = [line for tool in table.tools for option in table.options(tool) for line in bash_value(tool, option)]
    cases += [line for tool in table.tools for line in bash_word(table, tool)]
    return BASH.format(made=MADE, tools=" ".join(tool.name for tool in table.tools), helps=" ".join(HELPS), cases="\n".join(cases))


def quoted(text):
    return "'" + text.replace("'", "'\\''") + "'"


def zsh_option(option, many):
    name, value = option.flags()
    text = option.one("short").replace("[", "\\[").replace("]", "\\]").replace(":", "\\:")
    value = value.replace(":", "\\:")
    spec = ("*" if many else "") + name + ("=" if value and name.startswith("--") else "") + f"[{text}]"
    if option.has("words"):
        spec += f":{value}:({option.one('words')})"
    elif option.has("file") or option.has("path"):
        spec += f":{value}:_files"
    elif value:
        spec += f":{value}: "
    return quoted(spec)


ZSH = """#compdef mfu
# zsh completion for mfu. Made by {made}.
_mfu() {{
    local -a tools=(
{tools}
    )
    local -a asks=('help:show help, or the help of a tool' '--help:show help' '--version:show the version')
    if (( CURRENT == 2 )); then
        _describe -t tools tool tools -- asks
        return
    fi
    local tool=$words[2]
    shift words
    (( CURRENT-- ))
    case $tool in
        help) (( CURRENT == 2 )) && {{ tools+=({helps}); _describe -t tools 'tool or topic' tools; }} ;;
{cases}
    esac
}}

_mfu "$@"
"""


def zsh_case(table, tool):
    lines = [f"        {tool.name})", "            _arguments -S \\", "                '(- *)--help[show the help of this tool]' \\"]
    for option in table.options(tool):
        many = option in table.groups["tests"] or option.has("many")
        lines.append(f"                {zsh_option(option, many)} \\")
    return lines + ["                '*:path:_files' ;;" if tool.one("plain") == "path" else "                '1:number of nodes: ' ;;"]


def zsh_completion(table):
    tools = [f"        {quoted(tool.name + ':' + tool.one('does'))}" for tool in table.tools]
    cases = [line for tool in table.tools for line in zsh_case(table, tool)]
    return ZSH.format(made=MADE, tools="\n".join(tools), helps=" ".join(HELPS), cases="\n".join(cases))


def fish_line(when, rest):
    return f"complete -c mfu -n {quoted(when)} {rest}"


def fish_option(option):
    name, value = option.flags()
    flag = f"-l {name[2:]}" if name.startswith("--") else f"-s {name[1:]}"
    if option.has("words"):
        flag += f" -x -a {quoted(option.one('words'))}"
    elif option.has("file") or option.has("path"):
        flag += " -r -F"
    elif value:
        flag += " -x"
    return f"{flag} -d {quoted(option.one('short'))}"


def fish_completion(table):
    first = "__fish_use_subcommand"
    lines = [f"# fish completion for mfu. Made by {MADE}.", "complete -c mfu -f"]
    lines += [fish_line(first, f"-a {tool.name} -d {quoted(tool.one('does'))}") for tool in table.tools]
    lines += [fish_line(first, "-a help -d 'show help, or the help of a tool'"), fish_line(first, "-l help -d 'show help'")]
    lines += [fish_line(first, "-l version -d 'show the version'")]
    lines += [fish_line("__fish_seen_subcommand_from help", f"-a {tool.name} -d {quoted(tool.one('does'))}") for tool in table.tools]
    lines.append(fish_line("__fish_seen_subcommand_from help", f"-a {quoted(' '.join(HELPS))}"))
    for tool in table.tools:
        when = f"__fish_seen_subcommand_from {tool.name}"
        lines.append(fish_line(when, "-l help -d 'show the help of this tool'"))
        lines += [fish_line(when, "-F")] if tool.one("plain") == "path" else []
        lines += [fish_line(when, fish_option(option)) for option in table.options(tool)]
    return "\n".join(lines) + "\n"


# docs/TOOLS.md

def cell(text):
    return text.replace("|", "\\|")


def rows(head, pairs):
    return [f"| {head[0]} | {head[1]} |", "|---|---|"] + [f"| {a} | {cell(b)} |" for a, b in pairs] + [""]


def wrapped(text):
    return textwrap.wrap(text, 130, break_long_words=False, break_on_hyphens=False)


def spread(texts):
    return [line for text in texts for line in wrapped(text) + [""]]


def option_rows(options):
    return rows(("Option", "Effect"), [(f"`{option.name}`", option.one("say")) for option in options])


def anchor(title):
    return re.sub(r"[^a-z0-9 -]", "", title.lower()).replace(" ", "-")


def topic_part(topic):
    out, terms = [f"## {topic.name}", ""], [tuple(text.split(": ", 1)) for text in topic.all("term")]
    for name, text in topic.fields:
        if name == "say":
            out += spread([text])
        elif name == "term" and terms:
            out += rows((topic.one("head") or "Word", "Means"), [(f"`{word}`", means) for word, means in terms])
            terms = []
    return out


def tool_part(table, tool):
    out = [f"## {tool.name}", "", "```"] + [f"mfu {tool.name} {takes}" for takes in tool.all("takes")] + ["```", ""]
    out += spread(tool.all("say"))
    links = ", ".join(f"[{table.title(g)[0].lower()}{table.title(g)[1:]}](#{anchor(table.title(g))})" for g in tool.words("groups"))
    statuses = ", ".join(name for name, _ in table.meanings("status", tool))
    notes = ", ".join(f"`{name}`" for name, _ in table.meanings("note", tool))
    out += [f"Options: {links}.", ""]
    for title, block in table.more(tool):
        out += [f"### {title}", ""] + spread(block.all("say"))
    out += [f"[Messages](#messages): {notes}.", "", f"[Exit statuses](#exit-statuses): {statuses}.", ""]
    for shows, command, printed in tool.examples():
        lines = ["```console", "$ " + command] + printed + ["```", ""]
        # An example that nothing is said of goes on with the one before.
        out[-2:] = out[-2:] + spread([shows]) + lines if shows else lines[1:]
    return out


def tools_doc(table):
    out = [f"<!-- Made by {MADE}: change that table, and run the script. -->", "# The tools", "",
           "First each tool, then the parts that they share: the command line, paths, output, options, messages and exit statuses. The examples use the small",
           "tree that `sh contrib/example_tree.sh /tmp/site` makes.", ""]
    for tool in table.tools:
        out += tool_part(table, tool)
    for topic in table.of("topic"):
        out += topic_part(topic)
    for name, options in table.groups.items():
        out += [f"## {table.title(name)}", ""] + option_rows(options)
    out += ["## Messages", "", "A message is a line on standard error. Each comes once.", ""]
    out += rows(("Message", "Meaning"), [(f"`{name}`", text) for name, text in table.meanings("note")])
    out += ["## Exit statuses", ""] + rows(("Status", "Meaning"), table.meanings("status"))
    return "\n".join(out).rstrip("\n") + "\n"


def made(table):
    """The text of each file that is made, by its name."""
    files = {"man/mfu.1": main_page(table), "completions/mfu.bash": bash_completion(table), "completions/_mfu": zsh_completion(table),
             "completions/mfu.fish": fish_completion(table), "docs/TOOLS.md": tools_doc(table)}
    files.update({f"man/mfu-{tool.name}.1": tool_page(table, tool) for tool in table.tools})
    return files


def main(words):
    table = Table(os.path.join(TOP, "contrib/tools.txt"))
    old = 0
    for name, text in made(table).items():
        path = os.path.join(TOP, name)
        there = open(path, encoding="utf-8").read() if os.path.exists(path) else None
        if "--check" not in words:
            os.makedirs(os.path.dirname(path), exist_ok=True)
            open(path, "w", encoding="utf-8").write(text)
        elif there != text:
            print(f"{name} is not as contrib/make_pages.py makes it", file=sys.stderr)
            old += 1
    return 1 if old else 0


if __name__ == "__main__":
    sys.exit(main(sys.argv[1:]))
