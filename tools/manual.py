#!/usr/bin/env python3
"""Makes the manual page and the completions out of the texts that help prints.

The options are in crates/command_line/src/option_rows.rt, the subcommands and which options they take in command_name.rt, and
the other texts in help_texts.rt; nothing is written twice. The files that are made: docs/fedbundle.1, completions/fedbundle.bash and completions/_fedbundle (zsh).

usage: manual [--check]     --check writes nothing, and ends with status 1 if a file is not what it would write
"""
import re
import sys
from pathlib import Path

TOP = Path(__file__).resolve().parent.parent
SOURCES = TOP / "crates/command_line/src"
VERSION = "0.15.0"


def unquoted(text):
    """The text of a string of the source."""
    text = re.sub(r"\\\n\s*", "", text)
    return text.replace('\\"', '"').replace("\\\\", "\\")


STRING = r'"((?:[^"\\]|\\.|\\\n)*)"'


class Texts:
    """What the three files say."""

    def __init__(self):
        helps = (SOURCES / "help_texts.rt").read_text()
        names = (SOURCES / "command_name.rt").read_text()
        consts = {name: unquoted(text) for name, text in re.findall(rf"const (\w+): &str = {STRING};", helps)}
        self.notes = consts["NOTES"]
        rows = self.rows((SOURCES / "option_rows.rt").read_text())
        self.options = {option: texts[0] for option, (kind, texts) in rows.items()}
        self.values = {option: "" if kind == "flag" else texts[1] for option, (kind, texts) in rows.items()}
        self.kinds = {option: kind for option, (kind, texts) in rows.items()}
        self.option_abouts = {option: texts[-1] for option, (kind, texts) in rows.items()}
        self.other_abouts = self.others(helps)
        self.abouts = self.matched(helps, "CommandName", "about")
        self.usages = self.matched(helps, "CommandName", "usage")
        self.command_notes = {name: consts[const] for name, const in re.findall(r"CommandName::(\w+) => (\w+_NOTES),", helps)}
        self.words = self.matched(names, "CommandName", "text")
        lists = {name: re.findall(r"OptionName::(\w+)", body)
                 for name, body in re.findall(r"static (\w+): \[TakenOption; \d+\] = \[(.*?)\];", names, re.S)}
        used = dict(re.findall(r"CommandName::(\w+) => (\w+)\.as_slice\(\)", names))
        order = re.search(r"static COMMANDS.*?\[\n(.*?)\];", names, re.S).group(1)
        self.commands = re.findall(r"CommandName::(\w+)", order)
        self.options_of = {name: lists[used[name]] for name in self.commands}

    @staticmethod
    def rows(source):
        """The row of each option: what it has after its name, and the texts."""
        found = re.findall(rf"OptionName::(\w+) => (flag|path|text)\(((?:\s*{STRING},?)+)\s*\)", source)
        return {option: (kind, [unquoted(text) for text in re.findall(STRING, texts)]) for option, kind, texts, _ in found}

    @staticmethod
    def others(source):
        """What subcommands say of an option in place of its row."""
        part = source[source.index("fn about_option"):]
        part = part[:part.index("\n    }\n")]
        found = re.findall(rf"\(([^,]+), OptionName::(\w+)\) =>\s*(?:\{{\s*)?{STRING}", part)
        return {(name, option): unquoted(text) for names, option, text in found for name in re.findall(r"CommandName::(\w+)", names)}

    def about(self, name, option):
        """What help says of an option of the subcommand."""
        return self.other_abouts.get((name, option), self.option_abouts[option])

    @staticmethod
    def matched(source, kind, function):
        """The texts of a function's match, by the variant."""
        part = source[source.index(f"impl {kind} "):]
        part = part[re.search(rf"fn {function}\b", part).start():]
        part = part[:part.index("\n    }\n")]
        return {name: unquoted(text) for name, text in re.findall(rf"{kind}::(\w+) =>\s*(?:\{{\s*)?{STRING}", part)}


# ---- the manual page


def escaped(text):
    """A line of text as roff takes it."""
    text = text.replace("\\", "\\e").replace("-", "\\-").replace("'", "\\(aq")
    text = re.sub(r"`([^`]*)`", r"\\fB\1\\fR", text)
    return "\\&" + text if text.startswith(".") else text


def paragraphs(text):
    for part in text.split("\n\n"):
        lines = part.split("\n")
        if any(line.startswith("  ") for line in lines):
            before = [line for line in lines if not line.startswith("  ")]
            first = next(k for k, line in enumerate(lines) if line.startswith("  "))
            yield from [".PP", *map(escaped, lines[:first])]
            yield from [".nf", *(escaped(line) for line in lines if line.startswith("  ")), ".fi"]
            yield from map(escaped, before[first:])
        else:
            yield from [".PP", *map(escaped, lines)]


def manual(texts):
    lines = ['.\\" Made by tools/manual.py. Change the texts of help in crates/command_line/src/help_texts.rt instead.',
             f'.TH FEDBUNDLE 1 "" "fedbundle {VERSION}" "User Commands"',
             ".SH NAME", "fedbundle \\- holds the federated trust bundles of one replica",
             ".SH SYNOPSIS"]
    for name in texts.commands:
        usages = [f"\\fB{escaped(usage.strip())}\\fR" for usage in texts.usages[name].split("\\n")]
        lines += [".PP", "\n.br\n".join(usages)]
    lines += [".SH DESCRIPTION", *paragraphs(texts.notes)]
    lines += [".SH COMMANDS"]
    for name in texts.commands:
        lines += [f".SS {texts.words[name]}", escaped(texts.abouts[name]) + ".", *paragraphs(texts.command_notes[name])]
        for option in texts.options_of[name]:
            value = f" \\fI{escaped(texts.values[option])}\\fR" if texts.values[option] else ""
            lines += [".TP", f"\\fB\\-\\-{escaped(texts.options[option])}\\fR{value}", escaped(texts.about(name, option)) + "."]
    lines += [".SH SEE ALSO", "\\fBopenssl\\fR(1), \\fBstunnel\\fR(8)"]
    return "\n".join(lines) + "\n"


# ---- completions


def words_of(texts, name):
    return [f"--{texts.options[option]}" for option in texts.options_of[name]] + ["--help"]


def file_options(texts):
    return sorted(f"--{texts.options[o]}" for o in texts.options if texts.kinds[o] == "path")


def value_options(texts):
    return sorted(f"--{texts.options[o]}" for o in texts.options if texts.kinds[o] == "text")


def bash(texts):
    arms = "\n".join(f"        {texts.words[n]}) words='{' '.join(words_of(texts, n))}' ;;" for n in texts.commands)
    names = " ".join([texts.words[n] for n in texts.commands] + ["help"])
    return f"""# Completions of fedbundle for bash. Made by tools/manual.py.
_fedbundle() {{
    local word=${{COMP_WORDS[COMP_CWORD]}} before=${{COMP_WORDS[COMP_CWORD - 1]}} words
    COMPREPLY=()
    if [ "$COMP_CWORD" -eq 1 ]; then
        COMPREPLY=($(compgen -W '{names} --help --version' -- "$word"))
        return
    fi
    case $before in
        {'|'.join(file_options(texts))})
            compopt -o filenames 2>/dev/null
            COMPREPLY=($(compgen -f -- "$word"))
            return
            ;;
        {'|'.join(value_options(texts))}) return ;;
    esac
    case ${{COMP_WORDS[1]}} in
{arms}
        help) words='{names}' ;;
        *) return ;;
    esac
    COMPREPLY=($(compgen -W "$words" -- "$word"))
}}
complete -F _fedbundle fedbundle
"""


def quoted(text):
    return text.replace("'", "'\\''").replace("[", "(").replace("]", ")").replace(":", "\\:")


def zsh(texts):
    names = "\n".join(f"        '{texts.words[n]}:{quoted(texts.abouts[n])}'" for n in texts.commands)
    arms = []
    for name in texts.commands:
        arms.append(f"        {texts.words[name]})\n            _arguments \\")
        for option in texts.options_of[name]:
            value = texts.values[option]
            what = {"path": f":{value}:_files", "text": f":{value}:", "flag": ""}[texts.kinds[option]]
            arms.append(f"                '--{texts.options[option]}[{quoted(texts.about(name, option))}]{what}' \\")
        arms.append("                '--help[Prints help]'\n            ;;")
    return f"""#compdef fedbundle
# Completions of fedbundle for zsh. Made by tools/manual.py.
_fedbundle() {{
    local -a commands
    commands=(
{names}
    )
    if (( CURRENT == 2 )); then
        _describe command commands
        return
    fi
    local command=$words[2]
    shift words
    (( CURRENT-- ))
    case $command in
{chr(10).join(arms)}
    esac
}}
_fedbundle "$@"
"""


def main():
    texts = Texts()
    made = {"docs/fedbundle.1": manual(texts), "completions/fedbundle.bash": bash(texts), "completions/_fedbundle": zsh(texts)}
    ended = 0
    for name, text in made.items():
        path = TOP / name
        if "--check" not in sys.argv[1:]:
            path.parent.mkdir(exist_ok=True)
            path.write_text(text)
        elif not path.exists() or path.read_text() != text:
            print(f"{name} is not what tools/manual.py makes")
            ended = 1
    sys.exit(ended)


if __name__ == "__main__":
    main()
