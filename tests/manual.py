#!/usr/bin/env python3
"""Checks the manual page, the completions, what `--version` says (D-196), and `./fedbundle --install`.

The subcommands and options that they should have are taken from crates/command_line/specs, which the prover holds the
program to; tools/manual.py makes them from other files. If there is no man or no zsh, what needs it is left out, and said.

usage: manual         the exit status is 1 if something was reported
"""
import os
import re
import shutil
import subprocess
import sys
import tempfile
from pathlib import Path

sys.dont_write_bytecode = True
sys.path.insert(0, str(Path(__file__).resolve().parent / "lib"))
from needs import can  # noqa: E402

TOP = Path(__file__).resolve().parent.parent
# Where else the version of the program is written, beside rows of crates/command_rows, which the program is run on.
VERSIONS = {
    "tools/manual.py": 'VERSION = "{}"',
    "crates/fedbundle_c/src/opening_c.rt": 'outcome.put(b"{}", out)',
    "bindings/rust/Cargo.toml": '\nversion = "{}"\n',
    "deploy/kubernetes/kustomization.yaml": "newTag: {}\n",
}
reported = 0


def check(is_so, what):
    global reported
    print(f"{'ok:      ' if is_so else 'differs: '}{what}")
    reported += not is_so


def defined():
    """The words of each subcommand's options, by its name."""
    folder = TOP / "crates/command_line/specs"
    text = (folder / "OptionRows.antt").read_text()
    options = dict(re.findall(r'^option_row option\.(\w+) = \(codes "(.*)", \w+\)$', text, re.M))
    names = dict(re.findall(r'^name_text command\.(\w+) = codes "(.*)"', (folder / "Words.antt").read_text(), re.M))
    last = re.search(r"^last_options = ((?:.|\n )*?)\[\]", text, re.M).group(1)
    lists = re.findall(r"^options_of command\.(\w+) = ((?:.|\n )*?)(\[\]|last_options)$", text, re.M)
    return {names[name]: [f"--{options[o]}" for o in re.findall(r"option\.(\w+)", body + (last if end != "[]" else ""))]
            for name, body, end in lists}


def run(*words, **more):
    return subprocess.run(words, capture_output=True, text=True, **more)


def completed(*words):
    """What bash offers behind these words."""
    script = f'. "{TOP}/completions/fedbundle.bash"; COMP_WORDS=("$@"); COMP_CWORD=$(($# - 1)); _fedbundle; printf "%s\\n" "${{COMPREPLY[@]}}"'
    return run("bash", "-c", script, "bash", "fedbundle", *words).stdout.split()


def check_bash(commands):
    check(set(completed("")) == {*commands, "help", "--help", "--version"}, "bash: the subcommands")
    check(all(completed(name, "") == [*options, "--help"] for name, options in commands.items()), "bash: the options of each")
    check(completed("config", "--config", "x", "--wi") == ["--with"], "bash: an option that is begun")
    check(completed("bundle", "--domain", "") == [], "bash: nothing behind an option with another text than a file's name")
    with tempfile.TemporaryDirectory() as folder:
        (Path(folder) / "config.json").touch()
        check(completed("config", "--config", f"{folder}/c") == [f"{folder}/config.json"], "bash: files behind --config")


def check_zsh(commands):
    text = (TOP / "completions/_fedbundle").read_text()
    arms = dict(re.findall(r"^        (\w+)\)\n            _arguments \\\n(.*?)            ;;", text, re.S | re.M))
    found = {name: re.findall(r"'(--[a-z-]+)\[", body) for name, body in arms.items()}
    check(found == {name: [*options, "--help"] for name, options in commands.items()}, "zsh: the options of each subcommand")
    if can("zsh", "zsh reading its completions"):
        check(run("zsh", "-n", str(TOP / "completions/_fedbundle")).returncode == 0, "zsh: it is read")


def check_manual(commands):
    page = TOP / "docs/fedbundle.1"
    text = page.read_text()
    parts = dict(re.findall(r"^\.SS (\w+)\n(.*?)(?=^\.S[SH] )", text, re.S | re.M))
    found = {name: re.findall(r"^\\fB(\\-\\-[a-z\\-]+)\\fR", part, re.M) for name, part in parts.items()}
    found = {name: [word.replace("\\", "") for word in words] for name, words in found.items()}
    check(found == commands, "the manual page: the options of each subcommand")
    if can("man", "man -l"):
        shown = run("man", "-l", "--warnings", str(page), env={"PATH": "/usr/bin:/bin", "LC_ALL": "C.UTF-8", "MANPAGER": "cat"})
        check(shown.returncode == 0 and not shown.stderr, "man -l: no warning")


def check_version():
    """What `--version` says, as the source has it: of the kit what `rt` says, of the formats what contracts have."""
    helps = (TOP / "crates/command_line/src/help_texts.rt").read_text()
    text = re.search(r'const VERSION: &str = "\\\n(.*?)";', helps, re.S).group(1)
    version, kit, *formats = text.split("\n")
    for path, line in VERSIONS.items():
        check(line.format(version) in (TOP / path).read_text(), f"--version: it is that of {path}")
    replica = (TOP / "crates/fedbundle_cli/src/replica_settings.rt").read_text()
    check("version: first_line(VERSION)," in replica, "--version: it is that of the metrics of a replica")
    check(kit.startswith("kit rattle-kit-"), "--version: the kit has a name")
    used = f"kit {run('rt', 'version').stdout.strip()}" if can("rt", "the kit of --version next to that of rt") else kit
    if kit != used:
        print(f"note:    --version names {kit[4:]}, and this machine has {used[4:]}: say so in help_texts.rt and README")
    specs = TOP / "crates/replica_texts/specs"
    written = re.search(r"^version_of Second = (\d+)$", (specs / "Snapshots.antt").read_text(), re.M).group(1)
    spoken = re.search(r"^IsSupportedVersion format buckets = \(format ≡ (\d+)\) × \(buckets ≡ (\d+)\)$",
                       (specs / "FirstLines.antt").read_text(), re.M)
    number, buckets = spoken.groups()
    wanted = [f"state format {written}, and 1 is read", f"journal format {written}"]
    wanted += [f"{what} format {number} of {buckets}" for what in ("have", "give")]
    check(formats == wanted, "--version: the formats are those of the contracts")


def check_install():
    """In a copy with a program that prints its arguments, so that nothing is built."""
    with tempfile.TemporaryDirectory() as folder:
        top = Path(folder) / "top"
        out = top / "crates/fedbundle_cli/out"
        out.mkdir(parents=True)
        for name in ("fedbundle", "HANDLES", "crates.txt", "docs/fedbundle.1", "completions/fedbundle.bash", "completions/_fedbundle"):
            (top / name).parent.mkdir(parents=True, exist_ok=True)
            shutil.copy(TOP / name, top / name)
        (out / "fedbundle").write_text('#!/bin/sh\necho "$@"\n')
        (out / "fedbundle").chmod(0o755)
        (out / "fedbundle.built").write_text("cpu=x86-64-v2\n")
        prefix, level = Path(folder) / "a prefix", {"env": {**os.environ, "FEDBUNDLE_CPU": "x86-64-v2"}}
        ended = run(str(top / "fedbundle"), "--install", str(prefix), **level)
        check(ended.returncode == 0 and not ended.stderr, "--install: status 0")
        there = sorted(str(p.relative_to(prefix)) for p in prefix.rglob("*") if p.is_file())
        check(there == ["bin/fedbundle", "share/bash-completion/completions/fedbundle", "share/man/man1/fedbundle.1",
                        "share/zsh/site-functions/_fedbundle"], "--install: the files")
        check(run(str(prefix / "bin/fedbundle"), "config").stdout == "config\n", "--install: the program runs")
        check(run(str(top / "fedbundle"), "--install", **level).returncode == 2, "--install without a prefix: status 2")
        check(run(str(top / "fedbundle"), "canon", **level).stdout == "canon\n", "other words go to the program")


def main():
    commands = defined()
    made = run(str(TOP / "tools/manual.py"), "--check")
    check(made.returncode == 0, f"the files are those that tools/manual.py makes {made.stdout.strip()}".strip())
    check_bash(commands)
    check_zsh(commands)
    check_manual(commands)
    check_version()
    check_install()
    sys.exit(1 if reported else 0)


if __name__ == "__main__":
    main()
