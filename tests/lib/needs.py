"""What each script of tests/ needs, when it is run, and what it is about; and the Debian packages of all tools.

This is the only list: tests/run, tests/due and the scripts read it. A script that leaves something out calls `can` or
`left_out`, which print a line of one form for it: `left out: WHAT: WHY`. tests/run counts these lines."""
import importlib.util
import os
import shutil
import subprocess
import sys
from dataclasses import dataclass
from functools import cache
from pathlib import Path

# Each tool with the packages of Debian 12 that have it. A tool with a `/` is a file, one with a `:` a module of Python.
PACKAGES = {
    "ar": "binutils",
    "bash": "bash",
    "bwrap": "bubblewrap",
    "c++": "g++",
    "cc": "gcc libc6-dev",
    "chromium": "chromium",
    "crun": "crun",
    "curl": "curl",
    "dot": "graphviz",
    "dpkg-deb": "dpkg",
    "git": "git",
    "go": "golang-go",
    "cargo": "cargo",
    "gpg": "gnupg",
    "ip": "iproute2",
    "lintian": "lintian",
    "man": "man-db",
    "minisign": "minisign",
    "nm": "binutils",
    "openssl": "openssl",
    "pkg-config": "pkgconf",
    "promtool": "prometheus",
    "runuser": "util-linux",
    "stunnel4": "stunnel4",
    "systemd-analyze": "systemd",
    "systemd-sysusers": "systemd",
    "systemd-tmpfiles": "systemd",
    "tini": "tini",
    "umoci": "umoci",
    "valgrind": "valgrind",
    "xz": "xz-utils",
    "zsh": "zsh",
    "/lib/systemd/systemd": "systemd",
    "python:cryptography": "python3-cryptography",
    "python:yaml": "python3-yaml",
}
# What no package brings.
OTHERS = {
    "root": "it needs root",
    "mounts": "no file system may be mounted here",
    "rt": "there is no rt, the toolchain of Rattle",
    # That of Debian 12 knows no components.
    "kubectl": "there is no kubectl",
}

# When a script is run. FIRST: before all others, without a program. USUAL: by `tests/run`, with a program. BESIDE: in the gate,
# beside the usual ones, since it takes one processor for long. PROVED: over what `rt ci` has just proved, by all processors.
# BY_HAND: if it is named; tests/due says which are due.
FIRST, USUAL, BESIDE, PROVED, BY_HAND = "first", "usual", "beside", "proved", "by hand"


@dataclass(frozen=True)
class Script:
    """A script of tests/ with its arguments. `needs`: without these tools it cannot run. `uses`: without these it leaves
    something out. `about`: the files whose change makes a run by hand due."""

    file: str
    words: str = ""
    when: str = USUAL
    needs: str = ""
    uses: str = ""
    about: str = ""

    @property
    def name(self):
        return f"{self.file} {self.words}".strip()

    @property
    def has_program(self):
        """Whether it runs the program."""
        return self.when in (USUAL, BY_HAND) or "$FEDBUNDLE" in self.words

    @property
    def key(self):
        """The name of its file in tests/passed/."""
        return f"{self.name.replace('/', '-').replace('.py', '').replace(' ', '_')}.txt"


# What a replica is made of.
REPLICA = "crates/replica_* crates/fair_turns crates/wait_index crates/local_answers crates/request_lines crates/peer_talks"
LIBRARY = "crates/fedbundle_c crates/*_c_calls include tools/library.sh"
CORE = "crates/trust_closure crates/closure_* crates/wait_index crates/replica_core crates/replica_journal crates/replica_sync"
ROWS = "tests/rows/programs/rows tests/rows/cases/rows"
UNITS = "deploy/*.service deploy/*.timer deploy/*.conf deploy/fedbundle-* deploy/*.py"

# In each part those that take longest come first, so that they do not end last.
SCRIPTS = [
    Script("release.py", "", FIRST, "xz", "minisign gpg"),
    Script("merge.py", "", FIRST, "git xz"),
    Script("pages.py", "", FIRST, "git", "cc"),
    Script("manual.py", "", FIRST, "bash", "man zsh rt"),
    Script("edits.py", "--ledger", FIRST),
    Script("names.py", "", FIRST, "git"),
    Script("edits.py", "--texts", FIRST),

    Script("fetch.py", "", USUAL, "openssl"),
    Script("system/sums.py"),
    Script("system/progress.py"),
    Script("system/change.py", "10", USUAL, "cc nm"),
    Script("health.py", "texts paths bad", USUAL, "openssl curl"),
    Script("system/replica.py", "10 pieces kills full lost socket read anywhere mute most files beginnings fold", USUAL, "cc nm"),
    Script("system/refusals.py", "", USUAL, "cc nm"),
    Script("clients.py", "", USUAL, "", "go cc root"),
    Script("system/kills.py", "", USUAL, "cc nm"),
    Script("system/audit.py", "5 changes found refused calls kills", USUAL, "cc nm"),
    Script("system/files.py"),
    Script("system/peers.py"),
    Script("rows/check.py"),
    Script("system/locks.py"),
    Script("views.py", "", USUAL, "", "openssl dot"),
    Script("system/memory.py"),
    Script("system/same_keys.py", "", USUAL, "openssl"),
    Script("system/devices.py"),
    Script("oracle/check.sh", "", USUAL, "openssl"),
    Script("system/mistakes.py"),
    Script("system/word_lists.py"),
    Script("incident.py"),
    Script("tour.py", "", USUAL, "bash", "openssl"),
    Script("system/states.py"),

    Script("rows/play.py", "", BESIDE, "rt"),
    Script("release.py", "$FEDBUNDLE", BESIDE, "xz"),
    Script("edits.py", "--gate", PROVED, "rt"),

    Script("certificates.py", "", BY_HAND, "rt openssl python:cryptography", "", "crates/cert_key crates/key_view crates/floor_rows"),
    Script("deploy.py", "", BY_HAND, "", "systemd-analyze stunnel4 openssl", f"deploy {REPLICA}"),
    Script("first_day.py", "", BY_HAND, "root mounts openssl systemd-sysusers systemd-tmpfiles", "", f"docs/INSTALL.md docs/OPERATING.md {UNITS}"),
    Script("health.py", "rules prometheus page slow", BY_HAND, "openssl curl", "promtool chromium",
           "crates/health_pages web deploy/prometheus-rules.yml deploy/grafana-dashboard.json tests/prometheus-rules.test.yml"),
    Script("image.py", "", BY_HAND, "root mounts bwrap openssl dpkg-deb", "umoci crun", "tools/image.py tools/package.py dist"),
    Script("kubernetes.py", "", BY_HAND, "root mounts kubectl python:yaml", "ip stunnel4 tini openssl", "deploy/kubernetes deploy/fedbundle-* deploy/*.py"),
    Script("library.py", "", BY_HAND, "cc ar xz", "go cargo valgrind c++", f"{LIBRARY} bindings"),
    Script("package.py", "", BY_HAND, "root mounts dpkg-deb", "lintian cc pkg-config /lib/systemd/systemd",
           f"tools/package.py tools/debian dist {UNITS}"),
    Script("reproducible.py", "", BY_HAND, "rt xz", "", "tools/build.py tools/library.sh crates.txt crates dist"),
    Script("runbooks.py", "", BY_HAND, "root mounts openssl cc runuser systemd-sysusers systemd-tmpfiles", "",
           f"docs/RUNBOOKS.md docs/OPERATING.md {UNITS}"),
    Script("site.py", "", BY_HAND, "openssl", "", "deploy/fedbundle-import deploy/fedbundle-fetch deploy/fedbundle-spire deploy/*.py"),
    Script("systemd.py", "", BY_HAND, "root mounts /lib/systemd/systemd", "", UNITS),
    Script("rows/play.py", "schedules errors closure-large exchange-large devices exchange_devices", BY_HAND, "rt", "", f"tests/rows/programs/simulation tests/rows/cases/simulation {CORE}"),
    Script("rows/planted.py", "", BY_HAND, "rt", "", f"tests/rows/programs/simulation crates/bucket_sums crates/peer_talks {CORE}"),
    Script("system/calls.py", "", BY_HAND, "cc nm rt", "", f"{ROWS} {CORE}"),
    Script("system/calls.py", "all", BY_HAND, "cc nm rt", "", f"{ROWS} {CORE} crates/command_rows crates/floor_rows"),
    Script("system/peers.py", "slow", BY_HAND, "", "", "crates/subcommands crates/replica_sync crates/replica_sockets"),
    Script("system/refusals.py", "all", BY_HAND, "cc nm", "", "crates/state_* crates/command_* crates/subcommands"),
    Script("system/replica.py", "20 three status limits wait idle log descriptors slow crowd signal refusals folds", BY_HAND,
           "cc nm", "", REPLICA),
    Script("system/turns.py", "", BY_HAND, "cc nm", "", REPLICA),
    Script("system/waits.py", "", BY_HAND, "", "", REPLICA),
    Script("system/year.py", "", BY_HAND, "", "", f"{REPLICA} crates/reseeding crates/migration"),
]


@cache
def has(tool):
    """Whether this machine has a tool, a module of Python, or a right."""
    if tool == "root":
        return os.geteuid() == 0
    if tool == "mounts":
        words = ["unshare", "--mount", "mount", "-t", "tmpfs", "none", "/mnt"]
        return has("unshare") and subprocess.run(words, capture_output=True).returncode == 0
    if tool.startswith("python:"):
        return importlib.util.find_spec(tool.removeprefix("python:")) is not None
    return shutil.which(tool, path=f"{os.environ.get('PATH', os.defpath)}:/usr/sbin:/sbin") is not None


def why_not(tool):
    package = f" ({PACKAGES[tool]})" if tool in PACKAGES else ""
    return OTHERS.get(tool) or f"there is no {tool.removeprefix('python:')}{package}"


def left_out(what, why):
    """Says that a part of a script is not run. tests/run counts the lines of this form."""
    print(f"left out: {what}: {why}", flush=True)


@cache
def can(tool, what):
    """Whether a tool is there. If not, that is said once: `what` is left out."""
    if not has(tool):
        left_out(what, why_not(tool))
    return has(tool)


def require(file):
    """Ends a script, if it lacks something without which it cannot run."""
    path = Path(file).resolve().relative_to(Path(__file__).resolve().parent.parent)
    [needs] = {script.needs for script in SCRIPTS if script.file == str(path) and script.when != PROVED}
    lacks = [tool for tool in needs.split() if not has(tool)]
    if lacks:
        sys.exit(f"{path.stem}: {'; '.join(map(why_not, lacks))}")
