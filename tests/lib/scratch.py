"""Lays out repositories beside the checkout, for programs over its crates that `rt ci` does not prove."""
import shutil
import subprocess
from pathlib import Path

TOP = Path(__file__).resolve().parents[2]
ENDING = ".txt"


def crate_lines(file):
    """The lines of a file like crates.txt, by their crates' names."""
    lines = [line for line in file.read_text().splitlines() if ":" in line and not line.startswith("#")]
    return {line.split(":")[0].split()[0]: line for line in lines}


def libraries(line):
    return line.split(":")[1].split()


def below(lines, crates):
    """The crates and those of the repository that they use, each once."""
    found = list(crates)
    for at in found:
        for other in libraries(lines[at]):
            if other in lines and other not in found:
                found.append(other)
    return found


def lay_out(repo, name, used, files, top=TOP, with_built=True):
    """Makes a repository of the program `name`, which uses the libraries `used` and has these files, by their names below
    src/, and of the crates of a checkout that it uses, with what was built of them if it is proved there. Returns the
    program's folder."""
    lines = crate_lines(top / "crates.txt")
    needed = below(lines, [crate for crate in used if crate in lines])
    program = repo / "crates" / name
    shutil.rmtree(program / "src", ignore_errors=True)
    for target, source in files.items():
        (program / "src" / target).parent.mkdir(parents=True, exist_ok=True)
        shutil.copy(source, program / "src" / target)
    own = f"{name}: {' '.join(used)}\n"
    (repo / "crates.txt").write_text("".join(f"{lines[crate]}\n" for crate in needed) + own)
    shutil.copy(top / "HANDLES", repo / "HANDLES")
    if not (repo / ".git").is_dir():
        subprocess.run(["git", "init", "-q", repo], check=True)
    for crate in needed:
        copy_sources(top / "crates" / crate, repo / "crates" / crate)
        if with_built:
            copy_built(top / "crates" / crate, repo / "crates" / crate)
    return program


def files_of(folder):
    """The files of a program that lies in a folder outside of crates/, by their names below src/."""
    return {str(path.relative_to(folder)).removesuffix(ENDING): path for path in folder.rglob("*.rt" + ENDING)}


def copy_sources(source, target):
    for part in ["src", "specs", "proofs"]:
        shutil.rmtree(target / part, ignore_errors=True)
        if (source / part).is_dir():
            shutil.copytree(source / part, target / part)


def copy_built(source, target):
    if built_at(source) > built_at(target):
        shutil.rmtree(target / "out/rlib", ignore_errors=True)
        shutil.copytree(source / "out/rlib", target / "out/rlib")


def built_at(crate):
    """When the crate's library was proved and built, or 0. Its stamp tells `rt` of which files, so that it proves and
    builds the library again if they are not those that lie there."""
    stamp = crate / "out/rlib/stamp"
    return stamp.stat().st_mtime if stamp.is_file() else 0
