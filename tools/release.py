"""`./ficus release`: an archive with the proved program, which needs neither the kit nor a checkout where it is installed;
and which version this is."""
from __future__ import annotations

import io
import re
import subprocess
import tarfile
import time
from argparse import ArgumentParser, Namespace
from importlib import import_module
from pathlib import Path

import building
import built
import formats
from faults import Fault, Status
from modes import MODES
from tools_list import TOOLS

TOP = Path(built.TOP)
DESCRIPTION = """\
Makes ficus-VERSION-linux-x86_64.tar.gz: the proved program, the tools, a man page, completion for bash, the licence, and
a note of what it was built from. Unpacked, its `install.sh --prefix FOLDER` installs it there."""

INSTALL = """\
#!/bin/sh
# Installs what lies beside this script: install.sh [--prefix FOLDER], by default /usr/local.
set -e
here=$(dirname -- "$(readlink -f -- "$0")")
prefix=/usr/local
case $#,$1 in
0,) ;;
2,--prefix) prefix=$2 ;;
*) echo "usage: install.sh [--prefix FOLDER]" >&2; exit 1 ;;
esac
mkdir -p "$prefix"
prefix=$(cd "$prefix" && pwd -P)
rm -rf "$prefix/lib/ficus"
cp -R "$here/bin" "$here/lib" "$here/share" "$prefix/"
# (what Python compiles of the tools is kept, so that who may not write there needn't do it each time)
python3 -m compileall -q "$prefix/lib/ficus/tools" || true
echo "installed as $prefix/bin/ficus"
"""

COMPLETION = """\
# Completion of ficus for bash.
_ficus() {{
    local word=${{COMP_WORDS[COMP_CWORD]}} mode=${{COMP_WORDS[1]}}
    if [ "$COMP_CWORD" = 1 ]; then
        COMPREPLY=($(compgen -W "{modes} --help --version" -- "$word"))
        return
    fi
    if [ "$mode" = help ]; then
        COMPREPLY=($(compgen -W "{modes}" -- "$word"))
        return
    fi
    case $word in
    -*)
        case $mode in
{options}
        esac ;;
    *) COMPREPLY=($(compgen -f -- "$word")) ;;
    esac
}}
complete -o filenames -F _ficus ficus
"""


def add(parser: ArgumentParser) -> None:
    parser.description = DESCRIPTION
    parser.add_argument("-o", dest="out", metavar="FOLDER", type=Path, default=Path("."), help="where the archive goes")


def run(words: Namespace) -> int:
    if built.IS_INSTALLED:
        raise Fault("a release is made in a checkout, and this is installed", Status.UNFIT)
    name = f"ficus-{version()}-linux-x86_64"
    archive = words.out / f"{name}.tar.gz"
    with tarfile.open(archive, "w:gz") as made:
        for path, content, mode in _content():
            entry = tarfile.TarInfo(f"{name}/{path}")
            entry.size, entry.mode, entry.mtime = len(content), mode, int(time.time())
            made.addfile(entry, io.BytesIO(content))
    print(archive)
    return Status.DONE


def _content() -> list[tuple[str, bytes, int]]:
    """Each file of the archive: its path, its bytes and its mode."""
    files = [("bin/ficus", (TOP / "ficus").read_bytes(), 0o755), ("install.sh", INSTALL.encode(), 0o755),
             ("lib/ficus/ficus_cli", Path(built.program()).read_bytes(), 0o755)]
    for name in ("LICENSE", "VERSION", "docs/usage.txt", "docs/FORMATS.md"):
        files.append((f"lib/ficus/{name}", (TOP / name).read_bytes(), 0o644))
    for path in sorted((TOP / "tools").glob("*.py")):
        files.append((f"lib/ficus/tools/{path.name}", path.read_bytes(), 0o644))
    files.append(("lib/ficus/built", Path(built.NOTE).read_bytes(), 0o644))
    files.append(("lib/ficus/commit", (commit() or "no checkout").encode() + b"\n", 0o644))
    files.append(("BUILT", _what_built().encode(), 0o644))
    files.append(("LICENSE", (TOP / "LICENSE").read_bytes(), 0o644))
    files.append(("share/man/man1/ficus.1", manual().encode(), 0o644))
    files.append(("share/bash-completion/completions/ficus", completion().encode(), 0o644))
    return files


def version() -> str:
    return (TOP / "VERSION").read_text(encoding="ascii").strip()


def commit() -> str | None:
    """The commit of the sources, with a mark where files differ from it, as far as it is known."""
    if built.IS_INSTALLED:
        return (TOP / "commit").read_text(encoding="utf-8").strip()
    if not (TOP / ".git").exists():
        return None
    try:
        ran = subprocess.run(["git", "describe", "--always", "--dirty=, changed since", "--abbrev=12"], cwd=TOP,
                             capture_output=True, text=True, check=False)
    except OSError:
        return None
    return ran.stdout.strip() or None


def versions() -> str:
    """The version of the program, of the sources, and of the kit that proved them."""
    noted = building.noted() if built.is_built() else None
    summed = noted.sources if noted else building.sources()
    lines = [f"ficus {version()}", f"sources: {commit() or 'no checkout'}, sum {summed[:12]}"]
    lines.append(f"proved and built with {noted.kit or 'an unknown kit'}" if noted else "not built of these sources yet")
    return "\n".join(lines)


def _what_built() -> str:
    gate = Path(built.BUILD) / "gate"
    told = gate.read_text(encoding="utf-8").strip() if gate.exists() else ""
    noted = building.noted()
    if not noted or noted.sources not in told:
        told = "the gate has not passed over these sources here"
    return f"{versions()}\n{told}\n"


def manual() -> str:
    """The help as a page for man."""
    usage = (TOP / "docs" / "usage.txt").read_text(encoding="utf-8").replace("./ficus", "ficus")
    first, _, rest = usage.partition("\n\n")
    rows = [f".TP\n.B {code}\n{_plain(when)}" for code, when in formats.codes().items()]
    return "\n".join([
        f'.TH FICUS 1 "" "ficus {version()}"', ".SH NAME", "ficus \\- " + _plain(first.removeprefix("Ficus, ").rstrip(".")),
        ".SH SYNOPSIS", *(f".B ficus {_plain(mode.form)}\n.br" for mode in MODES.values()), ".SH DESCRIPTION", ".nf",
        _plain(rest), ".fi", ".SH EXIT STATUS", *rows, ""])


def _plain(text: str) -> str:
    """A text as a page for man spells it."""
    lines = text.replace("\\", "\\e").replace("-", "\\-").replace("`", "").split("\n")
    return "\n".join("\\&" + line if line[:1] in (".", "'") else line for line in lines)


def completion() -> str:
    options = [f"        {name}) COMPREPLY=($(compgen -W \"{' '.join(_options(name))}\" -- \"$word\")) ;;"
               for name in (*MODES, *TOOLS)]
    return COMPLETION.format(modes=" ".join([*MODES, *TOOLS, "prove", "help", "version"]), options="\n".join(options))


def _options(name: str) -> list[str]:
    if name in MODES:
        mode = MODES[name]
        return [*(option.name for option in (*mode.needs, *mode.may_have)), *mode.flags, "--help"]
    parser = ArgumentParser()
    import_module(TOOLS[name]).add(parser)
    return sorted({"--help", *re.findall(r"--[a-z]+", parser.format_help())})
