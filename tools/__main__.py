"""`./ficus`: finds what its words ask for, says what is wrong with them, proves and builds the program where that is to be
done, and runs it or a tool. The tools ask the program and know nothing that it doesn't print. None of this is proved."""
from __future__ import annotations

import os
import sys

from built import COMMAND, TOP
from faults import Fault, Status, say
from modes import MODES, RUN, Misuse, judge, likely, place_of_mode
from tools_list import SERVE, TOOLS

TYPE_CHECKING = False
if TYPE_CHECKING:
    from argparse import ArgumentParser
    from collections.abc import Sequence

# What the launcher itself does.
PROVE, HELP, VERSION = "prove", "help", "version"
HELP_WORDS = ("-h", "--help")
VERSION_WORD = "--version"
KNOWN = (*MODES, *TOOLS, PROVE, HELP, VERSION)
USAGE = f"usage: {COMMAND} MODE ..., where MODE is one of {', '.join(KNOWN)}; {COMMAND} help MODE explains one"


def parser_of(name: str) -> ArgumentParser:
    from importlib import import_module
    from argparse import RawDescriptionHelpFormatter

    from words import Words
    parser = Words(prog=f"{COMMAND} {name}", allow_abbrev=False, formatter_class=RawDescriptionHelpFormatter)
    import_module({**TOOLS, **SERVE}[name]).add(parser)
    return parser


def run_tool(name: str, words: Sequence[str]) -> int:
    from importlib import import_module
    parsed = parser_of(name).parse_args(words)
    prove()
    return int(import_module({**TOOLS, **SERVE}[name]).run(parsed))


def tell_help(words: Sequence[str]) -> int:
    """Tells of one mode or tool, or of all."""
    name = words[0] if words else None
    if name in MODES:
        print(MODES[name].help)
    elif name in TOOLS:
        print(parser_of(name).format_help(), end="")
    elif name in (None, HELP, PROVE, VERSION):
        with open(os.path.join(TOP, "docs", "usage.txt"), encoding="utf-8") as usage:
            sys.stdout.write(usage.read().replace("./ficus", COMMAND))
    else:
        raise Misuse(f"no mode is called {name}{likely(name or '', KNOWN)}", USAGE)
    return Status.DONE


def tell_version() -> int:
    import release
    print(release.versions())
    return Status.DONE


def prove() -> None:
    import built
    if not built.is_built():
        import building
        building.prove()


def carry_out(words: list[str]) -> int:
    place = place_of_mode(words)
    if place is None:
        if VERSION_WORD in words:
            return tell_version()
        if any(word in HELP_WORDS for word in words):
            return tell_help([])
        raise Misuse("no mode is given", USAGE)
    name, behind = words[place], [*words[:place], *words[place + 1:]]
    if name == HELP:
        return tell_help(behind)
    if any(word in HELP_WORDS for word in behind) and "--" not in words:
        return tell_help([name])
    if name in (PROVE, VERSION) and behind:
        raise Misuse(f"{name} takes no words", USAGE)
    if name == VERSION:
        return tell_version()
    if name in TOOLS or name in SERVE:
        return run_tool(name, behind)
    if name == PROVE:
        prove()
        say("the program is proved and built of these sources")
        return Status.DONE
    if name not in MODES:
        raise Misuse(f"no mode is called {name}{likely(name, KNOWN)}", USAGE)
    call = judge(MODES[name], words)
    if call.mode is RUN and call.root is not None and not call.flags and os.isatty(0):
        return run_tool("shell", ["--", call.root])
    from launching import launch
    return launch(call)


def main() -> int:
    try:
        return carry_out(sys.argv[1:])
    except Fault as fault:
        say(str(fault))
        return fault.status
    except BrokenPipeError:
        # Whoever read has gone; nothing more is to be said.
        os.dup2(os.open(os.devnull, os.O_WRONLY), sys.stdout.fileno())
        return Status.OUTSIDE
    except OSError as error:
        where = os.fsdecode(error.filename) if error.filename else "the system"
        say(f"{where}: {error.strerror}")
        return Status.OUTSIDE
    except KeyboardInterrupt:
        say("interrupted")
        return Status.INTERRUPTED


sys.exit(main())
