"""Sessions in a shell that stand in examples/: each line behind `$ ` is a command, and what it says stands below."""
import shutil
import subprocess
from pathlib import Path

TOP = Path(__file__).resolve().parent.parent


def lines_of(name):
    """The lines of the session, as they stand in its file."""
    return (TOP / "examples" / f"{name}.session").read_text().splitlines()


def carried_out(name, room):
    """The lines that the session has where its commands are carried out, in a new folder of its name below the room."""
    folder = room / name
    shutil.rmtree(folder, ignore_errors=True)
    folder.mkdir(parents=True)
    (folder / "ficus").symlink_to(TOP / "ficus")
    lines = []
    for line in lines_of(name):
        if line.startswith("$ "):
            ran = subprocess.run(["bash", "-c", line[2:]], cwd=folder, stdin=subprocess.DEVNULL, text=True,
                                 stdout=subprocess.PIPE, stderr=subprocess.STDOUT)
            lines += [line, *ran.stdout.splitlines()]
    return lines
