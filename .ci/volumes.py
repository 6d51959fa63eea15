"""A day's work of three members, what a volume shows after each of its commands, and the images and records of replicas."""
import struct
import subprocess

# Each command is answered by one line. Each but the pulls is one save.
DAY = r"""
1 mkdir /notes
1 create /notes/todo lines
1 write /notes/todo "milk\n"
1 create /plan plain
1 write /plan "draft\n"
pull 2 1
pull 3 1
2 write /notes/todo "bread\nmilk\n"
3 write /notes/todo "eggs\nmilk\n"
1 write /plan "final A\n"
3 write /plan "final B\n"
pull 1 2
pull 1 3
1 resolve /notes/todo
1 settle /plan "final A and B\n"
pull 3 1
3 mv /plan /notes/plan
2 ln /plan /outline
1 rm /plan
pull 2 3
pull 1 2
pull 3 1
pull 2 1
1 rm /outline
2 rm /notes/plan
pull 1 2
pull 2 1
3 collect
pull 3 2
pull 1 3
pull 2 1
pull 3 2
1 collect
2 collect
3 collect
""".strip().splitlines()

# What the members show. An answer is a line, and of a listing so many more as it says.
LOOKS = [f"{member} {look}" for member in (1, 2, 3)
         for look in ("tree", "marks", "orphans", "conflicts", "versions /notes/todo", "versions /plan")]
LISTINGS = ("tree", "marks", "orphans", "conflicts", "versions")


def script_of(commands):
    return "".join(f"{command}\n" for command in commands).encode()


def answers_of(output, commands):
    """The answer to each of the commands, as lines."""
    lines = output.decode().splitlines()
    answers = []
    for command in commands:
        count = 1
        if command.split()[1] in LISTINGS and lines and lines[0].startswith("ok "):
            count += int(lines[0].split()[1])
        answers.append(lines[:count])
        del lines[:count]
    return answers


def replayed(program, commands):
    """The answer to each of the commands over a fresh volume of three members in memory."""
    words = [program, "replay", "--members", "3"]
    ran = subprocess.run(words, input=script_of(commands), capture_output=True, check=True)
    return answers_of(ran.stdout, commands)


def shown_after_each(program, commands, looks=LOOKS):
    """What the members show at first, and after each of the commands."""
    given = replayed(program, looks + [line for command in commands for line in [command, *looks]])
    return [given[at:at + len(looks)] for at in range(0, len(given), len(looks) + 1)]


def image(member, members, made, tables, saves=None, used=0, version=2):
    """The image of a member that has made so many updates, and written so many bytes, with the default limits, and saved
    so often, or once for each."""
    saves = made if saves is None else saves
    begin = b"FIC%d" % version
    return struct.pack(">4sBBIIIIQ", begin, member, members, 100_000, 4_194_304, made + 1, used, saves) + tables


def slot(generation, image):
    return struct.pack(">BQQ", 1, generation, len(image)) + image + b"\0"


def logged(held, generation, *bodies):
    """What a file holds that held what is of this generation, with records of these bodies behind it."""
    for number, body in enumerate(bodies, generation + 1):
        held = held[:-1] + struct.pack(">BQI", 1, number, len(body)) + body + b"\0"
    return held


def making(name):
    """The body of the record of a directory that is made in the root."""
    return struct.pack(">B5xB", 1, len(name)) + name + b"\0"


def directories(members, made, version=2):
    """The slot with the image of member 1 that has made so many directories, each with a name of eight digits."""
    identifiers = [struct.pack(">BI", 1, number) for number in range(1, made + 1)]
    entries = [it + bytes(5) + b"\x08%08d" % number + it + b"\0" for number, it in enumerate(identifiers)]
    files = [it + bytes(2 + 4 * members) for it in identifiers]
    tables = b"".join([struct.pack(">I", made), *entries, struct.pack(">I", made), *files])
    return slot(made, image(1, members, made, tables, version=version))


def smallest_files(members, made):
    """The slot with the image of member 1 that has made so many files, each of one byte, to which no entry leads. Of all
    rows these take most memory beside what spells them, where the members are few."""
    count = struct.pack(f">{members}I", 1, *[0] * (members - 1))
    files = [struct.pack(">BIBB", 1, number, 1, 1) + count + b"\0\1x" + count for number in range(1, made + 1)]
    tables = struct.pack(">II", 0, made) + b"".join(files)
    return slot(made, image(1, members, made, tables, used=made))
