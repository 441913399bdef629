"""What the documents show of books. There a block whose first line is `; NAME` or `# NAME` is a file, of which `# NAME` is no part;
a line that begins with `$ ` is a command, and what follows is its output."""

import re
from pathlib import Path


def blocks(text):
    """The blocks of a document, a line of four blanks in front of each line, as lists of lines."""
    return [it.splitlines() for it in re.split(r"\n(?:(?! {4}).*\n?)+", re.sub(r"(?m)^ {4}\n", "\n", "\n" + text)) if it.strip()]


def samples(text, room):
    """Each command of a document with its output, once the files in front of it stand in a folder."""
    for block in blocks(text):
        lines = [it[4:] for it in block]
        file = re.fullmatch(r"([;#]) ([\w-]+\.\w+|Makefile)", lines[0])
        if file:
            Path(room, file[2]).write_text("\n".join(lines[file[1] == "#":]) + "\n")
        elif lines[0].startswith("$ "):
            for part in re.split(r"(?m)^\$ ", "\n".join(lines))[1:]:
                command, _, wanted = part.partition("\n")
                yield command, wanted.rstrip("\n")
