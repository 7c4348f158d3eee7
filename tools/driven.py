"""Scripts of one gateway that many workers carry out, and the transcripts of such runs."""
import subprocess

SPEAKING = {"declare", "undeclare", "interest", "interest-final", "declare-final", "close", "entities"}
OPENING = {"session", "face"}


def run(command, script):
    done = subprocess.run(command, input=script, stdout=subprocess.PIPE, timeout=120)
    return done.returncode, done.stdout.decode()


def is_driven(lines):
    words = [line.split(" ")[0] for line in lines]
    if words and words[0] != "gateway":
        return False
    rest = words[1:]
    while rest and rest[0] in OPENING:
        rest.pop(0)
    return all(word in SPEAKING for word in rest)


def entries(text):
    """The entries of a transcript, each with the number of its line, and the last line."""
    found = []
    *lines, total = text.splitlines()
    for line in lines:
        if line.startswith("> "):
            found[-1][1].append(line)
        else:
            number, rest = line.split(" ", 1)
            found.append((int(number), [rest]))
    return found, total


def keeps_faces(lines, order):
    """Whether the order keeps the lines that speak for no face, and those of each face."""
    faces = {}
    for number in order:
        words = lines[number - 1].split(" ")
        face = words[1] if words[0] in SPEAKING else None
        if faces.get(face, 0) > number:
            return False
        faces[face] = number
    return True
