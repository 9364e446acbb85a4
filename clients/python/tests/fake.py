"""A stand-in for the program, for what can be shown without it.

    fake.py FOLDER WORDS ..

It answers each line with the next line of FOLDER/answers. `exit N` in place of an answer ends it with status N behind
the line, and `leave` with status 4 before it. A line of usage is written before a line is read, and ends it with status
2. It writes its words to FOLDER/words, and the lines that it reads to FOLDER/asked.
"""
import os
import sys
from typing import List


def main(folder: str, words: List[str]) -> int:
    with open(os.path.join(folder, "words"), "w") as file:
        file.write(" ".join(words))
    with open(os.path.join(folder, "answers"), "rb") as file:
        answers = file.read().splitlines(keepends=True)
    with open(os.path.join(folder, "asked"), "wb", buffering=0) as asked:
        for answer in answers:
            if answer == b"leave\n":
                return 4
            if answer.startswith(b"mprof:"):
                os.write(1, answer)
                return 2
            line = sys.stdin.buffer.readline()
            if not line:
                return 0
            asked.write(line)
            if answer.startswith(b"exit "):
                return int(answer.split()[1])
            sys.stdout.buffer.write(answer)
            sys.stdout.buffer.flush()
        sys.stdin.buffer.read()
    return 0


if __name__ == "__main__":
    sys.exit(main(sys.argv[1], sys.argv[2:]))
