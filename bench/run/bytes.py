"""Prints how often a run read and wrote the bytes of each large file.

usage: bytes.py TRACE SIZE FOLDER WORDS

TRACE is what `strace -f -y` says of the calls that read and write. The file that a process has read last is what it writes next: so many bytes are a
copy. WORDS say what the run was, FOLDER is left out of the paths, and a file of less than a tenth of SIZE bytes has no line.
"""

import collections
import re
import sys


class Moved:
    """The bytes of a file that the program, and that its children have read and written, and those that the program has copied."""

    def __init__(self):
        self.program, self.children, self.copied = [0, 0], [0, 0], 0

    def most(self):
        return max(*self.program, *self.children)


def moves(trace):
    """Yields each call of a trace: the process, and the path that it read or none, the path that it wrote or none, and the bytes."""
    for line in trace:
        process, call = line.split(None, 1)
        one = re.match(r"p?(read|write)(?:64)?\(\d+<([^>]*)>.* = (\d+)$", call)
        two = re.match(r"(copy_file_range|sendfile)\(\d+<([^>]*)>, (?:NULL, |\[\d+\], )?\d+<([^>]*)>.* = (\d+)$", call)
        if one and one[1] == "read":
            yield process, one[2], None, int(one[3])
        elif one:
            yield process, None, one[2], int(one[3])
        elif two and two[1] == "copy_file_range":
            yield process, two[2], two[3], int(two[4])
        elif two:
            yield process, two[3], two[2], int(two[4])


def told(trace):
    """Returns of each path what was moved. The first process of the trace is the program."""
    found, program, last = collections.defaultdict(Moved), None, {}
    for process, source, target, count in moves(trace):
        program = program or process
        if source:
            last[process] = source
            (found[source].program if process == program else found[source].children)[0] += count
        if target:
            (found[target].program if process == program else found[target].children)[1] += count
            if process == program and process in last:
                found[last[process]].copied += count
    return found


def main():
    file, size, folder, words = sys.argv[1], int(sys.argv[2]), sys.argv[3], sys.argv[4]
    with open(file) as trace:
        found = told(trace)
    print(f"{words:45}{'read':>7}{'copied':>8}{'beside':>8}{'written':>9}   by children: read  written")
    for path, it in found.items():
        if it.most() >= size // 10:
            (read, written), (child_read, child_written) = ([count / size for count in pair] for pair in (it.program, it.children))
            copied = it.copied / size
            mark = "!" if read - copied > 1.1 else " "
            name = path.replace(folder + "/", "")
            print(f"  {name:43}{read:7.2f}{copied:8.2f}{read - copied:8.2f}{mark}{written:8.2f}{child_read:20.2f}{child_written:9.2f}")


if __name__ == "__main__":
    main()
