"""Texts that were altered at random: JSON by its bytes and by its structure, certificates by their lines, databases by their pages and by SQL.

Each of the functions takes what chance decides (`random.Random`), so that a seed gives the same texts again.
"""

import copy
import json
import sqlite3

# What is put among the bytes of a text: marks of JSON, of references and of paths, numbers at limits, and what a terminal hides.
TOKENS = [
    *("{", "}", "[", "]", '"', ":", ",", "\\", "\\u0000", "\\ud800", "null", "true", "1.5", "-0", "1e999", "0x1", "//", "#", "$(", "${", "$(inputs.", "\\$(", ")", "'", "*", "?"),
    *("9223372036854775807", "9223372036854775808", "-9223372036854775809", "18446744073709551616", "1000000000001", "4096", "4097", "65537"),
    *("..", "/", "./", "file:///", "http://h/y", "%00", "%FF", "#main", "cwl.output.json", "\x1b[2J", "\r", "\n", "\x00", "\u202e", "\x9b", "\u00e9", "\U0001f600"),
]
NAMES = ["class", "id", "type", "items", "run", "in", "out", "steps", "inputs", "outputs", "source", "default", "scatter", "when", "glob", "location", "path", "basename", "listing", "$graph", "$import", "cwlVersion", "x:y", "", "\n"]
VALUES = [None, True, False, 0, 1, -1, 1.5, 2**31, 2**63 - 1, 2**63, -(2**63), 2**64, "", "a", "int", "File", "Any", "string[]", "[]", "$(inputs.x)", "${1}", "#main", "a/b", "\x1b[2J\u202e", [], {}, [[]], {"class": "File"}, {"class": "File", "location": "given"}, {"class": "Directory", "listing": []}]
NUMBERS = ["0", "1", "3", "13", "4096", "4097", "65536", "65537", "1000000000000", "1000000000001", "18446744073709551615", "18446744073709551616", "-1", "00", "1.0", "x"]


def altered_bytes(chance, content, others=()):
    """Returns the bytes with one to four changes: a byte, a piece left out, doubled, moved or cut off, a token put in, or a piece of another text."""
    content = bytearray(content)
    for _ in range(chance.choice((1, 1, 1, 2, 4))):
        size = len(content)
        at = chance.randrange(size + 1)
        to = min(size, at + chance.choice((1, 2, 8, 64)))
        kind = chance.randrange(8)
        if kind == 0 and at < size:
            content[at] ^= 1 << chance.randrange(8)
        elif kind == 1 and at < size:
            content[at] = chance.randrange(256)
        elif kind == 2:
            del content[at:to]
        elif kind == 3:
            content[at:at] = content[at:to]
        elif kind == 4:
            del content[at:]
        elif kind == 5:
            piece = content[at:to]
            del content[at:to]
            where = chance.randrange(len(content) + 1)
            content[where:where] = piece
        elif kind == 6 and others:
            other = chance.choice(others)
            begin = chance.randrange(len(other) + 1)
            content[at:to] = other[begin : begin + chance.choice((4, 32, 256))]
        else:
            content[at:at] = chance.choice(TOKENS).encode()
    return bytes(content)


def holders(value):
    """Returns each list and object in a value that holds something."""
    found = [value] if isinstance(value, (list, dict)) and value else []
    for it in value.values() if isinstance(value, dict) else value if isinstance(value, list) else ():
        found += holders(it)
    return found


def nested(chance):
    """Returns JSON that nests as deep as a limit, or one deeper."""
    value = chance.choice(([], {}, 1))
    for _ in range(chance.choice((16, 17, 98, 100, 101, 127, 128, 1_000))):
        value = [value] if chance.random() < 0.7 else {chance.choice(NAMES): value}
    return value


def some_value(chance, others):
    kind = chance.randrange(10)
    if kind == 0:
        return nested(chance)
    if kind == 1:
        return chance.choice("an\n\x00\u00e9") * chance.choice((199, 201, 5_000, 100_000))
    if kind == 2:
        return [chance.choice(VALUES)] * chance.choice((2, 17, 4_097))
    if kind < 6 and others:
        held = holders(chance.choice(others))
        return chance.choice(held) if held else {}
    return chance.choice(VALUES)


def altered_value(chance, text, others):
    """Returns a JSON text in which one to three members are left out, renamed, doubled, moved, or of another value."""
    value = json.loads(text)
    for _ in range(chance.choice((1, 1, 2, 3))):
        held = holders(value)
        if not held:
            return json.dumps(some_value(chance, others)).encode()
        holder = chance.choice(held)
        keys = [*holder] if isinstance(holder, dict) else [*range(len(holder))]
        key, kind = chance.choice(keys), chance.randrange(6)
        if kind == 0:
            del holder[key]
        elif kind == 1 and isinstance(holder, dict):
            holder[chance.choice(NAMES)] = holder.pop(key)
        elif kind == 1:
            holder.append(holder[key])
        elif kind == 2:
            holder[key] = [holder[key]]
        elif kind == 3:
            other = chance.choice(held)
            holder[key] = json.loads(json.dumps(other)) if len(json.dumps(other)) < 10_000 else None
        else:
            # (a copy, since a piece that is put into itself has no end)
            holder[key] = copy.deepcopy(some_value(chance, others))
    return json.dumps(value, ensure_ascii=chance.random() < 0.5).encode(errors="surrogatepass")


def altered_json(chance, text, others):
    """Returns a JSON text that was altered by its bytes or by its structure, where `others` are texts that pieces may come from."""
    if chance.random() < 0.4:
        return altered_bytes(chance, text, others)
    try:
        return altered_value(chance, text, [json.loads(it) for it in chance.sample(others, min(3, len(others)))])
    except (RecursionError, MemoryError):
        # (pieces that were put into one another grew too large)
        return text


def altered_lines(chance, text, others):
    """Returns a certificate that was altered by its bytes, by its lines, or by the numbers in one."""
    if chance.random() < 0.3:
        return altered_bytes(chance, text, others)
    lines = text.decode().splitlines()
    for _ in range(chance.choice((1, 1, 2, 4))):
        at, kind = chance.randrange(len(lines)), chance.randrange(6)
        if kind == 0 and len(lines) > 1:
            del lines[at]
        elif kind == 1:
            lines.insert(at, lines[chance.randrange(len(lines))])
        elif kind == 2:
            lines[at] = chance.choice(others).decode().splitlines()[-2]
        else:
            fields = lines[at].split(" ")
            where = chance.randrange(len(fields))
            number = fields[where]
            near = [str(max(0, int(number) + step)) for step in (-1, 1, 10)] if number.isdecimal() and len(number) < 30 else []
            fields[where] = chance.choice([*near, *near, *NUMBERS, "L", "C", "P", "-", ""])
            lines[at] = " ".join(fields)
    return ("\n".join(lines) + chance.choice(("\n", "\n", "\n", "", "\n\n"))).encode()


# Statements on a record: rows that don't read or that lie, tables that are views, other databases' forms.
STATEMENTS = [
    *("DELETE FROM meta", "UPDATE meta SET value = 1", "UPDATE meta SET value = 3", "UPDATE meta SET value = -1", "INSERT INTO meta VALUES ('more', 1)", "DROP TABLE job", "DROP TABLE meta", "DELETE FROM job"),
    *("UPDATE job SET outputs = ''", "UPDATE job SET outputs = '[1]'", "UPDATE job SET outputs = '{\"o\":1.5}'", "UPDATE job SET files = '{}'", "UPDATE job SET files = '[[\"a\",false,-1,\"\"]]'"),
    *("UPDATE job SET files = '[[\"../a\",false,1,\"\"]]'", "UPDATE job SET files = '[[\"/etc/passwd\",false,1,\"x\"]]'", "UPDATE job SET outputs = '{\"o\":{\"class\":\"File\",\"location\":\"../../x\"}}'"),
    *("UPDATE job SET archived = 1 - archived", "UPDATE job SET cost = 1000000000000", "UPDATE job SET key = key || 'x'", "UPDATE job SET outputs = replace(outputs, 'o', 'p')"),
    *("DROP TABLE archive", "DELETE FROM archive", "UPDATE archive SET used = 9223372036854775807", "UPDATE archive SET bytes = 9223372036854775807", "UPDATE archive SET key = key || 'x'"),
    *("INSERT INTO archive SELECT key || rowid, bytes, used + 7 FROM archive", "ALTER TABLE archive RENAME COLUMN used TO uses", "ALTER TABLE archive RENAME TO kept; CREATE VIEW archive AS SELECT * FROM kept"),
    *("UPDATE job SET outputs = zeroblob(0) || printf('%.*c', 100000, '[')", "INSERT INTO job SELECT key || rowid, outputs, files, cost, archived FROM job"),
    *("ALTER TABLE job RENAME COLUMN cost TO costs", "ALTER TABLE job ADD COLUMN more TEXT", "CREATE TABLE more (key TEXT PRIMARY KEY)", "CREATE INDEX i ON job (cost)"),
    *("ALTER TABLE meta RENAME TO kept; CREATE VIEW meta AS SELECT * FROM kept", "ALTER TABLE job RENAME TO kept; CREATE VIEW job AS SELECT * FROM kept", "CREATE TRIGGER t AFTER INSERT ON job BEGIN DELETE FROM job; END"),
    *("DROP TABLE job; CREATE VIEW job AS WITH RECURSIVE n(i) AS (SELECT 1 UNION ALL SELECT i + 1 FROM n) SELECT i AS key, i AS outputs, i AS files, i AS cost, i AS archived FROM n",),
    *("DROP TABLE meta; CREATE VIEW meta AS WITH RECURSIVE n(i) AS (SELECT 1 UNION ALL SELECT i + 1 FROM n) SELECT 'version' AS name, i AS value FROM n",),
    *("PRAGMA auto_vacuum = 1; VACUUM", "PRAGMA page_size = 512; VACUUM", "PRAGMA page_size = 65536; VACUUM", "PRAGMA user_version = 7", "PRAGMA application_id = 7", "CREATE VIRTUAL TABLE words USING fts5(a)"),
]
# Where a database's header has its sizes, versions, encodings and counts.
HEADER = [16, 17, 18, 19, 20, 21, 22, 23, 24, 28, 31, 36, 40, 44, 47, 52, 56, 59, 60, 64, 92, 96, 100, 101, 103, 105, 107]


def altered_database(chance, path, others):
    """Alters the database at a path, by SQL or by its bytes, and sometimes puts a log beside it."""
    kind = chance.randrange(4)
    if kind < 2:
        for statement in chance.sample(STATEMENTS, chance.choice((1, 1, 2))):
            store = sqlite3.connect(path)
            try:
                store.executescript(statement)
            except sqlite3.Error:
                # the statement before has taken away what it is about
                pass
            finally:
                store.close()
    if kind == 1 or kind == 2:
        with open(path, "r+b") as it:
            content = bytearray(it.read())
            for _ in range(chance.choice((1, 2, 8))):
                # a third of the changes are in the header
                at = chance.choice(HEADER) if chance.random() < 0.4 else chance.randrange(len(content))
                content[min(at, len(content) - 1)] = chance.choice((0, 1, 2, 4, 16, 128, 255, chance.randrange(256)))
            it.seek(0)
            it.write(content[: chance.choice((len(content), len(content), len(content), chance.randrange(len(content) + 1)))])
            it.truncate()
    if kind == 3:
        with open(path, "rb") as it:
            content = it.read()
        with open(path, "wb") as it:
            it.write(altered_bytes(chance, content, others))
    if chance.random() < 0.1:
        with open(f"{path}-wal", "wb") as it:
            it.write(chance.choice((b"", b"x", bytes(32), bytes(chance.randrange(256) for _ in range(5_000)))))
