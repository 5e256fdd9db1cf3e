#!/usr/bin/env python3
"""Two tables of names, and their groups by check_migration.py and by a server.

    check_groups.py make OLD COUNT SEED > tables.sql           fills the tables, under OLD
    check_groups.py groups NEW > groups.sql                    asks the server for its groups
    check_groups.py compare FOLDER SERVER_GROUPS               FOLDER is what --keep kept

It is a part of check_server.sh, which dumps the tables and runs check_migration.py towards NEW.
"""

import random
import re
import sys
from pathlib import Path

from migration.answers import Groups, read_answers
from weights.sets import literal

SYLLABLES = "mül ler ber straß stras gar cía jo sé łu ka šić an der sen ô neil é mi le ñu ÿ".split()
KANA = "カガかが ハバパはばぱ タダただ ﾊﾞﾀ ーゝ々 ヵヶ".replace(" ", "")
OTHERS = {"ä": "ae", "ö": "oe", "ü": "ue", "ß": "ss", "ss": "ß", "é": "e", "é": "é", "ł": "l"}
IGNORABLE = "\u00ad\u200d\u200b\ufeff\u0001"
RARE = ["'", "\\", "\n", "\t", '"', "\r", "\x1a", "\\N", ",", ";", "--", "😀", "𝒜"]

TABLES = """SET NAMES utf8mb4;
CREATE DATABASE names CHARACTER SET utf8mb4 COLLATE {old};
USE names;
CREATE TABLE people (id INT PRIMARY KEY, name VARCHAR(60) NOT NULL, UNIQUE KEY name (name));
CREATE TABLE visits (id INT PRIMARY KEY, name VARCHAR(60), day INT, KEY name (name(10)),
  UNIQUE KEY once (name, day));
"""

KEYS = [("people", "name"), ("visits", "name, day"), ("visits", "name")]
"""What is grouped, in the order in which check_migration.py asks for it in each table."""


def some_name(draw: random.Random) -> str:
    """A name of a few syllables or kana."""
    if draw.random() < 0.15:
        return "".join(draw.choice(KANA) for _ in range(draw.randint(1, 4)))
    name = "".join(draw.choice(SYLLABLES) for _ in range(draw.randint(1, 3)))
    return draw.choice([name.title(), name])


def near(name: str, draw: random.Random) -> str:
    """The name, or one that some collation may take for it."""
    way = draw.randrange(7)
    if way == 0:
        return name.swapcase()
    if way == 1:
        return name + " " * draw.randint(1, 3)
    if way == 2:
        place = draw.randint(0, len(name))
        return name[:place] + draw.choice(IGNORABLE) + name[place:]
    if way == 3:
        return "".join(OTHERS.get(char, char) for char in name)
    if way == 4:
        return name.replace("ss", "ß")
    if way == 5 and draw.random() < 0.3:
        place = draw.randint(0, len(name))
        return name[:place] + draw.choice(RARE) + name[place:]
    return name


def make(old: str, count: int, seed: int) -> None:
    """Prints the statements that fill the tables; a row that the server refuses is left out."""
    draw = random.Random(f"{seed} {old}")
    print(TABLES.format(old=old), end="")
    names = [some_name(draw) for _ in range(count // 3)]
    print("START TRANSACTION;")
    for number in range(1, count + 1):
        name = literal("utf8mb4", near(draw.choice(names), draw).encode())
        print(f"INSERT IGNORE INTO people VALUES ({number}, {name});")
        name = "NULL" if draw.random() < 0.02 else name
        print(f"INSERT IGNORE INTO visits VALUES ({number}, {name}, {draw.randint(1, 2)});")
    print("COMMIT;")


def ask_groups(new: str) -> None:
    """Prints the statements by which the server lists its groups of several rows."""
    print("USE names;\nSET group_concat_max_len = 1000000;")
    for table, columns in KEYS:
        keys = columns.replace("name", f"name COLLATE {new}")
        print(
            f"SELECT '{table} {columns}', GROUP_CONCAT(id ORDER BY id) FROM {table}"
            f" WHERE name IS NOT NULL GROUP BY {keys} HAVING COUNT(*) > 1;"
        )


def server_groups(path: str) -> dict[str, set[frozenset[int]]]:
    """The server's groups, by what is grouped."""
    found: dict[str, set[frozenset[int]]] = {f"{table} {key}": set() for table, key in KEYS}
    for line in Path(path).read_text().splitlines():
        title, ids = line.split("\t")
        found[title].add(frozenset(map(int, ids.split(","))))
    return found


def our_groups(folder: Path, table: str, number: int) -> Groups:
    """The groups of a table's key by what mycoll answered; the last cell of a row is its id."""
    script = (folder / f"{table}.sql").read_text(encoding="utf-8")
    labels = re.findall(r"^SELECT \S+ AS (\w+)|^(EXPLAIN)", script, re.MULTILINE)
    names = [label or "key" for label, _ in labels]
    answers = dict(zip(names, read_answers(folder / f"{table}.answers", names, 0)))
    return Groups(answers[f"new_groups_{number}"], answers[f"new_rows_{number}"])


def compare(folder: str, path: str) -> int:
    """Prints the share of groups that agree, and each that doesn't; 0 where all agree."""
    theirs, status, numbers = server_groups(path), 0, {}
    for table, columns in KEYS:
        title = f"{table} {columns}"
        numbers[table] = numbers.get(table, 0) + 1
        found = our_groups(Path(folder), table, numbers[table])
        if found.fault:
            print(f"{title}: nothing to compare: {found.fault}")
            status = 1
            continue
        ids = {row: int(cells[-1]) for row, cells in found.cells.items()}
        names = {int(cells[-1]): cells[0] for cells in found.cells.values()}
        ours = {frozenset(ids[row] for row in rows) for rows in found.groups if len(rows) > 1}
        both, either = ours & theirs[title], ours | theirs[title]
        share = 100 * len(both) / len(either) if either else 100
        print(
            f"{title}: {len(both)} of {len(either)} groups of {len(ids)} rows agree ({share:.2f} %)"
        )
        for group in sorted(either - both, key=sorted):
            said = "mycoll" if group in ours else "server"
            print(f"    {said}: {', '.join(f'{each} {names[each]!r}' for each in sorted(group))}")
            status = 1
    return status


def main(words: list[str]) -> int:
    """The status: 0, 1 where groups differ, 2 for other words."""
    if len(words) == 4 and words[0] == "make":
        make(words[1], int(words[2]), int(words[3]))
    elif len(words) == 2 and words[0] == "groups":
        ask_groups(words[1])
    elif len(words) == 3 and words[0] == "compare":
        return compare(words[1], words[2])
    else:
        print(__doc__, file=sys.stderr)
        return 2
    return 0


if __name__ == "__main__":
    sys.exit(main(sys.argv[1:]))
