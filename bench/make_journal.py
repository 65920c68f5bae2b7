#!/usr/bin/env python3
"""Makes a folder with a recording of so many rows and changes, and these changes in a target store's journal and in a segment: make_journal.py
FOLDER CHANGES

Of each ten changes six are inserts of new rows, three are updates of rows that stand, and one is a delete, over
keys in no order. A transaction has 500 changes of channel 1."""

import json
import os
import sys

folder, changes = sys.argv[1], int(sys.argv[2])
SCHEMA = {
    "tables": [
        {
            "schema_name": "public",
            "table_name": "users",
            "columns": [{"name": "id", "type": "bigint"}, {"name": "email", "type": "text"}],
            "primary_key": ["id"],
            "unique_keys": [{"columns": ["email"]}],
        }
    ]
}


def scattered(number):
    """A number of its own for each number below 2^32."""
    return number * 2654435761 % 2**32


def event(vsn, op, key, before, after):
    row = lambda email: None if email is None else {"email": email, "id": key}
    fields = {
        "before_fields": row(before),
        "exporter_role": "source_db_exporter",
        "fields": row(after),
        "key": {"id": key},
        "op": op,
        "schema_name": "public",
        "table_name": "users",
        "vsn": vsn,
    }
    return json.dumps(fields, separators=(",", ":")).encode()


def events():
    rows, made = [], 0
    for vsn in range(1, changes + 1):
        turn = vsn % 10
        at = scattered(vsn) % len(rows) if rows else 0
        if turn in (2, 5, 8) and rows:
            key, before = rows[at]
            rows[at] = (key, f"v{vsn}@example.com")
            yield event(vsn, "u", key, before, rows[at][1])
        elif turn == 9 and rows:
            rows[at], rows[-1] = rows[-1], rows[at]
            key, before = rows.pop()
            yield event(vsn, "d", key, before, None)
        else:
            made += 1
            rows.append((str(scattered(made)), f"u{made}@example.com"))
            yield event(vsn, "c", rows[-1][0], None, rows[-1][1])


def number(n):
    return n.to_bytes(4, "big")


def payloads(all_lines):
    lines = []
    for line in all_lines:
        lines.append(number(len(line)) + line)
        if len(lines) == 500:
            yield b"E" + number(1) + number(len(lines)) + b"".join(lines)
            lines = []
    if lines:
        yield b"E" + number(1) + number(len(lines)) + b"".join(lines)


for name in ("recording", "target", "export"):
    os.makedirs(os.path.join(folder, name))
with open(os.path.join(folder, "recording", "schema.json"), "w") as schema:
    json.dump(SCHEMA, schema)
made = list(events())
with open(os.path.join(folder, "target", "store.journal"), "wb") as journal:
    for payload in payloads(made):
        journal.write(b"\x01" + number(len(payload)) + payload)
    journal.write(b"\x00")
with open(os.path.join(folder, "export", "segment.0.ndjson"), "wb") as segment:
    segment.write(b"".join(line + b"\n" for line in made))
with open(os.path.join(folder, "recording", "public.users.csv"), "w") as rows:
    rows.write("id,email\n" + "".join(f"{scattered(n)},r{n}@example.com\n" for n in range(1, changes + 1)))
with open(os.path.join(folder, "recording", "changes.ndjson"), "w") as recorded:
    for vsn, line in enumerate(made, 1):
        change = json.loads(line)
        names = ("op", "schema_name", "table_name", "key", "fields", "before_fields")
        recorded.write(json.dumps({"commit": vsn, "seq": 1} | {name: change[name] for name in names}, separators=(",", ":")) + "\n")
