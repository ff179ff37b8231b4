#!/usr/bin/env python3
"""The crate `log` is called `message_log`: today's library has a crate `log`. Run once, at the top, after respell.py."""
import glob
import os
import re

for path in sorted(glob.glob("crates/**/*.*", recursive=True) + glob.glob("tests/tried/*/*")):
    if "/out/" in path or not path.endswith((".rt", ".antt", ".edit")):
        continue
    text = open(path, encoding="utf-8").read()
    said = re.sub(r"\bRattle\.log\.", "Rattle.message_log.", text)
    if path.endswith(".antt"):
        # What the toolchain makes of a path in the source.
        said = re.sub(r"#log·", "#message_log·", said)
    else:
        said = re.sub(r"(?<![\w.:])log::", "message_log::", said)
    if said != text:
        open(path, "w", encoding="utf-8").write(said)

lines = open("crates.txt", encoding="utf-8").read().split("\n")
with open("crates.txt", "w", encoding="utf-8") as out:
    out.write("\n".join(line if line.startswith("#") else re.sub(r"\blog\b", "message_log", line) for line in lines))
os.rename("crates/log", "crates/message_log")
os.rename("tests/tried/log", "tests/tried/message_log")
