#!/usr/bin/env python3
"""Brings names of definitions and lemmas in the pages (README.md, docs/) to their spelling in the crates.

usage: python3 tools/respell_pages.py MAP PAGE..     MAP is a JSON object from each older name to today's
Only whole words within backticks change.
"""

import json
import re
import sys

WORD = re.compile(r"[^\s(){}.,;:\[\]/]+")


def main(argv):
    with open(argv[1], encoding="utf-8") as f:
        new = json.load(f)
    for page in argv[2:]:
        with open(page, encoding="utf-8") as f:
            text = f.read()
        turned = re.sub(r"`[^`\n]+`", lambda m: WORD.sub(lambda w: new.get(w.group(0).strip("`"), w.group(0).strip("`")) if "`" not in w.group(0) else w.group(0), m.group(0)[1:-1]).join("``"), text)
        if turned != text:
            with open(page, "w", encoding="utf-8") as f:
                f.write(turned)
            print(page)
    return 0


if __name__ == "__main__":
    sys.exit(main(sys.argv))
