"""Puts the page into one file: python3 apps/web/pack.py MODULE OUT.

The scripts are joined into one, without their imports and exports, so that a name may stand in one of them only; and those of the
workers that read captures and replay long scripts into two others. The module is put in as base64, and each file of
apps/web/examples/ with its first comment as title.
"""

import base64
import json
import pathlib
import re
import sys

WEB = pathlib.Path(__file__).resolve().parent
SCRIPTS = ["module", "run", "words", "told", "draw", "bars", "editor", "ladder", "link", "actions", "acts", "history", "files",
    "pcapng", "captures", "packets", "connections", "verdict", "captured", "opened", "listing", "reader", "replayer", "player", "page"]
READING = ["module", "pcapng", "captures", "connections", "reading"]
REPLAYING = ["module", "replaying"]
PICTURES = ["first-run", "loss-and-blocks", "shut-window"]
IMPORT = re.compile(r"^import .*?;\n", re.MULTILINE | re.DOTALL)
NAME = re.compile(r"^(?:async )?(?:function|const|let) (\w+)", re.MULTILINE)


def joined(scripts):
    parts, names = [], {}
    for part in scripts:
        text = re.sub(r"^export ", "", IMPORT.sub("", (WEB / f"{part}.mjs").read_text()), flags=re.MULTILINE)
        for name in NAME.findall(text):
            if name in names:
                sys.exit(f"pack.py: {name} stands in {names[name]}.mjs and in {part}.mjs")
            names[name] = part
        parts.append(text)
    return "\n".join(parts)


def examples():
    texts = [path.read_text() for path in sorted((WEB / "examples").glob("*.script"))]
    listed = [{"title": text.split("\n", 1)[0].lstrip("# "), "script": text} for text in texts]
    return json.dumps(listed).replace("<", "\\u003c")


def pictures():
    """Ladders for a browser that can't run the module."""
    texts = [(WEB.parents[1] / "docs" / f"{name}.svg").read_text() for name in PICTURES]
    return json.dumps(texts).replace("<", "\\u003c")


def main():
    module, out = map(pathlib.Path, sys.argv[1:])
    page = (WEB / "page.html").read_text()
    for place, text in [
        ("/* page.css */", (WEB / "page.css").read_text()),
        ('id="examples">[]', f'id="examples">{examples()}'),
        ('id="pictures">[]', f'id="pictures">{pictures()}'),
        ('id="module">', 'id="module">' + base64.b64encode(module.read_bytes()).decode()),
        ("/* reading.mjs */", joined(READING)),
        ("/* replaying.mjs */", joined(REPLAYING)),
        ("/* page.mjs */", joined(SCRIPTS)),
    ]:
        if page.count(place) != 1:
            sys.exit(f"pack.py: {place} doesn't stand once in page.html")
        page = page.replace(place, text)
    out.parent.mkdir(parents=True, exist_ok=True)
    out.write_text(page)
    print(f"{out}: {len(page.encode())} bytes")


main()
