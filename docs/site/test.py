"""Tests the site that docs/site/build.py has made: python3 docs/site/test.py [OUT]. Each link leads to a file or an anchor that is there,
each page has the headings of its Markdown, one h1 and no Markdown left over, nothing is loaded from elsewhere, and a link that opens a script
in the page holds that script. docs/layers.svg has the
boxes and arrows of the diagram beside it."""

import html.parser
import json
import pathlib
import re
import subprocess
import sys
import xml.etree.ElementTree

import build

HERE = pathlib.Path(__file__).resolve().parent
TOP = HERE.parents[1]
OUT = pathlib.Path(sys.argv[1]) if len(sys.argv) > 1 else HERE / "out"
VOID = {"meta", "link", "img", "br", "hr", "input"}


class Page(html.parser.HTMLParser):
    """What a page has: its anchors, links, loaded files, headings, and text outside of code; and tags that don't match."""

    def __init__(self, text):
        super().__init__()
        self.ids, self.links, self.scripts, self.loaded, self.headings, self.text = [], [], [], [], [], ""
        self.open, self.wrong = [], []
        self.feed(text)

    def handle_starttag(self, tag, attributes):
        values = dict(attributes)
        self.ids += [values["id"]] if values.get("id") else []
        self.links += [values["href"]] if tag == "a" else []
        self.scripts += [(values["href"], values["title"])] if values.get("class") == "script" else []
        self.loaded += [values[name] for name in ("src", "href") if name in values and tag in ("img", "link", "script", "iframe")]
        if re.fullmatch("h[1-6]", tag):
            self.headings.append([tag, ""])
        if tag not in VOID:
            self.open.append(tag)

    def handle_startendtag(self, tag, attributes):
        self.handle_starttag(tag, attributes)
        if tag not in VOID:
            self.open.pop()

    def handle_endtag(self, tag):
        if not self.open or self.open.pop() != tag:
            self.wrong.append(f"</{tag}> at line {self.getpos()[0]}")

    def handle_data(self, data):
        if self.open and re.fullmatch("h[1-6]", next((one for one in reversed(self.open) if one[0] == "h" and one != "html"), "")):
            self.headings[-1][1] += data
        if not {"code", "pre", "style", "script"} & set(self.open):
            self.text += data


def headings_of(markdown):
    """The headings of a Markdown page, without those of its blocks."""
    text = re.sub(r"^```.*?^```", "", markdown, flags=re.MULTILINE | re.DOTALL)
    return [re.sub(r"[`*]", "", line.lstrip("# ")) for line in text.split("\n") if re.match(r"#{1,6} ", line)]


def layers_wrong():
    """What docs/layers.svg lacks of the diagram of docs/ARCHITECTURE.md, or has beside it; and arrows that crates.txt hasn't."""
    nodes, edges = build.parts_of(build.layers())
    root = xml.etree.ElementTree.parse(TOP / "docs/layers.svg").getroot()
    groups = [group for group in root.iter() if group.get("class") in ("node", "edge")]
    found = {(group.findtext("{*}title"), " ".join(text.text for text in group.iterfind("{*}text"))) for group in groups}
    asked = {(name, label.replace("\\n", " ")) for name, label in nodes.items()} | {(f"{start}->{end}", "") for start, end in edges}
    uses = dict(line.split(":", 1) for line in (TOP / "crates.txt").read_text().split("\n") if line and not line.startswith("#"))
    crates = {name: label.split("\\n")[0] for name, label in nodes.items()}
    uses = {names.split(" ")[0]: below.split() for names, below in uses.items()}
    return [f"docs/layers.svg: {one}: draw it anew with build.py --layers" for one in sorted(found ^ asked)] + [
        f"docs/ARCHITECTURE.md: {crates[end]} doesn't use {crates[start]}" for start, end in edges if crates[start] not in uses.get(crates[end], [])]


# Reads fragments of links as the page does, a JSON list on standard input, and writes the script and the event of each.
DECODE = """
import fs from "node:fs";
import { script_of } from %s;
const read = fragment => script_of(fragment).catch(error => ({ script: String(error), event: -1 }));
console.log(JSON.stringify(await Promise.all(JSON.parse(fs.readFileSync(0, "utf8")).map(read))));
"""


def decoded(links):
    """What the page reads of each link: the script and the event."""
    code = DECODE % json.dumps((TOP / "apps/web/link.mjs").as_uri())
    words, asked = ["node", "--input-type=module", "-e", code], json.dumps([link.removeprefix("tcp.html") for link in links])
    return json.loads(subprocess.run(words, input=asked, capture_output=True, text=True, check=True).stdout)


def shown_scripts():
    """The scripts that each page of the site names or draws, as pairs of the page and the script."""
    drawn, found = dict(build.DRAWN.findall((TOP / "apps/web/page_tools.mjs").read_text())), set()
    for page, source in sources().items():
        text = source.read_text()
        found |= {(page, path) for path in re.findall(r"[\w/-]+\.script\b", text) if (TOP / path).is_file()}
        found |= {(page, drawn[picture]) for picture in re.findall(r"[\w-]+\.svg", text) if picture in drawn}
    return found


def scripts_wrong(pages):
    """What is wrong with the links that open a script in the page: each has to hold the script that it claims, and each script that is shown has to
    have one. Without the page there may be none."""
    links = [(name, link, path) for name, page in pages.items() for link, path in page.scripts]
    if not (OUT / "tcp.html").exists():
        return [f"{name}: a link to {path}, and no page" for name, _, path in links]
    wrong = [f"{name}: the link to {path} holds another script"
             for (name, _, path), found in zip(links, decoded([link for _, link, _ in links]), strict=True)
             if found is None or found["script"] != (TOP / path).read_text() or found["event"] != 0]
    return wrong + [f"{name}: no link opens {path}" for name, path in sorted(shown_scripts() - {(name, path) for name, _, path in links})]


def sources():
    """The Markdown of each page of the site."""
    found = {"index.html": TOP / "README.md", "changelog.html": TOP / "CHANGELOG.md", "contributing.html": TOP / "CONTRIBUTING.md"}
    return found | {f"{path.stem.lower()}.html": path for path in (TOP / "docs").glob("*.md")}


def main():
    pages = {path.name: Page(path.read_text()) for path in sorted(OUT.glob("*.html")) if path.name != "tcp.html"}
    wrong, links = [f"no page {name}" for name in sources() if name not in pages], 0
    for name, page in pages.items():
        wrong += [f"{name}: {one}" for one in page.wrong] + [f"{name}: not closed: {one}" for one in page.open]
        for link in page.links:
            target, _, anchor = link.partition("#")
            links += 1
            if link.startswith("http"):
                continue
            if not (OUT / (target or name)).exists():
                wrong.append(f"{name}: {link} leads nowhere")
            elif anchor and target != "tcp.html" and anchor not in pages[target or name].ids:
                wrong.append(f"{name}: no anchor {link}")
        wrong += [f"{name}: loads {one}" for one in page.loaded if "//" in one or not (OUT / one).exists()]
        wrong += [f"{name}: an anchor is there twice: {one}" for one in set(page.ids) if page.ids.count(one) > 1]
        told = [re.sub(r"\s+", " ", text.replace("’", "'")).strip() for _, text in page.headings]
        asked = headings_of(sources()[name].read_text())
        if told != asked:
            wrong.append(f"{name}: the headings differ: {sorted(set(told) ^ set(asked))[:4]}")
        if [tag for tag, _ in page.headings].count("h1") != 1:
            wrong.append(f"{name}: not one h1")
        wrong += [f"{name}: Markdown is left over: {line[:60]}" for line in page.text.split("\n") if re.match(r"\s*(```|\|---|#+ |!\[)", line)]
    wrong += layers_wrong() + scripts_wrong(pages)
    for one in wrong:
        print(one)
    print(f"site: {len(pages)} pages, {links} links, {len(wrong)} wrong")
    sys.exit(1 if wrong else 0)


main()
