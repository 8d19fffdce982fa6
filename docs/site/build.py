"""Makes the documents a site that any web server shows: python3 docs/site/build.py [--page FILE] [OUT]; or, with --layers, draws
the layers' diagram of docs/ARCHITECTURE.md anew as docs/layers.svg.

README.md becomes index.html, and each other page NAME.html. cmark-gfm (Debian's), which renders as GitHub does, makes the HTML; a
Mermaid diagram is drawn by dot (graphviz). Pictures are copied. The page of apps/web lies beside them as tcp.html: FILE, or what
apps/web/build.sh has made, or else release/make.sh. Where a script is named or drawn, a link opens it there. OUT is docs/site/out where none
is named. Nothing is loaded from elsewhere, and there is no JavaScript but the page's.
"""

import argparse
import base64
import html
import pathlib
import re
import shutil
import subprocess
import sys
import zlib

HERE = pathlib.Path(__file__).resolve().parent
TOP = HERE.parents[1]
FRONT = ["README.md", "CHANGELOG.md", "CONTRIBUTING.md"]
TITLES = {
    "README": "Boqtilen", "INSTALL": "Install", "EMBEDDING": "Embedding", "WHEN": "When it sends", "FORMATS": "Formats", "RULES": "Rules", "PROOFS": "Proofs", "TRUST": "Trust",
    "ARCHITECTURE": "Architecture", "SPEED": "Speed", "DECISIONS": "Decisions", "CHANGELOG": "Changes", "CONTRIBUTING": "Contributing",
}
# The scripts that pictures show: apps/web/page_tools.mjs says which the page saves as which picture.
DRAWN = re.compile(r'\["docs/([\w-]+\.svg)", "([\w/-]+\.script)"\]')
SCRIPT = re.compile(r"(?<![\w/-])((?:[\w-]+/)+[\w-]+\.script)\b")
EXTENSIONS = ["table", "autolink", "strikethrough"]
# A diagram with more boxes runs from the top down.
MOST_ACROSS = 12
DIAGRAM = re.compile(r"^```mermaid\n(.*?)^```\n", re.MULTILINE | re.DOTALL)
NODE = r"(\w+)(?:\[([^\]]*)\])?"
EDGE = re.compile(rf"^\s*{NODE}(?: --> {NODE})?$")
HEADING = re.compile(r"<h([1-6])>(.*?)</h\1>", re.DOTALL)
TAG = re.compile(r"<[^>]*>")


def pages():
    """The pages, by the names that they have in the site."""
    found = {name.removesuffix(".md"): TOP / name for name in FRONT}
    found |= {path.stem: path for path in sorted((TOP / "docs").glob("*.md"))}
    return {name: found[name] for name in sorted(found, key=lambda name: (list(TITLES) + [name]).index(name))}


def file_of(name):
    return "index.html" if name == "README" else f"{name.lower()}.html"


def title_of(name):
    return TITLES.get(name, name.capitalize())


def parts_of(diagram):
    """The boxes of a flowchart, each with its label where it has one, and its arrows. A line may be a box without one."""
    labels, names, edges = {}, [], []
    for line in diagram.split("\n")[1:]:
        if not line.strip():
            continue
        edge = EDGE.match(line)
        if not edge:
            sys.exit(f"build.py: a line of a diagram has another form: {line.strip()}")
        for name, label in ((edge[1], edge[2]), (edge[3], edge[4])):
            if label:
                labels[name] = label.replace("<br>", "\\n")
        names += [name for name in (edge[1], edge[3]) if name]
        if edge[3]:
            edges.append((edge[1], edge[3]))
    return {name: labels.get(name, name) for name in names}, edges


def drawn(diagram, ground="transparent"):
    """A flowchart as SVG."""
    nodes, edges = parts_of(diagram)
    way = "LR" if len(nodes) <= MOST_ACROSS else "TB"
    style = f'bgcolor="{ground}" rankdir={way} nodesep=0.15 ranksep=0.3 node [shape=box fontname="sans-serif" fontsize=11] edge [arrowsize=0.6]'
    boxes = [f'{name} [label="{label}"]' for name, label in nodes.items()]
    text = "digraph { %s %s }" % (style, "; ".join(boxes + [f"{start} -> {end}" for start, end in edges]))
    svg = subprocess.run(["dot", "-Tsvg"], input=text, capture_output=True, text=True, check=True).stdout
    return re.sub(r"<!--.*?-->\n?", "", svg[svg.index("<svg") :], flags=re.DOTALL).strip()


def layers():
    """The diagram of docs/ARCHITECTURE.md."""
    return DIAGRAM.search((TOP / "docs/ARCHITECTURE.md").read_text())[1]


def rendered(text):
    words = ["cmark-gfm", "--unsafe", *(word for name in EXTENSIONS for word in ("-e", name))]
    return subprocess.run(words, input=text, capture_output=True, text=True, check=True).stdout


def slug_of(heading, seen):
    """The anchor that GitHub gives a heading."""
    slug = re.sub(r"[^\w\- ]", "", html.unescape(TAG.sub("", heading)).lower()).replace(" ", "-")
    seen[slug] = seen.get(slug, -1) + 1
    return slug if seen[slug] == 0 else f"{slug}-{seen[slug]}"


def linked(body, names):
    """Names of pages in the text, as docs/RULES.md, become links; those that are links already lead to the site's pages."""
    files = {path.relative_to(TOP).as_posix(): file_of(name) for name, path in names.items()}

    def to_page(match):
        target, anchor = match[1].removeprefix("../"), match[2] or ""
        target = files.get(target) or files.get(f"docs/{target}") or target.removeprefix("docs/")
        return f'href="{target}{anchor}"'

    body = re.sub(r'href="(?!https?:|#)([^"#]*)(#[^"]*)?"', to_page, body)
    body = re.sub(r'src="docs/', 'src="', body)
    alternatives = "|".join(re.escape(name) for name in sorted(files, key=len, reverse=True))
    parts = re.split(r"(<pre.*?</pre>|<a .*?</a>|<code>.*?</code>|<[^>]*>)", body, flags=re.DOTALL)
    for place in range(0, len(parts), 2):
        parts[place] = re.sub(rf"(?<![\w/])({alternatives})\b", lambda match: f'<a href="{files[match[1]]}">{match[1]}</a>', parts[place])
    return "".join(parts)


def opened(path, words):
    """A link that opens a script of the repository in the page: deflated, in base64 for links (apps/web/link.mjs)."""
    packer = zlib.compressobj(9, zlib.DEFLATED, -15)
    packed = base64.urlsafe_b64encode(packer.compress((TOP / path).read_bytes()) + packer.flush()).decode().rstrip("=")
    return f'<a class="script" href="tcp.html#script={packed}&amp;event=0" title="{path}">{words}</a>'


def with_scripts(body):
    """The text with links to the page: each script that it names is one, and one follows each picture of a script and each block that names
    one."""
    drawn_of = dict(DRAWN.findall((TOP / "apps/web/page_tools.mjs").read_text()))

    def is_script(path):
        return (TOP / path).is_file()

    def after(match):
        shown = [drawn_of[match[1]]] if match[1] else sorted(set(filter(is_script, SCRIPT.findall(html.unescape(match[0])))))
        return match[0] + "".join(f'\n<p class="try">{opened(path, "Step through it in the page")}: <code>{path}</code></p>' for path in shown)

    names = "|".join(map(re.escape, drawn_of))
    body = re.sub(rf'<p><img src="({names})"[^>]*></p>|<pre.*?</pre>', after, body, flags=re.DOTALL)
    parts = re.split(r'(<pre.*?</pre>|<p class="try">.*?</p>|<a .*?</a>|<[^>]*>)', body, flags=re.DOTALL)
    for place in range(0, len(parts), 2):
        parts[place] = SCRIPT.sub(lambda match: opened(match[1], match[1]) if is_script(match[1]) else match[0], parts[place])
    return "".join(parts)


def anchored(body):
    seen = {}
    return HEADING.sub(lambda match: f'<h{match[1]} id="{slug_of(match[2], seen)}">{match[2]}</h{match[1]}>', body)


def whole(name, body, names, has_page):
    links = [(file_of(other), title_of(other), other == name) for other in names]
    if has_page:
        links.insert(1, ("tcp.html", "Try it", False))
    here = ' aria-current="page"'
    menu = "\n".join(f'<li><a href="{file}"{here if is_here else ""}>{html.escape(title)}</a></li>' for file, title, is_here in links)
    text = (HERE / "page.html").read_text()
    for place, value in (("{title}", title_of(name)), ("{menu}", menu), ("{body}", body)):
        text = text.replace(place, value)
    return text


def main():
    parser = argparse.ArgumentParser(description="Makes the documents a site.")
    made = [TOP / "apps/web/out/tcp.html", TOP / "release/tcp.html"]
    parser.add_argument("--page", type=pathlib.Path, default=next(filter(pathlib.Path.exists, made), made[0]))
    parser.add_argument("--layers", action="store_true")
    parser.add_argument("out", nargs="?", type=pathlib.Path, default=HERE / "out")
    words = parser.parse_args()
    if words.layers:
        (TOP / "docs/layers.svg").write_text(drawn(layers(), "white") + "\n")
        return
    names, has_page = pages(), words.page.exists()
    words.out.mkdir(parents=True, exist_ok=True)
    for name, path in names.items():
        parts = DIAGRAM.split(path.read_text())
        text = "".join(f'<figure class="diagram">{drawn(part)}</figure>\n' if place % 2 else part for place, part in enumerate(parts))
        body = anchored(linked(rendered(text), names))
        body = with_scripts(body) if has_page else body
        (words.out / file_of(name)).write_text(whole(name, body, names, has_page))
    for picture in sorted([*(TOP / "docs").glob("*.svg"), *(TOP / "docs").glob("*.png")]):
        shutil.copy(picture, words.out)
    shutil.copy(HERE / "site.css", words.out)
    if has_page:
        shutil.copy(words.page, words.out / "tcp.html")
    print(f"{words.out}: {len(names)} pages{', and tcp.html' if has_page else '; apps/web/build.sh makes the page that lies beside them'}")


if __name__ == "__main__":
    main()
