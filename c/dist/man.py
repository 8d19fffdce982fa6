"""Makes the manual page tcpcore.3 of tcpcore.h: python3 man.py HEADER DATE > tcpcore.3. What it says is the header's own text: its first
comment and those with a title section by section, each call with its prototype, the numbers, and the structs field by field.
"""

import pathlib
import re
import sys
import textwrap


def escaped(text):
    """Words as roff reads them: no line of text begins with a dot or a quote."""
    text = text.replace("\\", "\\e").replace("-", "\\-")
    return "\\&" + text if text.startswith((".", "'")) else text


def words(text):
    return escaped(" ".join(text.split()))


def comment_of(text):
    """The lines of a comment without its stars and its first indentation."""
    lines = [re.sub(r"^ \*(?: |$)", "", line) for line in text.removeprefix("/*").removesuffix("*/").strip("\n").split("\n")]
    return [line.rstrip() for line in lines]


def paragraphs(lines):
    """A section's text: numbered lines begin an item, lines with columns stay as they are, all else is filled."""
    out, text, before = [], [], 0
    for line in [*lines, ""]:
        item = re.match(r"( *)(\d+\.) ", line)
        row = bool(re.search(r"\S {3,}\S", line) or (out[-1:] == [".fi"] and re.match(r" {25,}\S", line)))
        # What is indented no more than an item's number follows it.
        ends_item = before and len(line) - len(line.lstrip()) < before
        if text and (item or row or not line or ends_item):
            out.append(words(" ".join(text)))
            text = []
        if row:
            out[-1:] = [] if out and out[-1] == ".fi" else [out[-1], ".PP", ".nf"]
            out += [escaped(line), ".fi"]
        elif item:
            out.append(f".IP {item[2]} 4")
            text, before = [line[item.end() :]], item.end()
        elif line:
            out += [".PP"] if not text and out else []
            text.append(line)
            before = 0 if ends_item else before
    return out


def sections(header):
    """The first comment, and each that begins with a title, as (title, lines): a title is a line of capitals."""
    found, title, lines = [], "DESCRIPTION", []
    first, *others = re.findall(r"^/\*\n.*?\*/", header, re.M | re.S)
    titled = [comment for comment in others if re.match(r"/\*\n \* [A-Z][A-Z ]+\n", comment)]
    for line in [line for comment in [first, *titled] for line in comment_of(comment)]:
        if re.fullmatch(r"[A-Z][A-Z ]+", line):
            found.append((title, lines))
            title, lines = line, []
        else:
            lines.append(re.sub(r"^  ", "", line))
    return [*found, (title, lines)]


def calls(header):
    """Each call as (prototype, lines of its comment): a comment may be of some calls behind it."""
    one = r"(?:uint32_t|size_t|const char \*)\s*tcpcore_\w+\([^;]*\);\n"
    form = re.compile(rf"^/\*(?:\n((?: \*.*\n)+?)| ([^\n]*?)) \*/\n((?:{one})+)", re.M)
    return [(" ".join(call.split()), comment_of(lines or line)) for lines, line, text in form.findall(header) for call in re.findall(one, text)]


def entries(body, form):
    """Lines `NAME /* comment */`, whose comment may go on, as (name, comment)."""
    found = re.findall(form + r"[ \t]*(?:/\*(.*?)\*/)?", body, re.S)
    return [(" ".join(name.split()), text or "") for name, text in found]


def fields(body):
    """A struct's fields, each below its comment, as (declaration, comment)."""
    kind = r"(?:uint\d+_t|size_t|tcpcore_addr|tcpcore_piece|struct tcpcore_(?:transmit|host_id)|const void)"
    form = rf"/\*((?:(?!\*/).)*)\*/\s*({kind} \*?\w+(?:\[\d+\])?);"
    return [(declaration, text) for text, declaration in re.findall(form, body, re.S)]


def tagged(pairs):
    out = []
    for name, text in pairs:
        out += [".TP", f".B {escaped(name)}", words(text) or "\\&"]
    return out


def call_text(lines):
    """A call's comment: what it answers is a paragraph of its own."""
    text, answers = "", ""
    for line in lines:
        if re.match(r" {2,}", line):
            answers += " " + line
        else:
            text += " " + line
    return [words(text)] + ([".PP", words(answers)] if answers.strip() else [])


def main():
    header, date = pathlib.Path(sys.argv[1]).read_text(), sys.argv[2]
    version = re.search(r"#define TCPCORE_VERSION (\d+)", header)[1]
    first, *others = sections(header)
    told = calls(header)
    if len(told) < 20 or len(others) < 8:
        sys.exit("man.py: tcpcore.h is in another form")
    out = [f'.TH TCPCORE 3 {date} "tcpcore 0.{version}" "Library Functions Manual"', ".SH NAME", "tcpcore \\- one end of one TCP connection, as a value"]
    out += [".SH SYNOPSIS", ".nf", ".B #include <tcpcore.h>", ".PP"]
    for prototype, _ in told:
        out += [f".B {escaped(line)}" for line in textwrap.wrap(prototype, 68, subsequent_indent="        ")]
    out += [".fi", ".PP", "Link with \\fI\\-ltcpcore\\fR."]
    out += [".SH DESCRIPTION", *paragraphs([re.sub(r"^tcpcore\.h: one", "One", line) for line in first[1]])]
    for title, lines in others:
        out += [f'.SH "{title}"', *paragraphs(lines)]
    out += [".SH CALLS", "An answer is named without its prefix \\fBTCPCORE_\\fR."]
    for prototype, lines in told:
        out += [f".SS {re.search(r'tcpcore_[a-z_]+', prototype)[0]}", f".B {escaped(prototype)}", ".PP", *call_text(lines)]
    out += ['.SH "NUMBERS"']
    for text, body in re.findall(r"^/\* ((?:(?!\*/).)*?) \*/\nenum \{\n(.*?)^\};", header, re.M | re.S):
        # A comment on lines of its own is of those that follow.
        out += [".PP"] * (not out[-1].startswith(".SH")) + [words(text)]
        out += tagged(entries(re.sub(r"^    /\*.*?\*/\n", "", body, flags=re.M | re.S), r"(TCPCORE_\w+ = \d+),?"))
    for tag, body in re.findall(r"struct (tcpcore_\w+) \{\n(.*?)^\}", header, re.M | re.S):
        if tag in ("tcpcore_end", "tcpcore_addr", "tcpcore_connection", "tcpcore_host"):
            continue
        out += [f'.SH "STRUCT {tag}"', *tagged(fields(body))]
    out += [".SH \"SEE ALSO\"", "RFC 9293, RFC 7323, RFC 2018; docs/EMBEDDING.md of the tarball."]
    print("\n".join(out))


if __name__ == "__main__":
    main()
