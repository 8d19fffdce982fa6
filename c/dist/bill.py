"""Writes the bill of materials of a tarball, in SPDX 2.3 (tag-value): python3 bill.py FOLDER CRATES SECONDS > FOLDER/tcpcore.spdx.

FOLDER is the unpacked tarball; its lines in MADE say from what and with which tools it was made. CRATES is crates.txt, whose libraries
that aren't of this repository are the kit's. SECONDS is when it was made, since 1970. Each file is listed with its checksums but the
bill itself and SHA256SUMS, which has the bill's. Of the same files it is the same text.
"""

import datetime
import hashlib
import pathlib
import re
import sys
import uuid

LEFT_OUT = ("./SHA256SUMS", "./tcpcore.spdx")
KINDS = {".a": "ARCHIVE", ".md": "DOCUMENTATION", ".3": "DOCUMENTATION", ".1": "DOCUMENTATION", ".svg": "IMAGE"}
SOURCES = {".c", ".h", ".hpp", ".rs", ".py", ".map", ".mjs", ".sh"}


def files(folder):
    """Each file's name with its bytes, by name."""
    there = sorted(it for it in folder.rglob("*") if it.is_file())
    named = [("./" + it.relative_to(folder).as_posix(), it.read_bytes()) for it in there]
    return [(name, data) for name, data in named if name not in LEFT_OUT]


def identity(name):
    """A name in letters, digits, dots and dashes, with a checksum that tells names apart which look the same then."""
    return re.sub(r"[^A-Za-z0-9.-]+", "-", name.removeprefix("./")).strip("-") + "-" + hashlib.sha1(name.encode()).hexdigest()[:8]


def libraries(crates):
    """The kit's libraries that tcp_c and tcp_web stand on, whose code is in the machine code and the C files."""
    lines = re.findall(r"^([a-z_]+)(?: staticlib)?: *(.*)$", crates, re.M)
    stands_on = {crate: words.split() for crate, words in lines}
    found, left = {"std"}, ["tcp_c", "tcp_web"]
    while left:
        new = [it for it in stands_on.get(left.pop(), []) if it not in found]
        found.update(new)
        left += new
    return sorted(it for it in found if it not in stands_on)


def package(name, version, **more):
    """A package of which no file is listed, with the fields that SPDX wants."""
    wanted = {"PackageDownloadLocation": "NOASSERTION", "FilesAnalyzed": "false", "PackageLicenseConcluded": "NOASSERTION",
              "PackageLicenseDeclared": "NOASSERTION", "PackageCopyrightText": "NOASSERTION", **more}
    lines = [f"PackageName: {name}", f"SPDXID: SPDXRef-Package-{identity(name)}", f"PackageVersion: {version}"]
    return ["", *lines, *(f"{tag}: {value}" for tag, value in wanted.items())]


def file_lines(name, data):
    suffix = pathlib.PurePosixPath(name).suffix
    kind = KINDS.get(suffix, "SOURCE" if suffix in SOURCES else "TEXT")
    return ["", f"FileName: {name}", f"SPDXID: SPDXRef-File-{identity(name)}", f"FileType: {kind}",
            f"FileChecksum: SHA1: {hashlib.sha1(data).hexdigest()}", f"FileChecksum: SHA256: {hashlib.sha256(data).hexdigest()}",
            "LicenseConcluded: NOASSERTION", "LicenseInfoInFile: NOASSERTION", "FileCopyrightText: NOASSERTION"]


def main():
    folder, crates = pathlib.Path(sys.argv[1]), pathlib.Path(sys.argv[2]).read_text()
    when = datetime.datetime.fromtimestamp(int(sys.argv[3]), datetime.timezone.utc)
    listed, name = files(folder), folder.name
    made = dict(line.split(" ", 1) for line in (folder / "MADE").read_text().splitlines())
    code = hashlib.sha1("".join(sorted(hashlib.sha1(data).hexdigest() for _, data in listed)).encode()).hexdigest()
    own = f"SPDXRef-Package-{identity('tcpcore')}"
    out = ["SPDXVersion: SPDX-2.3", "DataLicense: CC0-1.0", "SPDXID: SPDXRef-DOCUMENT", f"DocumentName: {name}",
           f"DocumentNamespace: urn:uuid:{uuid.uuid5(uuid.NAMESPACE_OID, name + code)}", "Creator: Tool: c/dist/bill.py",
           f"Created: {when:%Y-%m-%dT%H:%M:%SZ}"]
    # No licence is chosen yet.
    out += package("tcpcore", name.removeprefix("tcpcore-"), PackageLicenseDeclared="NONE", FilesAnalyzed="true",
                   PackageVerificationCode=f"{code} (excludes: {', '.join(LEFT_OUT)})", PackageLicenseInfoFromFiles="NOASSERTION",
                   PackageSourceInfo=f"<text>made of commit {made['commit']}</text>")
    relations = [("SPDXRef-DOCUMENT", "DESCRIBES", own)]
    for file, data in listed:
        out += file_lines(file, data)
        relations.append((own, "CONTAINS", f"SPDXRef-File-{identity(file)}"))
    for library in libraries(crates):
        out += package(f"kit/{library}", made["kit"], PackageComment="<text>a library of the Rattle kit, in the machine code and the C files</text>")
        relations.append((own, "STATIC_LINK", f"SPDXRef-Package-{identity(f'kit/{library}')}"))
    for tool in ("kit", "wasm-opt", "wasm2c"):
        out += package(tool, made[tool], PackageComment="<text>what the machine code or the C files were made with</text>")
        relations.append((f"SPDXRef-Package-{identity(tool)}", "BUILD_TOOL_OF", own))
    out += ["", *(f"Relationship: {one} {how} {other}" for one, how, other in relations)]
    print("\n".join(out))


if __name__ == "__main__":
    main()
