"""Reads a bill of materials (SPDX 2.3, tag-value) beside the files that it is of: python3 bill_test.py FOLDER. Each file is in it once with
its checksums, the verification code is theirs (SPDX 2.3, 7.9), each package, file and document has the fields that have to be there
(6, 7 and 8), names are unique, and relationships are between names that there are. Ends with 1 where it finds anything else.
"""

import collections
import pathlib
import re
import subprocess
import sys

DOCUMENT = {"SPDXVersion", "DataLicense", "SPDXID", "DocumentName", "DocumentNamespace", "Creator", "Created"}
PACKAGE = {"PackageName", "SPDXID", "PackageDownloadLocation"}
FILE = {"FileName", "SPDXID", "FileChecksum"}
FORMS = {"SPDXVersion": r"SPDX-2\.3", "DataLicense": r"CC0-1\.0", "SPDXID": r"SPDXRef-[A-Za-z0-9.-]+", "FilesAnalyzed": "true|false",
         "Created": r"\d{4}-\d\d-\d\dT\d\d:\d\d:\d\dZ", "FileChecksum": r"SHA1: [0-9a-f]{40}|SHA256: [0-9a-f]{64}",
         "FileType": "SOURCE|BINARY|ARCHIVE|APPLICATION|AUDIO|IMAGE|TEXT|VIDEO|DOCUMENTATION|SPDX|OTHER", "Creator": r"(Tool|Person|Organization): .+",
         "DocumentNamespace": r"[a-z]+:[^#]+", "PackageVerificationCode": r"[0-9a-f]{40}( \(excludes: .+\))?"}


def sums(folder, command):
    told = subprocess.run(f"find . -type f -print0 | xargs -0 {command}", cwd=folder, shell=True, check=True, capture_output=True, text=True)
    return {line.split("  ", 1)[1]: line.split("  ", 1)[0] for line in told.stdout.splitlines()}


def main():
    folder, wrong = pathlib.Path(sys.argv[1]), []
    records = [[]]
    for line in (folder / "tcpcore.spdx").read_text().splitlines():
        if not line:
            records.append([])
        elif ": " in line:
            records[-1].append(tuple(line.split(": ", 1)))
        else:
            wrong.append(f"no tag: {line}")
    fields = [pair for record in records for pair in record]
    wrong += [f"{tag}: {value}" for tag, value in fields if tag in FORMS and not re.fullmatch(FORMS[tag], value)]
    for record in records:
        tags, first = {tag for tag, _ in record}, record[0][0] if record else "Relationship"
        wanted = {"SPDXVersion": DOCUMENT, "PackageName": PACKAGE, "FileName": FILE, "Relationship": set()}.get(first)
        if wanted is None or not wanted <= tags:
            wrong.append(f"a record that begins with {first} has {sorted(tags)}")
    names = [value for tag, value in fields if tag == "SPDXID"]
    wrong += [f"{name} is there twice" for name, count in collections.Counter(names).items() if count > 1]
    relations = [value.split() for tag, value in fields if tag == "Relationship"]
    wrong += [f"a relationship {words}" for words in relations if len(words) != 3 or not {words[0], words[2]} <= set(names)]
    sha1, sha256 = sums(folder, "sha1sum"), sums(folder, "sha256sum")
    excluded = {"./SHA256SUMS", "./tcpcore.spdx"}
    of_files = [record for record in records if record and record[0][0] == "FileName"]
    listed = {dict(record)["FileName"]: [value for tag, value in record if tag == "FileChecksum"] for record in of_files}
    wrong += [f"{name} isn't listed, or isn't there" for name in (set(sha1) - excluded) ^ set(listed)]
    wrong += [f"{name} has other checksums" for name in listed if listed[name] != [f"SHA1: {sha1.get(name)}", f"SHA256: {sha256.get(name)}"]]
    text = "".join(sorted(sha1[name] for name in set(sha1) - excluded))
    code = subprocess.run("sha1sum", input=text, check=True, capture_output=True, text=True).stdout.split()[0]
    if code not in dict(fields).get("PackageVerificationCode", ""):
        wrong.append("the verification code is another")
    for line in wrong:
        print(f"bill: {line}")
    print(f"bill: {len(listed)} files and {len(names) - len(listed) - 1} packages, {len(wrong)} wrong")
    sys.exit(bool(wrong) or not listed)


if __name__ == "__main__":
    main()
