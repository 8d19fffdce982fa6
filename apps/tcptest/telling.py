"""What was found, as a table, as JSON and as JUnit's XML."""

import json
import struct
from dataclasses import asdict, dataclass, field
from xml.sax.saxutils import escape, quoteattr

MET, NOT_MET, SHOULD_NOT, MAY_NOT, NOT_SEEN, BROKEN = "met", "not met", "SHOULD not met", "MAY not taken", "not seen", "no verdict"
RAW = 101  # the link type of packets without a link's header
SHOWN = 20  # names in the last line
ORDER = (MET, NOT_MET, SHOULD_NOT, MAY_NOT, NOT_SEEN, BROKEN)


@dataclass
class Finding:
    """One row of one stack."""

    row: str
    requirement: str
    section: str
    asks: str
    verdict: str
    evidence: str
    judge: list = field(default_factory=list)
    judged: int = 0
    segments: list = field(default_factory=list)
    seconds: float = 0.0
    packets: list = field(default_factory=list, repr=False)


def write_capture(path, packets):
    """A capture (pcap) of raw packets at these seconds."""
    path.parent.mkdir(parents=True, exist_ok=True)
    with path.open("wb") as file:
        file.write(struct.pack("<IHHiIII", 0xA1B2C3D4, 2, 4, 0, 0, 65535, RAW))
        for when, data in packets:
            file.write(struct.pack("<IIII", int(when), round(when % 1 * 1_000_000) % 1_000_000, len(data), len(data)) + data)


def line(found):
    judge = f"; JUDGE: {'; '.join(found.judge)}" if found.judge else ""
    title = f"{found.requirement}, {found.section}" if found.requirement != found.section else found.section
    return f"{found.row:22} {found.verdict:15} {title}: {found.asks}\n{'':22} {found.evidence}{judge}"


def table(findings, shows_segments):
    """The lines of a finding, with its segments where it isn't met."""
    for found in findings:
        yield line(found)
        if shows_segments or found.verdict in (NOT_MET, BROKEN) or found.judge:
            yield from (f"{'':24}{one}" for one in found.segments[-12:])


def counts(findings):
    of = {verdict: sum(found.verdict == verdict for found in findings) for verdict in ORDER}
    judged, accused = sum(found.judged for found in findings), sum(len(found.judge) for found in findings)
    words = ", ".join(f"{count} {verdict}" for verdict, count in of.items() if count)
    return f"{words}; {judged} connections judged, {accused} accused; {sum(found.seconds for found in findings):.1f} s"


def some(names):
    """The first of these, and how many more there are."""
    return ", ".join(names[:SHOWN]) + (f" and {len(names) - SHOWN} more" if len(names) > SHOWN else "")


def status_of(findings):
    """The program's status, and why it is that."""
    broken = [found.row for found in findings if found.verdict == BROKEN]
    unmet = [f"{found.row} ({found.requirement})" for found in findings if found.verdict == NOT_MET]
    accused = [found.row for found in findings if found.judge]
    if broken:
        return 2, f"no verdict of {some(broken)}: the tester failed there, or the stack's program did"
    if all(found.verdict == NOT_SEEN for found in findings):
        return 2, "nothing could be seen of this stack"
    if unmet or accused:
        said = [f"not met: {some(unmet)}"] if unmet else []
        return 1, "; ".join(said + ([f"the judge accuses the stack in {some(accused)}"] if accused else []))
    return 0, "each MUST that was seen is met, and the judge accuses nobody"


def as_json(stack, findings):
    rows = [{key: value for key, value in asdict(found).items() if key != "packets"} for found in findings]
    return json.dumps({"stack": stack, "rows": rows}, indent=1)


def as_junit(stack, findings):
    """A SHOULD or MAY that isn't met is no failure; what couldn't be seen was skipped."""
    failed = sum(found.verdict in (NOT_MET, BROKEN) or bool(found.judge) for found in findings)
    out = ['<?xml version="1.0"?>', f"<testsuite name={quoteattr('tcptest ' + stack)} tests=\"{len(findings)}\" failures=\"{failed}\">"]
    for found in findings:
        out.append(f"<testcase classname={quoteattr(found.requirement)} name={quoteattr(found.row)} time=\"{found.seconds:.3f}\">")
        told = escape("\n".join([found.evidence, *found.judge, *found.segments]))
        if found.verdict in (NOT_MET, BROKEN) or found.judge:
            out.append(f"<failure message={quoteattr(found.asks)}>{told}</failure>")
        elif found.verdict == NOT_SEEN:
            out.append(f"<skipped message={quoteattr(found.evidence)}/>")
        else:
            out.append(f"<system-out>{told}</system-out>")
        out.append("</testcase>")
    return "\n".join([*out, "</testsuite>"])
