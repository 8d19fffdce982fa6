// The verdict on a capture, which is what tcpjudge writes of it (docs/JUDGE.md): its lines are read, so that each finding and each note
// leads to its packet, and shown to the letter.
const CONNECTION_LINE = /^(\d+) {2}(\S+) > (\S+), packets (\d+) to (\d+), /, END_LINE = /^ {3}(\S+): (?:findings (\d+) )?/;
const FINDING = /^ {6}packet (\d+), \S+ s: (.*)$/, NOTE = /^ {6}note: .*, the first in packet (\d+) /;
const JUDGED = /^ends judged (\d+), findings (\d+)$/m, BROKEN = /^(\d+) of \d+ ends sent what TCP forbids/m;
const IS_CUT = /^the capture ends in a record that is cut short or damaged/m, PORT = /:\d+$/;
// Of a longer report some connections are shown, those with findings first.
const MOST_WRITTEN = 100000;

// One line: the place of its connection, and the packet that a finding or a note in it names.
function line_read(found, words) {
    const { connections } = found, head = CONNECTION_LINE.exec(words), finding = FINDING.exec(words), note = NOTE.exec(words);
    if (head !== null) {
        const [number, first, last] = [head[1], head[4], head[5]].map(Number);
        connections.push({ number, ends: [head[2], head[3]], first, last, count: 0, findings: [], letters: 0 });
    }
    const connection = connections.at(-1), end = END_LINE.exec(words);
    if (end !== null) {
        connection.count += Number(end[2] ?? 0);
    }
    if (finding !== null) {
        connection.findings.push({ packet: Number(finding[1]), rule: finding[2] });
    }
    return { words, place: connections.length - 1, packet: finding ?? note ? Number((finding ?? note)[1]) : null, is_finding: finding !== null };
}

// A report, or an empty text: its lines, its connections, and how much was judged and found.
export function report_read(text) {
    const tail_at = text.search(JUDGED), found = { connections: [] };
    const body = tail_at < 0 ? text : text.slice(0, tail_at), tail = tail_at < 0 ? "" : text.slice(tail_at);
    const lines = body.split("\n").slice(0, -1).map(words => line_read(found, words));
    for (const { words, place } of lines) {
        if (place >= 0) {
            found.connections[place].letters += words.length + 1;
        }
    }
    const [, judged, findings] = (JUDGED.exec(tail) ?? ["", 0, 0]).map(Number);
    return { ...found, lines, tail, length: text.length, judged, findings, broken: Number(BROKEN.exec(tail)?.[1] ?? 0), is_cut: IS_CUT.test(body) };
}

function several(count, word) {
    return `${count} ${word}${count === 1 ? "" : "s"}`;
}

// The verdict in a sentence.
export function report_told({ connections, judged, findings, broken, is_cut }) {
    const cut = is_cut ? " The file is cut short or damaged: what is before that was judged." : "";
    if (judged === 0) {
        return `Nothing in it could be judged.${cut}`;
    }
    const { length } = connections, ends = `${several(judged, "end")} of its ${length === 1 ? "connection" : `${length} connections`}`;
    if (findings === 0) {
        return `No rule that was tried is broken at the ${ends}.${cut}`;
    }
    const first = connections.flatMap(one => one.findings).reduce((least, { packet }) => Math.min(least, packet), Infinity);
    const where = findings === 1 ? `in packet ${first}` : `in ${findings} packets, the first of them ${first}`;
    return `Rules of TCP are broken at ${broken} of the ${ends}, ${where}.${cut}`;
}

// The addresses of a capture: first those of most connections, as where it was taken is mostly in all.
export function addresses_in({ connections }) {
    const counts = new Map();
    for (const address of connections.flatMap(({ ends }) => ends)) {
        const host = address.replace(PORT, "").replace(/^\[(.*)\]$/, "$1");
        counts.set(host, (counts.get(host) ?? 0) + 1);
    }
    return [...counts].sort(([, one], [, two]) => two - one).map(([host]) => host);
}

// The places of the connections that are shown.
function places_shown({ connections, length }) {
    const all = connections.map((_, place) => place);
    if (length <= MOST_WRITTEN) {
        return new Set(all);
    }
    let left = MOST_WRITTEN;
    const first = [...all.filter(place => connections[place].count > 0), ...all.filter(place => connections[place].count === 0)];
    return new Set(first.filter(place => {
        left -= connections[place].letters;
        return left >= 0;
    }));
}

// Shows a report, and calls back with the connection's place and the packet of a line that is chosen. The first finding is in sight.
export function show_report_of(box, found, on_packet) {
    const places = places_shown(found), parts = [];
    let words = "";
    for (const line of found.lines.filter(({ place }) => place < 0 || places.has(place))) {
        if (line.packet === null) {
            words += `${line.words}\n`;
            continue;
        }
        const indent = line.words.search(/\S/), button = document.createElement("button");
        button.type = "button";
        button.className = line.is_finding ? "found" : "noted";
        button.textContent = line.words.slice(indent);
        button.addEventListener("click", () => on_packet(line.place, line.packet));
        parts.push(words + line.words.slice(0, indent), button);
        words = "\n";
    }
    const some = places.size === found.connections.length ? "" : `These are ${places.size} of ${found.connections.length} connections, ` +
        "those with findings among them first. tcpjudge writes all.\n\n";
    box.replaceChildren(...parts, words + some + found.tail);
    const first = box.querySelector(".found");
    box.scrollTop = first === null ? 0 : first.offsetTop - box.clientHeight / 2;
}
