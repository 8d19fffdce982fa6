// The blocks of a pcapng file (draft-ietf-opsawg-pcapng): sections, interfaces, and packets with and without their time. Blocks
// of other kinds are passed over.

// A section begins with these bytes in either order, and says in which its numbers are.
export const PCAPNG = 0x0a0d0d0a;
const ORDER = 0x1a2b3c4d, INTERFACE = 1, SIMPLE = 3, ENHANCED = 6;
const END = 0, RESOLUTION = 9, OFFSET = 14;
// What a block has at least: type, length and length again; and each kind before what it carries, with the last length.
const LEAST = 12, SECTION_LEAST = 28, INTERFACE_LEAST = 20, SIMPLE_LEAST = 16, ENHANCED_LEAST = 32;

// Units a second by an interface's option: a power of ten, or of two where the highest bit is set.
function units_of(resolution) {
    return resolution & 0x80 ? 2n ** BigInt(resolution & 0x7f) : 10n ** BigInt(resolution);
}

// The options of an interface that its packets' times need: units a second, and seconds that are to be added.
function options_of(view, at, end, is_little) {
    const found = { units: units_of(6), offset: 0n };
    while (at + 4 <= end) {
        const kind = view.getUint16(at, is_little), length = view.getUint16(at + 2, is_little), value = at + 4;
        if (kind === END || value + length > end) {
            break;
        }
        if (kind === RESOLUTION && length === 1) {
            found.units = units_of(view.getUint8(value));
        } else if (kind === OFFSET && length === 8) {
            found.offset = view.getBigInt64(value, is_little);
        }
        at = value + 4 * Math.ceil(length / 4);
    }
    return found;
}

// A time of an interface, in whole nanoseconds.
function time_of({ units, offset }, high, low) {
    const count = (BigInt(high) << 32n) | BigInt(low);
    return { seconds: Number(count / units + offset), nanoseconds: Number(count % units * 1000000000n / units) };
}

// How the blocks of a pcapng file are read, in the way of pcap's records (captures.mjs).
export function pcapng_form() {
    let is_little = false, interfaces = [];

    function size(view, at) {
        const is_section = view.getUint32(at) === PCAPNG;
        if (is_section) {
            is_little = view.getUint32(at + 8, true) === ORDER;
        }
        const found = view.getUint32(at + 4, is_little), least = is_section ? SECTION_LEAST : LEAST;
        const is_known = !is_section || view.getUint32(at + 8, is_little) === ORDER;
        return is_known && found >= least && found % 4 === 0 ? found : null;
    }

    function add_interface(view, at, end) {
        interfaces.push({
            link: view.getUint16(at + 8, is_little), most: view.getUint32(at + 12, is_little) || Infinity,
            ...options_of(view, at + 16, end, is_little),
        });
        return null;
    }

    // A packet of the first interface, cut where that cuts; its time isn't told.
    function simple(view, at, end) {
        const original = view.getUint32(at + 8, is_little), [first] = interfaces, length = Math.min(original, first?.most ?? Infinity);
        return at + 12 + length > end ? undefined : { link: first?.link, start: at + 12, length, time: null };
    }

    function enhanced(view, at, end) {
        const [number, high, low, length] = [8, 12, 16, 20].map(place => view.getUint32(at + place, is_little)), seen = interfaces[number];
        return at + 28 + length > end ? undefined
            : { link: seen?.link, start: at + 28, length, time: seen === undefined ? null : time_of(seen, high, low) };
    }

    function packet(view, at, length) {
        const end = at + length - 4, kind = view.getUint32(at, is_little);
        if (view.getUint32(end, is_little) !== length) {
            return undefined;
        }
        if (kind === PCAPNG) {
            interfaces = [];
            return null;
        }
        const [read, least] = { [INTERFACE]: [add_interface, INTERFACE_LEAST], [SIMPLE]: [simple, SIMPLE_LEAST],
            [ENHANCED]: [enhanced, ENHANCED_LEAST] }[kind] ?? [() => null, LEAST];
        return length < least ? undefined : read(view, at, end);
    }

    return { header: 0, least: LEAST, size, packet };
}
