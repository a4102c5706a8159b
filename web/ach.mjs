// Qalarimo ACH in WebAssembly, for node and for a page: the proved module as it is (tools/library
// wasm), and this loader, which lends it memory. No dependency.
//
//     import { load, PLAIN, Refusal } from './ach.mjs';
//     const ach = await load(new URL('ach.wasm', import.meta.url)); // or a path, or the bytes
//     const { credit, rows } = ach.check(PLAIN, file);
//
// Files, tables and lists are Uint8Arrays. What is passed is never changed; what is given back is
// the caller's own. Counts, records and fields are numbers; cents are BigInts, and so are rows, as
// a BigUint64Array. Where a number is asked for, a BigInt will do as well.
//
// A refusal is thrown, as a Refusal with number, record and field (include/ach.h lists them), so
// that none goes unseen. Anything else that is thrown is a mistake of the caller (TypeError,
// RangeError) or a lack of memory.

/** Records of 94 bytes, back to back. */
export const PLAIN = 0;
/** Records of 96 bytes, the last two CR LF. */
export const LINED = 1;

const LONGEST = [94_000_000, 96_000_000];
const MOST_LINES = 999_999;
const CODES = [22, 23, 24, 27, 28, 29, 32, 33, 34, 37, 38, 39];
const PAGE = 65_536;

/** Why something is refused, and where: record and field, from 1, or 0 where no place is named. */
export class Refusal extends Error {
    constructor(answer) {
        const parts = [answer & 0xffn, answer >> 16n, (answer >> 8n) & 0xffn];
        const [number, record, field] = parts.map(Number);
        super(`refused, number ${number}, record ${record}, field ${field}`);
        this.name = 'Refusal';
        Object.assign(this, { number, record, field });
    }
}

/** The library of a module: its bytes, or where they are, a URL or in node a path. */
export async function load(source) {
    const { instance } = await WebAssembly.instantiate(await bytesOf(source));
    return new Library(instance.exports);
}

async function bytesOf(source) {
    if (source instanceof ArrayBuffer || ArrayBuffer.isView(source)) return source;
    const inNode = typeof process === 'object' && process.versions?.node !== undefined;
    if (inNode && !/^https?:/.test(String(source))) {
        const { readFile } = await import('node:fs/promises');
        return readFile(source);
    }
    const response = await fetch(source);
    if (!response.ok) throw new Error(`${source}: ${response.status} ${response.statusText}`);
    return response.arrayBuffer();
}

/** A piece of memory that is lent to one call. */
class Piece {
    constructor(type, length, { data = null, counted = true } = {}) {
        Object.assign(this, { type, length, data, counted, at: 0, memory: null });
    }

    get end() {
        return this.at + this.length * this.type.BYTES_PER_ELEMENT;
    }

    view(length = this.length) {
        return new this.type(this.memory.buffer, this.at, length);
    }

    /** The words that the function is called with. */
    get words() {
        return this.counted ? [this.at, BigInt(this.length)] : [this.at];
    }

    /** The number that stands there, or the first one. */
    get number() {
        return this.view()[0];
    }

    /** A copy of what stands there. */
    take(length = this.length) {
        return this.view(Number(length)).slice();
    }
}

const given = (type, data) => new Piece(type, data.length, { data });
const room = (type, length) => new Piece(type, length);
const numbers = (type, length) => new Piece(type, length, { counted: false });
const number = () => numbers(BigUint64Array, 1);

/** Room for a file's rows: two numbers for each batch, which takes three records or more. */
const roomForRows = (file) => room(BigUint64Array, Math.floor(file.length / 141));

const bytes = (value) => {
    if (value instanceof Uint8Array) return given(Uint8Array, value);
    throw new TypeError('a Uint8Array is due');
};

const listed = (value) => {
    if (value instanceof BigUint64Array) return given(BigUint64Array, value);
    throw new TypeError('a BigUint64Array is due, as check gives it');
};

/** The word for a way; another value than the two is a mistake, for example a file in its place. */
const wayWord = (way) => {
    if (way === PLAIN || way === LINED) return BigInt(way);
    throw new TypeError('the way is PLAIN or LINED');
};

const word = (value) => {
    const whole = typeof value === 'bigint' || Number.isSafeInteger(value);
    if (whole && value >= 0 && value < 2n ** 64n) return BigInt(value);
    throw new RangeError(`a whole number from 0 to 2^64 - 1 is due, and not ${String(value)}`);
};

/** The rows in front of a room that held zeros: no row has record 0. */
const filled = (rows) => {
    let end = 0;
    while (end < rows.length && rows[end] !== 0n) end += 2;
    return rows.slice(0, end);
};

class Library {
    #exports;
    #memory;
    #base;

    constructor(exports) {
        this.#exports = exports;
        this.#memory = exports.memory;
        this.#base = Math.ceil(exports.__heap_base.value / 8) * 8;
    }

    /** How many bytes of memory the module has: as many as the largest call so far asked for. */
    get memoryLength() {
        return this.#memory.buffer.byteLength;
    }

    /** Gives each piece a place of its own, in memory that grows to hold them; tells their end. */
    #place(pieces) {
        let end = this.#base;
        for (const piece of pieces) {
            Object.assign(piece, { memory: this.#memory, at: end });
            end = Math.ceil(piece.end / 8) * 8;
        }
        const missing = end - this.memoryLength;
        if (missing > 0) this.#memory.grow(Math.ceil(missing / PAGE));
        for (const piece of pieces) if (piece.data !== null) piece.view().set(piece.data);
        return end;
    }

    /** What `result` makes of a function's answer. What was lent is cleared behind it. */
    #call(name, parts, result) {
        const called = this.#exports[name];
        if (called === undefined) throw new Error(`this module has no ${name}: build it again`);
        const end = this.#place(parts.filter((part) => part instanceof Piece));
        try {
            const words = parts.flatMap((part) => part.words ?? [part]);
            return result(BigInt.asUintN(64, called(...words)));
        } finally {
            new Uint8Array(this.#memory.buffer, this.#base, end - this.#base).fill(0);
        }
    }

    /** The same for a function that refuses by an answer other than 0. */
    #ask(name, parts, result) {
        return this.#call(name, parts, (answer) => {
            if (answer !== 0n) throw new Refusal(answer);
            return result();
        });
    }

    /** Checks a file: its counts and cents, by code as well, and its rows, two numbers a batch. */
    check(way, file) {
        const held = numbers(BigUint64Array, 29);
        const rows = roomForRows(file);
        return this.#ask('ach_check', [wayWord(way), bytes(file), held, rows], () => {
            const all = held.take();
            const [batches, entries, addenda] = Array.from(all.subarray(0, 3), Number);
            const [debit, credit] = all.subarray(3, 5);
            const byCode = CODES.map((code, i) => {
                return { code, entries: Number(all[5 + 2 * i]), cents: all[6 + 2 * i] };
            });
            const list = rows.take(2 * batches);
            return { batches, entries, addenda, debit, credit, byCode, rows: list };
        });
    }

    /** The pay table of a file. */
    read(way, file) {
        return this.#made('ach_read', [wayWord(way), bytes(file)], file.length);
    }

    /** The file of a pay table. */
    write(way, table) {
        const parts = [wayWord(way), bytes(table)];
        return this.#made('ach_write', parts, Math.min(2 * table.length + 838, LONGEST[way]));
    }

    /** The pay table of a client's list, under a row for the file and one for the batch. */
    importLines(fileRow, batchRow, lines) {
        const most = Math.min(Math.floor((lines.length + 2) / 24), MOST_LINES);
        const parts = [bytes(fileRow), bytes(batchRow), bytes(lines)];
        return this.#made('ach_import', parts, 204 + 93 * most);
    }

    /** The comma lines of a pay table's entries. */
    exportLines(table) {
        return this.#made('ach_export', [bytes(table)], Math.floor(table.length / 93) * 132);
    }

    /** What a function puts into `space` bytes. */
    #made(name, parts, space) {
        const [made, length] = [room(Uint8Array, space), number()];
        return this.#ask(name, [...parts, made, length], () => made.take(length.number));
    }

    /**
     * The file with a new amount in an entry, its rows, and the new amount less the old. The rows
     * that are passed are those of the file that is passed.
     */
    alter(way, file, rows, entry, amount) {
        const [altered, list, difference] = [bytes(file), listed(rows), numbers(BigInt64Array, 1)];
        const parts = [wayWord(way), altered, list, word(entry), word(amount), difference];
        return this.#ask('ach_alter', parts, () => {
            return { file: altered.take(), rows: list.take(), difference: difference.number };
        });
    }

    /** The file without some entries, and its rows. Entries are numbers from 1, in any order. */
    takeOut(way, file, entries) {
        const [left, length] = [bytes(file), number()];
        const rows = roomForRows(file);
        const gone = listed(BigUint64Array.from(entries, word));
        return this.#ask('ach_take_out', [wayWord(way), left, gone, rows, length], () => {
            return { file: left.take(length.number), rows: filled(rows.take()) };
        });
    }

    /**
     * The first row with more credits than the limit: whether there is one, how many rows come up to
     * it and with it, or in all, its record and its credits.
     */
    runsOut(rows, limit) {
        const answer = numbers(BigUint64Array, 3);
        return this.#call('ach_runs_out', [listed(rows), word(limit), answer], (found) => {
            const [count, record, credit] = answer.take();
            return { found: found === 1n, rows: Number(count), record, credit };
        });
    }

    /** Where the addendum of an entry stands in the file, from 0; 0 and 0 where it has none. */
    addendum(way, file, entry) {
        const [start, length] = [number(), number()];
        const parts = [wayWord(way), bytes(file), word(entry), start, length];
        return this.#ask('ach_addendum', parts, () => {
            return { start: Number(start.number), length: Number(length.number) };
        });
    }

    /** The file with its controls and fillers put right, and the list of changes. */
    mend(way, file) {
        const block = 10 * (way === LINED ? 96 : 94);
        const mended = room(Uint8Array, Math.ceil(file.length / block) * block);
        const changes = room(Uint8Array, file.length + 78);
        const [length, changesLength] = [number(), number()];
        const parts = [wayWord(way), bytes(file), mended, length, changes, changesLength];
        return this.#ask('ach_mend', parts, () => {
            const list = changes.take(changesLength.number);
            return { file: mended.take(length.number), changes: list };
        });
    }
}
