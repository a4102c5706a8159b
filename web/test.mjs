// Holds the WebAssembly module to every sample and every vector, in both ways where a file has one,
// and the loader to its word:
//
//     node web/test.mjs [FOLDER]
//
// FOLDER has vectors with line ends, as `cargo run -p vectors -- FOLDER lined` in host leaves them.
// Ends with status 1 on any difference.
import { readFileSync, existsSync } from 'node:fs';
import { load, Refusal, PLAIN, LINED } from './ach.mjs';

const top = new URL('../', import.meta.url);
const bytesOf = (name) => new Uint8Array(readFileSync(new URL(name, top)));
const linesAt = (place) => readFileSync(place, 'utf8').trimEnd().split('\n');
const linesOf = (name) => linesAt(new URL(name, top));
const ach = await load(new URL('target/wasm/ach.wasm', top));

const counts = new Map();
let differences = 0;

/** Counts a case, and says so if what was got is not what was due. */
function expect(kind, about, got, due) {
    counts.set(kind, (counts.get(kind) ?? 0) + 1);
    if (got === due) return;
    differences += 1;
    console.error(`${kind}, ${about}: ${got} instead of ${due}`);
}

const hex = (data) => Buffer.from(data.buffer, data.byteOffset, data.byteLength).toString('hex');

/** The line of an answer, as `ach --line` prints it. */
function lineOf(answer) {
    try {
        return `OK ${answer().join(' ')}`;
    } catch (refusal) {
        if (!(refusal instanceof Refusal)) throw refusal;
        return `NO ${refusal.number} ${refusal.record} ${refusal.field}`;
    }
}

const checked = (way, file) => {
    const { batches, entries, addenda, debit, credit } = ach.check(way, file);
    return [batches, entries, addenda, debit, credit];
};

/** The same records with CR LF behind each. */
function lined(file) {
    const to = new Uint8Array((file.length / 94) * 96);
    for (let record = 0; 94 * record < file.length; record += 1) {
        to.set(file.subarray(94 * record, 94 * record + 94), 96 * record);
        to.set([13, 10], 96 * record + 94);
    }
    return to;
}

// ---- what each function says of one accepted file

const recordLength = (way) => (way === LINED ? 96 : 94);

/** Each entry's number and where its record starts. */
function entriesOf(way, file) {
    const starts = [];
    for (let at = 0; at < file.length; at += recordLength(way)) {
        if (file[at] === 0x36) starts.push(at);
    }
    return starts.map((start, index) => ({ start, number: index + 1 }));
}

function everyAddendum(way, file, name) {
    for (const { start, number } of entriesOf(way, file)) {
        const behind = start + recordLength(way);
        const due = file[behind] === 0x37 ? `${behind + 3} 80` : '0 0';
        const { start: at, length } = ach.addendum(way, file, number);
        expect('addendum', `${name} entry ${number}`, `${at} ${length}`, due);
    }
}

/** Each amount a cent off and back: file and rows are what they were. What pays nothing cannot. */
function thereAndBack(way, file, name) {
    const { rows } = ach.check(way, file);
    for (const { start, number } of entriesOf(way, file)) {
        const about = `${name} entry ${number}`;
        const amount = BigInt(Buffer.from(file.subarray(start + 29, start + 39)).toString());
        if (amount === 0n) {
            const said = lineOf(() => [ach.alter(way, file, rows, number, 1)]);
            expect('alter', about, said, `NO 14 ${1 + start / recordLength(way)} 6`);
            continue;
        }
        const step = amount > 1n ? -1n : 1n;
        const off = ach.alter(way, file, rows, number, amount + step);
        const due = `${step} ${hex(ach.check(way, off.file).rows)}`;
        expect('alter', about, `${off.difference} ${hex(off.rows)}`, due);
        const back = ach.alter(way, off.file, off.rows, number, amount);
        const said = `${back.difference} ${hex(back.file)} ${hex(back.rows)}`;
        expect('alter', about, said, `${-step} ${hex(file)} ${hex(rows)}`);
    }
}

/** Each entry taken out by itself: one less, the rows those of what is left. The last one stays. */
function oneOut(way, file, name) {
    const { entries } = ach.check(way, file);
    for (const { number } of entriesOf(way, file)) {
        const about = `${name} entry ${number}`;
        if (entries === 1) {
            expect('takeOut', about, lineOf(() => [ach.takeOut(way, file, [number])]), 'NO 27 0 0');
            continue;
        }
        const left = ach.takeOut(way, file, [number, BigInt(number)]);
        const now = ach.check(way, left.file);
        const due = `${entries - 1} ${hex(now.rows)}`;
        expect('takeOut', about, `${now.entries} ${hex(left.rows)}`, due);
    }
}

function accepted(way, file, name) {
    const table = ach.read(way, file);
    expect('read and write', name, hex(ach.write(way, table)), hex(file));
    const kept = `samples/${name.replace(/(-lined)?\.ach$/, '.table')}`;
    if (existsSync(new URL(kept, top))) expect('read', name, hex(table), hex(bytesOf(kept)));
    everyAddendum(way, file, name);
    mendedIdly(way, file, name);
    if (file.length > 10_000) return;
    thereAndBack(way, file, name);
    oneOut(way, file, name);
}

function one(kind, way, file, name, due) {
    expect(kind, name, lineOf(() => checked(way, file)), due);
    if (due.startsWith('OK')) accepted(way, file, name);
}

/** A file of the first way, and with line ends where it is whole records. */
function bothWays(kind, file, name, due) {
    one(kind, PLAIN, file, name, due);
    if (file.length % 94 === 0) one(`${kind} with line ends`, LINED, lined(file), name, due);
}

// ---- the samples

const sample = (name) => bytesOf(`samples/${name}`);

/** Each file that an index names, and what stands behind it. */
const listedIn = (index) => linesOf(`samples/${index}`).map((line) => line.split(/ (.*)/s));

function samples() {
    for (const [name, due] of listedIn('index')) bothWays('samples', sample(name), name, due);
    for (const [name, due] of listedIn('index-lined')) {
        one('samples with line ends', LINED, sample(name), name, due);
    }
}

function limits() {
    for (const line of linesOf('samples/index-funds')) {
        const [, name, limit, due] = line.match(/^(\S+) (\S+) (.*)$/);
        const asked = () => {
            const { rows } = ach.check(PLAIN, sample(name));
            const found = ach.runsOut(rows, BigInt(limit.replace('.', '')));
            return [found.rows, found.record, found.credit];
        };
        expect('limits', line, lineOf(asked), due);
    }
}

function lists() {
    const [fileRow, batchRow] = ['team.file-row', 'team.batch-row'].map(sample);
    const imported = (name) => ach.importLines(fileRow, batchRow, sample(name));
    for (const [name, due] of listedIn('index-lists')) {
        expect('lists', name, lineOf(() => checked(PLAIN, ach.write(PLAIN, imported(name)))), due);
    }
    const table = imported('team.csv');
    expect('lists', 'team.table', hex(table), hex(sample('team.table')));
    const again = ach.importLines(fileRow, batchRow, ach.exportLines(table));
    expect('lists', 'exported and imported', hex(again), hex(table));
    manyLines(fileRow, batchRow);
}

/** A list for which the memory has to grow. */
function manyLines(fileRow, batchRow) {
    const count = 100_000;
    const list = Buffer.from('22,053000219,CU-7K2B,0000020.01,E-1,ADA\r\n'.repeat(count));
    const before = ach.memoryLength;
    const table = ach.importLines(fileRow, batchRow, list);
    for (const way of [PLAIN, LINED]) {
        const file = ach.write(way, table);
        const due = `OK 1 ${count} 0 0 ${2001 * count}`;
        expect('lists', `${count} lines`, lineOf(() => checked(way, file)), due);
        expect('lists', `${count} lines back`, hex(ach.read(way, file)), hex(table));
    }
    const grown = ach.memoryLength;
    for (let again = 0; again < 5; again += 1) ach.write(LINED, table);
    const said = `${grown > before} ${ach.memoryLength}`;
    expect('memory', 'grows for a long list and no further', said, `true ${grown}`);
}

/** What becomes of each refused file: another sample and the changes, or what is left to refuse. */
function mendings() {
    for (const [name, due] of listedIn('index-mended')) {
        const way = name.endsWith('-lined.ach') ? LINED : PLAIN;
        const other = due.match(/^OK (\S+)/)?.[1];
        const asked = () => {
            const { file, changes } = ach.mend(way, sample(name));
            const isOther = other !== undefined && hex(file) === hex(sample(other));
            return [isOther ? other : 'another file', Buffer.from(changes)];
        };
        expect('mend', name, lineOf(asked), due);
    }
}

/** An accepted file stays as it is, and the list of changes is three counts of nothing. */
function mendedIdly(way, file, name) {
    const mended = ach.mend(way, file);
    const said = `${hex(mended.file)} ${Buffer.from(mended.changes)}`;
    expect('mend', name, said, `${hex(file)} ${'0'.repeat(21)}`);
}

/** The recall that the sample is of. */
function recall() {
    const left = ach.takeOut(PLAIN, sample('gaps.ach'), BigUint64Array.of(6n, 2n, 3n, 5n, 2n));
    expect('takeOut', 'recalled.ach', hex(left.file), hex(sample('recalled.ach')));
}

// ---- the vectors

function vectors(folder) {
    const due = linesOf('crates/edges/stdout');
    linesOf('crates/edges/args').forEach((name, i) => {
        bothWays('vectors', bytesOf(`crates/edges/data/${name}`), name, due[i]);
    });
    if (folder === undefined) return;
    const expected = linesAt(`${folder}/expected`);
    linesAt(`${folder}/names`).forEach((name, i) => {
        const file = new Uint8Array(readFileSync(`${folder}/${name}`));
        one('vectors of line ends', LINED, file, name, expected[i]);
    });
}

// ---- the loader

const thrown = (call) => {
    try {
        call();
        return 'nothing';
    } catch (error) {
        return error.name;
    }
};

function mistakes() {
    const file = sample('whole.ach');
    const { rows } = ach.check(PLAIN, file);
    const others = rows.map((number) => number + 1n);
    const cases = [
        ['no way', () => ach.check(file), 'TypeError'],
        ['a way that is none', () => ach.check(2, file), 'TypeError'],
        ['no bytes', () => ach.read(PLAIN, 'text'), 'TypeError'],
        ['rows of another type', () => ach.runsOut([1, 2], 3), 'TypeError'],
        ['half a cent', () => ach.alter(PLAIN, file, rows, 1, 0.5), 'RangeError'],
        ['a number below 0', () => ach.addendum(PLAIN, file, -1), 'RangeError'],
        ['an entry of 65 bits', () => ach.takeOut(PLAIN, file, [2n ** 64n]), 'RangeError'],
        ['rows of another file', () => ach.alter(PLAIN, file, others, 1, 1), 'Refusal'],
    ];
    for (const [about, call, due] of cases) expect('mistakes', about, thrown(call), due);
    expect('mistakes', 'what is passed stays', hex(file), hex(sample('whole.ach')));
}

samples();
limits();
lists();
mendings();
recall();
vectors(process.argv[2]);
mistakes();
const counted = [...counts].map(([kind, count]) => `${kind} ${count}`).join(', ');
console.log(`wasm: ${counted}; differences ${differences}`);
process.exitCode = differences === 0 ? 0 : 1;
