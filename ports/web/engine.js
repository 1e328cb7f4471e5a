// The engine in WebAssembly: the entries for C of engine.wasm, and the program `trace` in trace.wasm.
"use strict";

// The length of a goal area, and of an answer area (include/pitxargole.h).
const AREA = 16387;

// The parts of the number that comes back (include/pitxargole.h).
const codeOf = (number) => Number(number & 0xffn);
const bytesIn = (number) => Number((number >> 8n) & 0xffffffn);
const clauseOf = (number) => Number((number >> 32n) & 0xffffn);
const argumentOf = (number) => Number(number >> 48n);

// Stands behind each row during a call, which may not change it.
const BEHIND = new Uint8Array(64).fill(0xa5);

// Puts byte rows into the engine's memory, one behind the other, from where its own data end; each as the two words, place and length, that a slice is for C.
function layer({ memory, __heap_base }) {
    return (rows) => {
        const end = rows.reduce((at, row) => at + row.length + BEHIND.length, __heap_base.value);
        const pages = Math.ceil((end - memory.buffer.byteLength) / 65536);
        if (pages > 0) memory.grow(pages);
        const bytes = new Uint8Array(memory.buffer);
        let at = __heap_base.value;
        return rows.map((row) => {
            const slice = [at, BigInt(row.length)];
            for (const part of [row, BEHIND]) {
                bytes.set(part, at);
                at += part.length;
            }
            return slice;
        });
    };
}

// The entries on byte rows. A call that is lent an area changes it as the engine does.
async function openEngine(wasm) {
    const { instance } = await WebAssembly.instantiate(wasm);
    const exported = instance.exports;
    const lay = layer(exported);
    const bytesAt = ([at, length]) => new Uint8Array(exported.memory.buffer, at, Number(length));
    const called = (entry, numbers, rows, lent) => {
        const slices = lay([...rows, ...lent]);
        const number = BigInt.asUintN(64, exported[entry](...numbers, ...slices.flat()));
        const kept = ([at, length]) => bytesAt([at + Number(length), BEHIND.length]).every((byte, i) => byte === BEHIND[i]);
        if (!slices.every(kept)) throw new Error("the engine wrote past its areas");
        lent.forEach((area, i) => area.set(bytesAt(slices[rows.length + i])));
        return number;
    };
    return {
        run: (budget, book, query, area, answer) => called("pitxargole_run", [budget], [book, query], [area, answer]),
        pick: (book, query) => called("pitxargole_pick", [], [book, query], []),
        apply: (clause, book, query, area) => called("pitxargole_apply", [clause], [book, query], [area]),
        stack: () => new Uint8Array(exported.memory.buffer, 0, exported.__stack_pointer.value),
    };
}

// What `trace` reads: the budget, the book's length, the book, the query.
function traceInput(budget, book, query) {
    const head = new DataView(new ArrayBuffer(8));
    head.setUint32(0, budget);
    head.setUint32(4, book.length);
    return Uint8Array.from([...new Uint8Array(head.buffer), ...book, ...query]);
}

// The line that `trace` prints: code, place, steps, span and bytes. Its read and write are given here; neither fails, so what it asks about a failure is not asked.
async function trace(wasm, input) {
    let memory;
    let line = "";
    let at = 0;
    const read = (_, to, most) => {
        const part = input.subarray(at, at + Number(most));
        new Uint8Array(memory.buffer, to, part.length).set(part);
        at += part.length;
        return BigInt(part.length);
    };
    const write = (_, from, length) => {
        line += String.fromCharCode(...new Uint8Array(memory.buffer, from, Number(length)));
        return length;
    };
    const { instance } = await WebAssembly.instantiate(wasm, { env: { read, write, rattle_errno: () => 0, __xpg_strerror_r: () => 0 } });
    memory = instance.exports.memory;
    instance.exports.main();
    return line.trim();
}

if (typeof module !== "undefined") module.exports = { AREA, codeOf, bytesIn, clauseOf, argumentOf, openEngine, traceInput, trace };
