// What ports/replay.c does, for WebAssembly: in node (node replay.js ENGINE.WASM INPUTS) and in a page.
"use strict";

const PICK_FOR_C = 8, APPLY_FOR_C = 9;

// An area as the item has it before the call: its length, its first byte, and what each has more than the one before it.
function areaAt(view, at) {
    const [area, first, more] = [new Uint8Array(view.getUint32(at)), view.getUint8(at + 4), view.getUint8(at + 5)];
    for (let i = 0; i < area.length; i++) area[i] = first + more * i;
    return area;
}

// The items, all of them calls for C.
function* itemsOf(bytes) {
    const view = new DataView(bytes.buffer, bytes.byteOffset, bytes.length);
    for (let at = 0; at < bytes.length; ) {
        const entry = bytes[at];
        const end = at + 5 + view.getUint32(at + 1);
        const from = at + 5;
        at = end;
        const query = from + 20 + view.getUint32(from + 16);
        const areas = [areaAt(view, from + 4), areaAt(view, from + 10)];
        yield { entry, number: view.getUint32(from), areas, book: bytes.subarray(from + 20, query), query: bytes.subarray(query, end) };
    }
}

function called(engine, { entry, number, book, query }, [area, answer]) {
    if (entry === PICK_FOR_C) return engine.pick(book, query);
    if (entry === APPLY_FOR_C) return engine.apply(number, book, query, area);
    return engine.run(number, book, query, area, answer);
}

// The area's bytes up to the last that the call changed.
function changed(area, before) {
    let end = area.length;
    while (end > 0 && area[end - 1] === before[end - 1]) end--;
    return Array.from(area.subarray(0, end), (byte) => byte.toString(16).padStart(2, "0")).join("");
}

function lineOf(engine, item) {
    const areas = item.areas.map((area) => area.slice());
    const number = called(engine, item, areas);
    return [number.toString(16).padStart(16, "0"), ...areas.map((area, i) => changed(area, item.areas[i]))].join(" ");
}

// How far down a call of an entry came in the stack, which is painted before it.
const PAINT = 0x5a;
function used(engine, call) {
    engine.stack().fill(PAINT);
    const result = call();
    const stack = engine.stack();
    let left = 0;
    while (left < stack.length && stack[left] === PAINT) left++;
    return [result, stack.length - left];
}

function replay(engine, bytes) {
    const most = { run: 0, pick: 0, apply: 0 };
    const lines = Array.from(itemsOf(bytes), (item) => {
        const [line, depth] = used(engine, () => lineOf(engine, item));
        const entry = { [PICK_FOR_C]: "pick", [APPLY_FOR_C]: "apply" }[item.entry] ?? "run";
        most[entry] = Math.max(most[entry], depth);
        return line;
    });
    return [...lines, `stack run ${most.run} pick ${most.pick} apply ${most.apply}`].join("\n");
}

if (typeof module !== "undefined") {
    const { readFileSync } = require("node:fs");
    const { openEngine } = require("./engine.js");
    const [wasm, inputs] = process.argv.slice(2);
    openEngine(readFileSync(wasm)).then((engine) => console.log(replay(engine, readFileSync(inputs))));
}
