// node try.js FOLDER: the page's parts without a browser, with engine.wasm and trace.wasm of the folder. The reader makes the bytes that the second program makes of
// the example books, `trace` prints the lines that the demonstration prints, and the words are those that a rule writer is to see.
"use strict";

const assert = require("node:assert");
const { readFileSync } = require("node:fs");
const { join } = require("node:path");
for (const part of ["engine", "notation", "answer", "circle"]) Object.assign(globalThis, require(`./${part}.js`));

const [folder] = process.argv.slice(2);
const plant = join(__dirname, "../../examples/small");
const modules = { engine: readFileSync(join(folder, "engine.wasm")), trace: readFileSync(join(folder, "trace.wasm")) };
const rules = readFileSync(join(plant, "rules"), "utf8");
const queryOf = (name) => readFileSync(join(plant, `${name}.query`), "utf8").trim();
const answerTo = (rules, query, budget = 10000) => answerOf(modules, { rules, query, budget });

// The example books: the packed bytes, the numbers and the words.
const said = {
    solved: "Solved after 3 steps.",
    stuck: "Stuck after 2 steps: no rule fits the first formula of opens(valve_3,c8). Rule 3, opens(valve_3,c7). gets furthest, and fails at argument 2.",
    mistyped: "After 0 steps no rule at all has the predicate of the first formula of suplies(V0,c7): a slip of the pen, most likely.",
    forgotten: "The query is refused at byte 3: its predicate stands before with another number of arguments; one was forgotten, most likely.",
    loop: "A loop, found at step 1: the leftmost formula comes back every step, and the search would never end. The goal there: upstream(tank,V0), pipe(V0,V1)",
};

async function examples() {
    const expected = readFileSync(join(plant, "expected"), "utf8").split("\n");
    for (const [i, name] of Object.keys(said).entries()) {
        const { book, query } = packed({ rules, query: queryOf(name) });
        assert.deepStrictEqual(Buffer.from(traceInput(10000, book, query)), readFileSync(join(plant, `${name}.input`)), name);
        const { numbers, words } = await answerTo(rules, queryOf(name));
        assert.strictEqual(`code place steps span bytes: ${numbers.join(" ")}`, expected[i]);
        assert.strictEqual(words, said[name]);
    }
}

// The answer: each variable that has a name, with its value, and the instance.
async function answers() {
    const found = async (...texts) => (({ values, instance }) => [Object.fromEntries(values), instance])(await answerTo(...texts));
    const solved = "From the rules follows: supplies(pump_2,c7), feeds(pump_2,valve_3).";
    assert.deepStrictEqual(await found(rules, "opens(V,c7)"), [{ V: "valve_3" }, "From the rules follows: opens(valve_3,c7)."]);
    assert.deepStrictEqual(await found(rules, "supplies(P,c7), feeds(P,V)"), [{ P: "pump_2", V: "valve_3" }, solved]);
    assert.deepStrictEqual(await found(rules, "feeds(P,V), opens(V,c8)"), [
        { P: "pump_2", V: "valve_3" },
        "So far: feeds(pump_2,valve_3), opens(valve_3,c8), if opens(valve_3,c8).",
    ]);
    assert.deepStrictEqual(await found(rules, queryOf("loop")), [{ V: "V1" }, "So far: upstream(tank,V1), if upstream(tank,V0), pipe(V0,V1)."]);
    const nested = "p(f(X,g(a)),c,X,Y).";
    assert.deepStrictEqual(await found(nested, "p(A,B,_,h(C,B))"), [
        { A: "f(V0,g(a))", B: "c", C: "V1" },
        "From the rules follows, for every V0, V1: p(f(V0,g(a)),c,V0,h(V1,c)).",
    ]);
    assert.deepStrictEqual(await found("p.", ""), [{}, ""]);
    const doubling = await answerTo("d(s(N),f(X,X)) :- d(N,X).", `d(${"s(".repeat(12)}o${")".repeat(12)},Y)`);
    assert.strictEqual(doubling.words, "No room for the next answer: after 10 steps the goal is d(s(s(o)),V0)");
}

async function circles() {
    const turning = "p(X) :- q(f(X)), s. q(f(X)) :- r(X). r(X) :- p(X).";
    const { numbers, stations } = await answerTo(turning, "p(a)");
    assert.strictEqual(Number(numbers[3]), 3);
    assert.deepStrictEqual([...stations].sort(), ["p(a)", "q(f(a))", "r(a)"]);
    assert.strictEqual(stations.indexOf("q(f(a))"), (stations.indexOf("p(a)") + 1) % 3);
    const svg = circleOf(stations);
    assert.strictEqual(svg.split('class="station"').length - 1, 3);
    assert.ok(svg.includes(">q(f(a))<"));
    assert.strictEqual(circleOf([]), "");
    assert.ok(circleOf(["p(<&)"]).includes("p(&lt;&amp;)"));
}

async function others() {
    const counting = "n(X) :- n(s(X)).";
    assert.strictEqual((await answerTo(counting, "n(o)", 2)).words, "The steps are used up: after 2 steps the goal is n(s(s(o)))");
    assert.match((await answerTo(counting, "n(o)", 5000)).words, /^No room for the next goal: after 4094 steps the goal is n\(s\(.* …$/);
    assert.strictEqual((await answerTo("p(a,a,a,a,a,a,a,a,a).", "p")).words, "The book is refused at byte 2: a number of arguments or formulas is out of range.");
    assert.strictEqual((await answerTo("p.", "p(_,_,_,_,_,_,_,_,_)")).words, "The query is refused at byte 3: a number of arguments or formulas is out of range.");
    assert.strictEqual((await answerTo("p. % one\n q :- p, % two\n p.", "?- q, q.")).words, "Solved after 6 steps.");
    await assert.rejects(answerTo("p.\nq(a :- p.", "p"), { message: "line 2: “)” expected before “:- p.”" });
    await assert.rejects(answerTo("p.q.", "p"), { message: "line 1: a blank expected before “q.”" });
    await assert.rejects(answerTo("p.", "p q"), { message: "line 1: “.” expected before “q”" });
}

Promise.all([examples(), answers(), circles(), others()]).then(
    () => console.log("the page's parts: ok"),
    (fault) => {
        console.error(fault.message);
        process.exitCode = 1;
    },
);
