// What the page shows for rules, a query and a budget: the five numbers of `trace`, what they say in words, the answer, and a loop's stations.
"use strict";

// A circle of more stations is not drawn, and none that is found after more steps: each station is a run of its own.
const MOST_STATIONS = 24;
const MOST_STEPS = 100000;
// More steps would leave the page without an answer for too long.
const MOST_BUDGET = 1000000;

const cut = (text, most) => (text.length > most ? `${text.slice(0, most)} …` : text);
const counted = (number, what) => `${number} ${what}${number === 1 ? "" : "s"}`;

function packed({ rules, query }) {
    const names = new Names();
    const reader = new Reader(rules, names);
    const asked = new Reader(query, names);
    return { names, book: reader.book(), clauses: reader.clauses, query: asked.query(), variables: asked.variables };
}

// What a run of so many steps leaves: the goal's image, and the answer's, which says itself where it ends.
function leftAfter(engine, budget, { book, query }) {
    const [area, answer] = [new Uint8Array(AREA), new Uint8Array(AREA)];
    return { left: area.subarray(0, bytesIn(engine.run(budget, book, query, area, answer))), answer };
}

// Why no rule fits: the rule that gets furthest, and the argument at which it fails (document 02, C-19).
function reasonOf(engine, input, goal) {
    const number = engine.pick(input.book, goal);
    const rule = clauseOf(number);
    return `Rule ${rule + 1}, ${input.clauses[rule]} gets furthest, and fails at argument ${argumentOf(number)}.`;
}

// The leftmost formulas of the goals inside the circle: of steps t - s to t - 1, where the loop of span s was reported at step t.
function stationsOf(engine, input, steps, span) {
    if (span > MOST_STATIONS || steps > MOST_STEPS) return [];
    return Array.from({ length: span }, (_, i) => goalText(leftmost(leftAfter(engine, steps - span + i, input).left), input.names));
}

// Each variable of the query that has a name, with its value.
function namedValues({ query, variables, names }, answer) {
    const values = valuesOf(query, answer);
    return variables.map((name, i) => [name, cut(goalText(values[i], names), 300)]).filter(([name]) => name !== null);
}

// The query with what was found out of its variables (document 02, C-11). Solved, each instance of it follows from the rules; otherwise from them and the goal
// that is left.
function instanceOf(code, answer, goal) {
    if (answer === "") return "";
    const free = [...new Set(answer.match(/\bV\d+/g))].join(", ");
    const all = free === "" ? "" : `, for every ${cut(free, 60)}`;
    return code === 20 ? `From the rules follows${all}: ${cut(answer, 300)}.` : `So far: ${cut(answer, 300)}, if ${goal}.`;
}

// What each code from 20 on says.
const meanings = {
    20: ({ steps }) => `Solved after ${counted(steps, "step")}.`,
    21: ({ steps, span, goal }) =>
        `A loop, found at step ${steps}: the leftmost formula comes back every ${span === 1 ? "step" : `${span} steps`}, and the search would never end. The goal there: ${goal}`,
    22: ({ steps, goal, reason }) => `Stuck after ${counted(steps, "step")}: no rule fits the first formula of ${goal}. ${reason()}`,
    23: ({ steps, goal }) => `The steps are used up: after ${counted(steps, "step")} the goal is ${goal}`,
    24: ({ steps, goal }) => `No room for the next goal: after ${counted(steps, "step")} the goal is ${goal}`,
    26: ({ steps, goal }) => `After ${counted(steps, "step")} no rule at all has the predicate of the first formula of ${goal}: a slip of the pen, most likely.`,
    27: ({ steps, goal }) => `No room for the next answer: after ${counted(steps, "step")} the goal is ${goal}`,
};

// What the codes below say, of the rules or of the query; the notation makes no others.
const refusals = {
    4: "a number of arguments or formulas is out of range",
    5: "a size is passed",
    6: "a variable's number is too large",
    7: "its predicate stands before with another number of arguments; one was forgotten, most likely",
};

function refusalOf(code, place) {
    return `The ${code > 10 ? "query" : "book"} is refused at byte ${place}: ${refusals[code % 10] ?? `code ${code}`}.`;
}

async function answerOf(modules, texts) {
    const input = packed(texts);
    const budget = Math.min(Math.max(Math.trunc(Number(texts.budget)) || 0, 0), MOST_BUDGET);
    const numbers = (await trace(modules.trace, traceInput(budget, input.book, input.query))).split(" ");
    const [code, place, steps, span] = numbers.map(Number);
    if (!(code in meanings)) return { numbers, words: refusalOf(code, place), values: [], instance: "", stations: [] };
    const engine = await openEngine(modules.engine);
    const { left, answer } = leftAfter(engine, budget, input);
    const goal = cut(goalText(left, input.names), 300);
    const reason = () => reasonOf(engine, input, left);
    return {
        numbers,
        words: meanings[code]({ steps, span, goal, reason }),
        values: namedValues(input, answer),
        instance: instanceOf(code, goalText(answer, input.names), goal),
        stations: code === 21 ? stationsOf(engine, input, steps, span) : [],
    };
}

if (typeof module !== "undefined") module.exports = { answerOf, packed };
