// The page: at each change the rules and the query are packed and run, and what comes of it is shown.
"use strict";

const field = (id) => document.getElementById(id);
const inputs = ["rules", "query", "budget"];

async function show() {
    const texts = Object.fromEntries(inputs.map((id) => [id, field(id).value]));
    const nothing = { numbers: ["", "", "", "", ""], values: [], instance: "", stations: [] };
    const { numbers, words, values, instance, stations } = await answerOf(wasm, texts).catch((fault) => ({ ...nothing, words: fault.message }));
    [...field("numbers").cells].forEach((cell, i) => (cell.textContent = numbers[i]));
    field("words").textContent = words;
    field("values").innerHTML = values.map((pair) => `<tr><th>${escaped(pair[0])}<td>${escaped(pair[1])}`).join("");
    field("instance").textContent = instance;
    field("circle").innerHTML = circleOf(stations);
}

// A link may bring the texts behind its #.
for (const [id, text] of new URLSearchParams(location.hash.slice(1))) if (inputs.includes(id)) field(id).value = text;
for (const id of inputs) field(id).addEventListener("input", show);
show();
