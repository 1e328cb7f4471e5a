// A loop as a circle of its stations, in SVG: each is a dot with its formula beside it, and arrows lead around.
"use strict";

const WIDTH = 720, HEIGHT = 360, RADIUS = 110;

const escaped = (text) => text.replace(/&/g, "&amp;").replace(/</g, "&lt;").replace(/"/g, "&quot;");

// A place on the circle, by a part of a turn, from the top and clockwise.
function placed(turn, radius) {
    const angle = 2 * Math.PI * turn - Math.PI / 2;
    return [WIDTH / 2 + radius * Math.cos(angle), HEIGHT / 2 + radius * Math.sin(angle)].map((x) => Number(x.toFixed(1)));
}

// An arrow from one station to the next; the last leads to the first.
function arrow(i, count) {
    const gap = 0.025;
    const [from, to] = [placed(i / count + gap, RADIUS), placed((i + 1) / count - gap, RADIUS)];
    return `<path d="M ${from} A ${RADIUS} ${RADIUS} 0 ${1 / count - 2 * gap > 0.5 ? 1 : 0} 1 ${to}" marker-end="url(#head)"/>`;
}

function station(text, i, count) {
    const [x, y] = placed(i / count, RADIUS);
    const [tx, ty] = placed(i / count, RADIUS + 16);
    const side = Math.abs(tx - WIDTH / 2) < 1 ? "middle" : tx < WIDTH / 2 ? "end" : "start";
    const short = text.length > 30 ? `${text.slice(0, 29)}…` : text;
    return `<circle class="station" cx="${x}" cy="${y}" r="5"/><text x="${tx}" y="${ty + 5}" text-anchor="${side}">${escaped(short)}<title>${escaped(text)}</title></text>`;
}

function circleOf(stations) {
    if (stations.length === 0) return "";
    const arrows = stations.map((_, i) => arrow(i, stations.length));
    const head = '<defs><marker id="head" viewBox="0 0 8 8" refX="6" refY="4" markerWidth="8" markerHeight="8" orient="auto"><path d="M 0 0 L 8 4 L 0 8 z"/></marker></defs>';
    const parts = stations.map((text, i) => station(text, i, stations.length));
    return `<svg viewBox="0 0 ${WIDTH} ${HEIGHT}" role="img" aria-label="The loop as a circle">${head}<g class="arrows">${arrows.join("")}</g>${parts.join("")}</svg>`;
}

if (typeof module !== "undefined") module.exports = { circleOf };
