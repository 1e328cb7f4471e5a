// Document 01's notation to records, and a goal's image back to notation. It stands in for a proved reader and printer (document 02, C-13 and C-14), and nothing
// proves it: ports/web/try.js holds it to the second program's bytes. Names get numbers from 0 by first appearance, separately for constants, compound
// terms and predicates.
"use strict";

class Names {
    constants = [];
    compounds = [];
    predicates = [];
}

function numberOf(list, name) {
    const at = list.indexOf(name);
    return at < 0 ? list.push(name) - 1 : at;
}

// A text, read from the front; each part puts its records behind those of the part before.
class Reader {
    constructor(text, names) {
        Object.assign(this, { text, names, at: 0, records: [], variables: [], clauses: [] });
    }

    fail(wanted) {
        const line = this.text.slice(0, this.at).split("\n").length;
        const found = this.text.slice(this.at, this.at + 20).split("\n")[0];
        throw new Error(`line ${line}: ${wanted} expected before “${found}”`);
    }

    skip() {
        this.at += this.text.slice(this.at).match(/^(\s|%[^\n]*)*/)[0].length;
    }

    ended() {
        this.skip();
        return this.at === this.text.length;
    }

    take(mark) {
        this.skip();
        const here = this.text.startsWith(mark, this.at);
        if (here) this.at += mark.length;
        return here;
    }

    expect(mark) {
        if (!this.take(mark)) this.fail(`“${mark}”`);
    }

    // A full stop has a blank, a comment or the text's end behind it.
    stop() {
        this.expect(".");
        if (!/^(\s|%|$)/.test(this.text.slice(this.at, this.at + 1))) this.fail("a blank");
    }

    word() {
        this.skip();
        const [word] = this.text.slice(this.at).match(/^[A-Za-z_][A-Za-z0-9_]*|/);
        if (!word) this.fail("a name");
        this.at += word.length;
        return word;
    }

    put(kind, number) {
        this.records.push(kind, number >> 8, number & 255);
    }

    // A byte for how many follow, then so many.
    counted(parts) {
        const at = this.records.push(0) - 1;
        const count = parts();
        if (count > 255) throw new Error(`${count} arguments or formulas are more than a byte can say`);
        this.records[at] = count;
    }

    arguments() {
        if (this.text[this.at] !== "(") return 0;
        this.expect("(");
        let count = 0;
        do {
            this.term();
            count++;
        } while (this.take(","));
        this.expect(")");
        return count;
    }

    term() {
        const word = this.word();
        if (/^[A-Z_]/.test(word)) this.put(1, word === "_" ? this.variables.push(null) - 1 : numberOf(this.variables, word));
        else if (this.text[this.at] !== "(") this.put(2, numberOf(this.names.constants, word));
        else {
            this.put(3, numberOf(this.names.compounds, word));
            this.counted(() => this.arguments());
        }
    }

    formula() {
        const word = this.word();
        if (/^[A-Z_]/.test(word)) this.fail("a predicate's name");
        this.put(4, numberOf(this.names.predicates, word));
        this.counted(() => this.arguments());
    }

    formulas() {
        let count = 0;
        do {
            this.formula();
            count++;
        } while (this.take(","));
        return count;
    }

    clause() {
        const from = this.at;
        this.variables = [];
        this.records.push(5);
        this.counted(() => {
            this.formula();
            const count = this.take(":-") ? this.formulas() : 0;
            this.stop();
            return count;
        });
        this.clauses.push(this.text.slice(from, this.at));
    }

    book() {
        while (!this.ended()) this.clause();
        return Uint8Array.from([...this.records, 7]);
    }

    // The formulas alone, or `?- formulas.`; no text is the empty query.
    query() {
        const marked = this.take("?-");
        const count = this.ended() ? 0 : this.formulas();
        if (marked || !this.ended()) this.stop();
        if (!this.ended()) this.fail("the query's end");
        return Uint8Array.from([6, count >> 8, count & 255, ...this.records]);
    }
}

// A goal's image in notation; its variables are V0, V1, .. A goal may be 4,096 levels deep, so the open brackets are kept in a list.
function goalText(image, names) {
    const levels = [{ left: image[1] * 256 + image[2], before: "", between: ", ", after: "" }];
    let text = "";
    for (let at = 3; levels.length; ) {
        const level = levels.at(-1);
        if (level.left-- === 0) {
            text += levels.pop().after;
            continue;
        }
        const kind = image[at];
        const number = image[at + 1] * 256 + image[at + 2];
        const name = kind === 1 ? `V${number}` : [names.constants, names.compounds, names.predicates][kind - 2][number];
        text += level.before + name;
        level.before = level.between;
        at += 3;
        if (kind > 2 && image[at++] > 0) levels.push({ left: image[at - 1], before: "(", between: ",", after: ")" });
    }
    return text;
}

// A goal's first formula as a goal of its own.
function leftmost(image) {
    return Uint8Array.from(image, (byte, i) => (i === 1 ? 0 : i === 2 ? 1 : byte));
}

// Behind the term that starts there.
function behindTerm(image, at) {
    for (let left = 1; left > 0; left--) {
        const compound = image[at] === 3;
        if (compound) left += image[at + 3];
        at += compound ? 4 : 3;
    }
    return at;
}

// What the answer has for each variable of its query, by number, each as a goal of one part: where the query's image has a variable the answer's has a term, and
// all else is the same in both (document 02, C-11).
function valuesOf(query, answer) {
    const values = [];
    for (let at = 3, there = 3; at < query.length; ) {
        const size = query[at] > 2 ? 4 : 3;
        const end = query[at] === 1 ? behindTerm(answer, there) : there + size;
        if (query[at] === 1) values[query[at + 1] * 256 + query[at + 2]] = Uint8Array.of(6, 0, 1, ...answer.subarray(there, end));
        at += size;
        there = end;
    }
    return values;
}

if (typeof module !== "undefined") module.exports = { Names, Reader, goalText, leftmost, valuesOf };
