"use strict";
// A checker of certificates, written from docs/CERTIFICATES.md and not from the sources. `node check.js <TEXT` writes
// what `simp replay` has to write, and ends with its status. With --many it reads a JSON list of texts, each in base64,
// and writes a JSON list of the replies to each with the status.

const fs = require("fs");

// The text of a certificate, as strings of one character for each byte. A function that reads a text gives null where
// the text is not what it reads.

const LABEL = /^(?:[1-9][0-9]{0,5}|1000000)$/;
const LISTS = /\[[^\]]*\]/g;

function label(text) {
    return LABEL.test(text) ? Number(text) : null;
}

// The values that `read` gives for texts; null where there are no texts or one value is null.
function all(texts, read) {
    const values = texts === null ? [null] : texts.map(read);
    return values.includes(null) ? null : values;
}

// The texts between the commas of "[..]", where `inner` says what stands between two commas.
function parts(text, inner) {
    if (!text.startsWith("[") || !text.endsWith("]")) {
        return null;
    }
    const found = text.slice(1, -1).match(inner) || [];
    return "[" + found.join(",") + "]" === text ? found : null;
}

function labels(text) {
    return all(parts(text, /[^,]+/g), label);
}

function simplex(text) {
    const found = labels(text);
    const good = found !== null && found.length <= 12 && found.every((x, i) => i === 0 || found[i - 1] < x);
    return good ? found : null;
}

function compare(a, b) {
    for (let i = 0; i < Math.min(a.length, b.length); i++) {
        if (a[i] !== b[i]) {
            return a[i] - b[i];
        }
    }
    return a.length - b.length;
}

function key(simplex) {
    return simplex.join(",");
}

function properFaces(simplex) {
    const faces = [];
    for (let bits = 0; bits < 2 ** simplex.length - 1; bits++) {
        faces.push(simplex.filter((x, i) => bits >> i & 1));
    }
    return faces;
}

function facets(text) {
    const found = all(parts(text, LISTS), simplex);
    if (found === null || found.some((x, i) => i > 0 && compare(found[i - 1], x) >= 0)) {
        return null;
    }
    const sizes = new Set(found.map((x) => x.length));
    const keys = new Set(found.map(key));
    const covers = (x) => properFaces(x).some((face) => sizes.has(face.length) && keys.has(key(face)));
    return sizes.size > 1 && found.some(covers) ? null : found;
}

function pairs(text) {
    const found = all(parts(text, LISTS), labels);
    return found !== null && found.every((x) => x.length === 2) ? found : null;
}

function flip(text) {
    const words = text.split(" ");
    return words.length === 3 && words[0] === "flip" ? all(words.slice(1), simplex) : null;
}

// What `read` gives for the rest of a line that begins with the word; null for another line.
function after(word, line, read) {
    return line.startsWith(word + " ") ? read(line.slice(word.length + 1)) : null;
}

// Takes the n-th line, from 0, into the certificate; false where no certificate goes on with it. Its flips are lists:
// one, or one on each side of `map`, or one behind each `link`.
function take(c, n, line) {
    const equivalent = c.kind === "equivalent";
    if (n === 0) {
        const kind = /^certificate 1 (sphere|equivalent|manifold)$/.exec(line);
        c.kind = kind && kind[1];
        return kind !== null;
    }
    if (n === 1) {
        c.flips = c.kind === "manifold" ? [] : [[]];
        c.start = after(equivalent ? "from" : "facets", line, facets);
        return c.start !== null;
    }
    if (n === 2 && equivalent) {
        c.target = after("to", line, facets);
        return c.target !== null;
    }
    if (c.ended) {
        return false;
    }
    if (line === "end") {
        c.ended = true;
        return !equivalent || c.map !== null;
    }
    if (equivalent && line.startsWith("map ")) {
        const again = c.map !== null;
        c.map = after("map", line, pairs);
        c.flips.push([]);
        return !again && c.map !== null;
    }
    if (c.kind === "manifold" && line.startsWith("link ")) {
        c.links.push(after("link", line, label));
        c.flips.push([]);
        return c.links[c.links.length - 1] !== null;
    }
    const found = flip(line);
    if (found === null || c.flips.length === 0) {
        return false;
    }
    c.flips[c.flips.length - 1].push(found);
    return true;
}

// Complexes

function increasing(numbers) {
    return [...numbers].sort((a, b) => a - b);
}

function isPure(facets, leastSize) {
    return facets.length > 0 && facets[0].length >= leastSize && facets.every((x) => x.length === facets[0].length);
}

// The sets of b and all labels of a but one.
function sides(a, b) {
    return a.map((out) => increasing([...b, ...a.filter((x) => x !== out)]));
}

// A pure complex: its facets by key, and those of each vertex.
class Complex {
    constructor(facets) {
        this.size = facets[0].length;
        this.all = new Map();
        this.at = new Map();
        facets.forEach((x) => this.add(x));
    }

    add(facet) {
        this.all.set(key(facet), facet);
        for (const x of facet) {
            if (!this.at.has(x)) {
                this.at.set(x, new Map());
            }
            this.at.get(x).set(key(facet), facet);
        }
    }

    remove(facet) {
        this.all.delete(key(facet));
        for (const x of facet) {
            this.at.get(x).delete(key(facet));
            if (this.at.get(x).size === 0) {
                this.at.delete(x);
            }
        }
    }

    containing(simplex) {
        const near = simplex.length > 0 ? this.at.get(simplex[0]) || new Map() : this.all;
        return [...near.values()].filter((facet) => simplex.every((x) => facet.includes(x)));
    }

    // Makes a flip; false where it is not allowed.
    flip(a, b) {
        if (a.length === 0 || b.length === 0 || a.length + b.length !== this.size + 1 || a.some((x) => b.includes(x))) {
            return false;
        }
        const out = sides(b, a);
        const found = new Set(this.containing(a).map(key));
        if (found.size !== out.length || !out.every((x) => found.has(key(x))) || this.containing(b).length > 0) {
            return false;
        }
        out.forEach((x) => this.remove(x));
        sides(a, b).forEach((x) => this.add(x));
        return true;
    }

    vertices() {
        return increasing(this.at.keys());
    }

    isSimplexBoundary() {
        return this.all.size === this.size + 1 && this.at.size === this.size + 1;
    }

    // The same complex with each vertex x renamed to map.get(x).
    image(map) {
        return new Complex([...this.all.values()].map((facet) => increasing(facet.map((x) => map.get(x)))));
    }

    hasFacets(facets) {
        return this.all.size === facets.length && facets.every((x) => this.all.has(key(x)));
    }
}

// The fault of a certificate; null where it is valid.

function fault(c) {
    let made = 0;
    const failsIn = (complex, flips) => !flips.every(([a, b]) => complex.flip(a, b) && (made += 1));

    if (!isPure(c.start, c.kind === "manifold" ? 2 : 1) || (c.kind === "equivalent" && !isPure(c.target, 1))) {
        return "start";
    }
    if (c.kind === "manifold") {
        const vertices = new Complex(c.start).vertices();
        for (let i = 0; i < Math.max(vertices.length, c.links.length); i++) {
            if (vertices[i] !== c.links[i]) {
                return `links ${i + 1}`;
            }
        }
        for (const [i, vertex] of vertices.entries()) {
            const around = c.start.filter((facet) => facet.includes(vertex));
            const link = new Complex(around.map((facet) => facet.filter((x) => x !== vertex)));
            if (failsIn(link, c.flips[i])) {
                return `flip ${made + 1}`;
            }
            if (!link.isSimplexBoundary()) {
                return `end ${vertex}`;
            }
        }
        return null;
    }
    const complex = new Complex(c.start);
    if (failsIn(complex, c.flips[0])) {
        return `flip ${made + 1}`;
    }
    if (c.kind === "sphere") {
        return complex.isSimplexBoundary() ? null : "end";
    }
    const map = new Map(c.map);
    if (key(complex.vertices()) !== key(c.map.map((x) => x[0])) || new Set(map.values()).size !== c.map.length) {
        return "map";
    }
    const image = complex.image(map);
    if (failsIn(image, c.flips[1])) {
        return `flip ${made + 1}`;
    }
    return image.hasFacets(c.target) ? null : "end";
}

// The reply to a part: lines, each with whether it has its line feed.
function reply(part) {
    const c = {kind: null, start: null, target: null, map: null, links: [], flips: [], ended: false};
    for (const [n, {line, whole}] of part.entries()) {
        if (!whole || !take(c, n, line)) {
            return `refused form ${n + 1}`;
        }
    }
    if (!c.ended) {
        return `refused form ${part.length + 1}`;
    }
    const found = fault(c);
    return found === null ? `accepted ${c.kind} ${c.flips.flat().length}` : `refused ${found}`;
}

// The replies to a text, as `simp replay` writes them, and the status.
function replay(bytes) {
    const texts = bytes.toString("latin1").split("\n");
    const found = [];
    let part = null;
    for (const [i, line] of texts.entries()) {
        if (line.startsWith("certificate ")) {
            part = [];
            found.push(part);
        }
        if (part !== null && (line !== "" || i < texts.length - 1)) {
            part.push({line, whole: i < texts.length - 1});
        }
        if (line === "end") {
            part = null;
        }
    }
    const replies = found.map(reply);
    const accepted = replies.filter((x) => x.startsWith("accepted ")).length;
    replies.push(`checked ${found.length} accepted ${accepted}`);
    return [replies.join("\n") + "\n", accepted === found.length ? 0 : 1];
}

const input = fs.readFileSync(0);
if (process.argv[2] === "--many") {
    const texts = JSON.parse(input.toString());
    process.stdout.write(JSON.stringify(texts.map((text) => replay(Buffer.from(text, "base64")))));
} else {
    const [replies, status] = replay(input);
    process.stdout.write(replies);
    process.exitCode = status;
}
