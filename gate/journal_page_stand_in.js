"use strict";
// Runs a page's script without a browser, over as much of a document as the script uses, for journal_page_checks.py.
// Standard input has the elements of the page, the script, the address behind the # and what is clicked; standard output gets the
// elements as they are then, and the address.
const fs = require("fs");
const vm = require("vm");

// `li`, `#words`, `.mark` and `[data-step]`, in any order
function isOne(element, selector) {
    const parts = selector.match(/^[a-z]+|#[\w-]+|\.[\w-]+|\[[\w-]+\]/g);
    return parts.every((part) => {
        if (part[0] === "#") return element.attributes.id === part.slice(1);
        if (part[0] === ".") return element.classes().includes(part.slice(1));
        if (part[0] === "[") return part.slice(1, -1) in element.attributes;
        return element.tag === part;
    });
}

class Element {
    constructor({ tag, attributes, text, parent }, all) {
        Object.assign(this, { tag, attributes, parent, all, textContent: text, heard: {} });
        Object.assign(this, { value: "", scrollLeft: 0, scrollTop: 0, clientWidth: 800, clientHeight: 600 });
        this.name = attributes.name;
        this.dataset = new Proxy({}, { get: (_none, name) => attributes[`data-${name}`] });
        this.classList = {
            add: (name) => this.classList.toggle(name, true),
            remove: (name) => this.classList.toggle(name, false),
            toggle: (name, has) => {
                const others = this.classes().filter((one) => one !== name);
                attributes.class = [...others, ...(has ? [name] : [])].join(" ");
            },
        };
    }

    classes() { return (this.attributes.class || "").split(" ").filter(Boolean); }

    get hidden() { return "hidden" in this.attributes; }

    set hidden(is) {
        if (is) this.attributes.hidden = "";
        else delete this.attributes.hidden;
    }

    getAttribute(name) { return name in this.attributes ? this.attributes[name] : null; }

    setAttribute(name, value) { this.attributes[name] = String(value); }

    around() { return this.parent === null ? [] : [this.all[this.parent], ...this.all[this.parent].around()]; }

    contains(other) { return other === this || other.around().includes(this); }

    closest(selector) { return [this, ...this.around()].find((one) => isOne(one, selector)) || null; }

    querySelectorAll(selector) {
        const [last, ...outer] = selector.split(" ").reverse();
        return this.all.filter((one) => one !== this && this.contains(one) && isOne(one, last)
            && outer.every((part) => one.around().some((above) => isOne(above, part))));
    }

    querySelector(selector) { return this.querySelectorAll(selector)[0] || null; }

    addEventListener(kind, what) { this.heard[kind] = what; }

    getBoundingClientRect() { return { left: 0, top: 0, height: 0 }; }

    scrollIntoView() {}

    // an event of an element is also heard by those around it
    happen(kind) {
        for (const one of [this, ...this.around()]) if (one.heard[kind]) one.heard[kind]({ target: this });
    }
}

const given = JSON.parse(fs.readFileSync(0, "utf8"));
const all = [];
for (const one of given.elements) all.push(new Element(one, all));
const whole = all[0];
const location = { hash: given.address ? `#${given.address}` : "" };
const document = {
    getElementById: (id) => all.find((one) => one.attributes.id === id) || null,
    querySelector: (selector) => whole.querySelector(selector),
    querySelectorAll: (selector) => whole.querySelectorAll(selector),
};
const history = { replaceState: (_state, _title, address) => { location.hash = address; } };
vm.runInNewContext(given.script, { document, history, location, URLSearchParams, window: { addEventListener() {} } });
for (const selector of given.clicked) whole.querySelector(selector).happen("click");
for (const [name, text] of Object.entries(given.typed)) {
    const field = whole.querySelectorAll("#search input").find((one) => one.name === name);
    field.value = text;
    field.happen("input");
}
const elements = all.map(({ tag, attributes, textContent }) => ({ tag, attributes, text: textContent }));
process.stdout.write(JSON.stringify({ elements, address: location.hash.slice(1) }));
