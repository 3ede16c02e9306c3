"use strict";
// What the page does: it searches the words, shows in the picture what was found, and zooms. All that the journal says stands
// in the page as text; nothing here makes elements, or reads what is text as anything else.
(() => {
    const LEAST = 0.05, MOST = 8, BY = 1.25;
    const picture = document.getElementById("picture");
    const drawn = picture.querySelector("svg");
    const labels = document.getElementById("labels");
    const headings = document.getElementById("headings");
    const cursor = document.getElementById("cursor");
    const found = document.getElementById("found");
    const lines = [...document.querySelectorAll("#words li")];
    const marks = [...drawn.querySelectorAll(".mark")];
    const fields = [...document.querySelectorAll("#search input")];
    const ofStep = new Map(lines.filter((line) => line.dataset.step).map((line) => [line.dataset.step, line]));
    const marksOf = new Map();
    for (const mark of marks) {
        for (const step of [mark.dataset.begin, mark.dataset.end]) {
            if (!marksOf.has(step)) {
                marksOf.set(step, mark);
            }
        }
    }
    const width = Number(drawn.getAttribute("width"));
    const height = Number(drawn.getAttribute("height"));
    let scale = 1;
    let selected = null;

    // ---- search

    const listed = (text) => (text ? text.split(" ") : []);
    const isPartOf = (names, wanted) => listed(names).some((name) => name.includes(wanted));
    const fits = {
        grain: (line, wanted) => isPartOf(line.dataset.grains, wanted),
        client: (line, wanted) => isPartOf(line.dataset.clients, wanted),
        code: (line, wanted) => (wanted === "any" ? Boolean(line.dataset.codes) : listed(line.dataset.codes).includes(wanted)),
        request: (line, wanted) => listed(line.dataset.requests).includes(wanted),
        words: (line, wanted) => line.textContent.toLowerCase().includes(wanted.toLowerCase()),
    };

    function search() {
        const wanted = fields.map((field) => [field.name, field.value.trim()]).filter(([, text]) => text);
        const steps = new Set();
        let count = 0;
        for (const line of lines) {
            line.hidden = !wanted.every(([name, text]) => fits[name](line, text));
            if (!line.hidden) {
                count += 1;
                steps.add(line.dataset.step);
            }
        }
        for (const mark of marks) {
            const isFound = steps.has(mark.dataset.begin) || steps.has(mark.dataset.end);
            mark.classList.toggle("dim", !isFound);
        }
        found.textContent = `${count} of ${lines.length} lines`;
    }

    // ---- the place in the picture

    // the names stay at the left edge, the numbers of steps at the upper one
    function keepInSight() {
        labels.setAttribute("transform", `translate(${picture.scrollLeft / scale} 0)`);
        headings.setAttribute("transform", `translate(0 ${picture.scrollTop / scale})`);
    }

    function scrollTo(line) {
        const mark = marksOf.get(line.dataset.step);
        if (mark && !headings.contains(mark)) {
            const at = mark.getBoundingClientRect();
            const around = picture.getBoundingClientRect();
            picture.scrollTop += at.top + at.height / 2 - around.top - around.height / 2;
        }
        picture.scrollLeft = Number(line.dataset.x) * scale - picture.clientWidth / 2;
        keepInSight();
    }

    function zoom(wanted, x, y) {
        const before = scale;
        scale = Math.min(MOST, Math.max(LEAST, wanted));
        const left = ((picture.scrollLeft + x) * scale) / before - x;
        const top = ((picture.scrollTop + y) * scale) / before - y;
        drawn.setAttribute("width", width * scale);
        drawn.setAttribute("height", height * scale);
        picture.scrollLeft = left;
        picture.scrollTop = top;
        keepInSight();
    }

    function zoomInMiddle(wanted) {
        zoom(wanted, picture.clientWidth / 2, picture.clientHeight / 2);
        writeAddress();
    }

    function select(line) {
        if (selected) {
            selected.classList.remove("selected");
        }
        selected = line;
        line.classList.add("selected");
        cursor.setAttribute("x1", line.dataset.x);
        cursor.setAttribute("x2", line.dataset.x);
        cursor.setAttribute("visibility", "visible");
        scrollTo(line);
        writeAddress();
    }

    // ---- the address, behind whose # the search, the step and the zoom stand

    function writeAddress() {
        const said = new URLSearchParams();
        for (const field of fields) {
            if (field.value.trim()) {
                said.set(field.name, field.value.trim());
            }
        }
        if (selected) {
            said.set("step", selected.dataset.step);
        }
        if (scale !== 1) {
            said.set("zoom", scale.toFixed(2));
        }
        try {
            history.replaceState(null, "", `#${said}`);
        } catch (refusal) {
            // a frame may have no address of its own; the page does without
        }
    }

    function readAddress() {
        const said = new URLSearchParams(location.hash.slice(1));
        for (const field of fields) {
            field.value = said.get(field.name) || "";
        }
        zoom(Number(said.get("zoom")) || 1, 0, 0);
        search();
        const line = ofStep.get(said.get("step"));
        if (line) {
            line.hidden = false;
            select(line);
            line.scrollIntoView({ block: "center" });
        }
    }

    // ---- what a reader does

    const zooms = { closer: () => scale * BY, further: () => scale / BY, same: () => 1, all: () => picture.clientWidth / width };

    for (const field of fields) {
        field.addEventListener("input", () => {
            search();
            writeAddress();
        });
    }
    for (const button of document.querySelectorAll("button[name]")) {
        button.addEventListener("click", () => zoomInMiddle(zooms[button.name]()));
    }
    document.querySelector("#words ol").addEventListener("click", (event) => {
        const line = event.target.closest("li[data-step]");
        if (line) {
            select(line);
        }
    });
    drawn.addEventListener("click", (event) => {
        const mark = event.target.closest(".mark");
        const line = mark && ofStep.get(mark.dataset.begin);
        if (line) {
            line.hidden = false;
            select(line);
            line.scrollIntoView({ block: "center" });
        }
    });
    picture.addEventListener("scroll", keepInSight);
    picture.addEventListener("wheel", (event) => {
        if (event.ctrlKey) {
            event.preventDefault();
            const place = picture.getBoundingClientRect();
            zoom(event.deltaY < 0 ? scale * BY : scale / BY, event.clientX - place.left, event.clientY - place.top);
        }
    }, { passive: false });
    window.addEventListener("hashchange", readAddress);
    readAddress();
})();
