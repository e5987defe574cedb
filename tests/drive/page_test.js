// What page_test.py asks of a page. It is read before the page's own scripts.

// Keeps each call to a canvas.
window.drawn = [];
for (const name of ["fillRect", "fillText"]) {
    const draw = CanvasRenderingContext2D.prototype[name];
    CanvasRenderingContext2D.prototype[name] = function (...words) {
        if (window.drawn) window.drawn.push([this.canvas.id, name, words]);
        return draw.apply(this, words);
    };
}

// What stands in the page as shapes, each with the numbers of its path.
window.shapesDrawn = () => [...document.querySelectorAll("#lanes :is(rect, circle, path, text)")].map((shape) => {
    const of = (name) => Number(shape.getAttribute(name)), look = getComputedStyle(shape);
    const [x, y, width, height] = ["x", "y", "width", "height"].map(of);
    return { kind: shape.getAttribute("class").split(" "), x, y, width, height, right: x + width, center: x + width / 2, middle: y + height / 2,
        cx: of("cx"), cy: of("cy"), way: (shape.getAttribute("d") ?? "").match(/-?[0-9.]+/g)?.map(Number), fill: look.fill, stroke: look.stroke,
        dash: look.strokeDasharray, told: shape.querySelector("title")?.textContent, text: shape.tagName === "text" ? shape.textContent : "" };
});

// The pixels of a canvas, column by column: from where to where they have which colour, as red, green, blue and opacity.
window.pixelsOf = (id) => {
    const canvas = document.getElementById(id), { width, height } = canvas;
    const copy = Object.assign(document.createElement("canvas"), { width, height }).getContext("2d", { willReadFrequently: true });
    copy.drawImage(canvas, 0, 0);
    const { data } = copy.getImageData(0, 0, width, height), pixels = new Uint32Array(data.buffer);
    return Array.from({ length: width }, (_, x) => {
        const runs = [];
        for (let y = 0, at = x; y < height; y++, at += width) {
            if (y > 0 && pixels[at] === pixels[at - width] && runs.length) runs.at(-1)[1]++;
            else runs.push([y, y + 1, ...data.slice(at * 4, at * 4 + 4)]);
        }
        return runs.filter((run) => run[5] > 0);
    });
};

// The colours of the page, by name.
const COLOURS = "paper text dim rule grey edge trouble on words link h0 h1 h2 h3 h4 h5 h6 h7".split(" ");
window.coloursOfPage = () => Object.fromEntries(COLOURS.map((name) => {
    const probe = document.body.appendChild(document.createElement("i"));
    probe.style.color = `var(--${name})`;
    const colour = getComputedStyle(probe).color;
    probe.remove();
    return [name, colour];
}));

// Which contrasts are too low.
window.lowContrasts = () => {
    const channel = (part) => (part /= 255) <= 0.03928 ? part / 12.92 : ((part + 0.055) / 1.055) ** 2.4;
    const colour = (text) => text.match(/[\d.]+/g).map(Number), light = ([r, g, b]) => 0.2126 * channel(r) + 0.7152 * channel(g) + 0.0722 * channel(b);
    const contrast = (one, other) => { const [a, b] = [light(colour(one)), light(colour(other))].sort((x, y) => y - x); return (a + 0.05) / (b + 0.05); };
    const c = coloursOfPage(), faults = [];
    const least = (name, one, other, bound) => { if (contrast(one, other) < bound) faults.push(`${name} ${contrast(one, other).toFixed(2)}`); };
    for (const name of ["rule", "edge", "trouble", "on", "h0", "h1", "h2", "h3", "h4", "h5", "h6", "h7"]) least(name, c[name], c.paper, 3);
    for (const name of ["h0", "h1", "h2", "h3", "h4", "h5", "h6", "h7", "trouble"]) least("what is chosen, beside " + name, c.on, c[name], 1.5);
    for (const name of ["text", "dim", "h0", "h1", "h2", "h3", "h4", "h5", "h6", "h7", "edge"]) least(name + " as text or under it", c[name], c.paper, 4.5);
    least("text on grey", c.text, c.grey, 4.5);
    for (const element of document.querySelectorAll("body *:not(svg, svg *, option, select)")) {
        if (![...element.childNodes].some((node) => node.nodeType === 3 && node.textContent.trim()) || !element.checkVisibility()) continue;
        let ground = element;
        while (ground && /, 0\)|transparent/.test(getComputedStyle(ground).backgroundColor)) ground = ground.parentElement;
        least(element.tagName + " " + element.textContent.slice(0, 20), getComputedStyle(element).color, getComputedStyle(ground ?? document.body).backgroundColor, 4.5);
    }
    return faults;
};

// What is told in each of these elements, with single spaces.
window.textsOf = (selector) => [...document.querySelectorAll(selector)].map((one) => one.textContent.trim().replace(/\s+/g, " "));

// The value of the chosen step, and its line, to the letter.
window.valueAndLine = () => [[...document.querySelectorAll("#step td b")].at(-1), document.querySelector("#step code")].map((one) => one.textContent);

// Where on the page a step of a process stands.
window.placeOfStep = (step, lane) => {
    const at = document.getElementById("lanes").getBoundingClientRect();
    return [at.x + page.view.x(step), at.y + page.view.place.get(lane).y];
};

// The pale fields before the steps that are told and behind them.
window.fieldsOfPage = () => ["early", "late"].map((id) => document.getElementById(id)).map((one) => [one.offsetLeft, one.offsetWidth, one.textContent]);

window.titleOfPanel = () => [...document.querySelectorAll("#panel h2")].find((one) => one.checkVisibility()).textContent;

window.namesOfLanes = () => [...document.querySelectorAll("#lanes .name")].filter((one) => one.textContent)
    .sort((a, b) => a.getAttribute("y") - b.getAttribute("y")).map((one) => one.textContent);

// How many parts of the panel are wider than what of them is shown.
window.cutOff = () => [...document.querySelectorAll("#panel, #panel table, #panel pre")].filter((one) => one.scrollWidth > one.clientWidth).length;

// The places of the steps whose boxes are not pale.
window.clearBoxes = () => [...document.querySelectorAll("#lanes .box")].filter((box) => getComputedStyle(box).opacity === "1")
    .map((box) => Number(box.dataset.link.slice(5)) - 1).sort((a, b) => a - b);

// Takes a choice of a list.
window.choose = (selector, choice) => {
    const target = document.querySelector(selector);
    target.value = choice;
    target.dispatchEvent(new Event("change", { bubbles: true }));
};

// What each of these words finds, one after the other.
window.foundBy = async (...several) => {
    const told = [];
    for (const words of several) {
        await page.find(words);
        told.push(page.found);
    }
    return told;
};
