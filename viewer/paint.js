// Draws what is in view: from near by shapes that tell what they are, from farther off on a canvas. Colours are those of style.css.
const HUES = 8, COLUMN = 2, hueOf = (port) => (port ? "h" + port % HUES : "edge");
const escaped = (value) => String(value || value === 0 ? value : "").replace(/[&<>"]/g, (letter) => `&#${letter.charCodeAt()};`);
function html(parts, ...values) {  // in which each value is text, unless it is HTML or a list of it
    const inside = (value) => (Array.isArray(value) ? value.map(inside).join("") : value?.html ?? escaped(value));
    return { html: String.raw({ raw: parts }, ...values.map(inside)) };
}
const put = (texts) => Object.entries(texts).forEach(([id, text]) => write(byId(id), html`${text}`.html));
const write = (element, text) => element.written === text || Object.assign(element, { innerHTML: text, written: text });
function shape(tag, { title, ...more }, text) {
    const signs = Object.entries(more).map(([name, value]) => ` ${name}="${escaped(value)}"`).join("");
    return { html: `<${tag}${signs}>${title ? `<title>${escaped(title)}</title>` : ""}${escaped(text)}</${tag}>` };
}
class Painter {
    constructor(page, view, journal) { Object.assign(this, { page, view, journal }); }
    paint(lanes, canvas, axis) {
        const { view, journal } = this, isNear = view.steps <= MOST_NEAR, isFar = view.steps > MOST_SHAPES;
        view.arrange();
        this.paintAxis(axis);
        this.begin(canvas, view.width, view.bottom);
        put({ names: this.names(), shapes: isNear && this.shapes() });
        lanes.setAttribute("class", `${this.page.isFollowing ? "following" : ""} ${isNear ? "" : isFar ? "far counted" : "far"}`);
        if (!isNear) this[isFar ? "paintCounts" : "paintShapes"]();
        const edges = ["first", "end", "steps"].map((name) => `--${name}: ${view.x(journal[name] - 0.5)}px`).join("; ");
        [lanes.parentElement.style, byId("early").style, byId("late").style] = [`--bottom: ${view.bottom}px`, edges, edges];
        byId("window").style = `left: ${100 * view.first / (journal.steps || 1)}%; width: ${100 * view.steps / (journal.steps || 1)}%`;
    }
    names() {  // a bar stands where a life begins: of a process that is started again, or of a port that is opened again
        const { view, journal } = this, name = (text, y, dim, more) => shape("text", { x: LEFT - 8, y, class: `name ${dim ? "dim" : ""}`, ...more }, text);
        const within = (x) => Math.max(LEFT, Math.min(view.width, x)), isGone = ({ exited }) => exited !== null && exited < view.first;
        const bar = (place, y, height) => (place > view.first && view.x(place) < view.width ? `M${view.x(place)},${y}v${height}` : "");
        const line = (y, begin, end, more, bars = "") => shape("path", { d: `${bars}M${within(begin)},${y}H${within(end)}`, class: `line ${more}` });
        const life = (y, { begun, exited }) => line(y, view.x(begun ?? -Infinity), view.x(exited ?? Infinity), "", bar(begun, y - 6, 12));
        const lives = (pid) => (pid < journal.procs ? journal.lives[pid] : []), again = (port) => journal.opened[port - 1].slice(1);
        const lanes = [...view.place].flatMap(([pid, { y, height }]) =>
            [...lives(pid).map((one) => life(y, one)), name(height > FOLDED ? journal.nameOf(pid) : "", y, isGone(journal.lives[pid].at(-1)))]);
        return lanes.concat(view.strips().map((port, row) => [port, view.floor(row)]).flatMap(([port, floor]) => [
            name(`port ${port}`, floor - 8, false, { "data-strip": port }), line(floor - FULL, 0, view.width, "full"),
            line(floor, 0, view.width, "", again(port).map(({ place }) => bar(place, floor - FULL, FULL)).join(""))]));
    }
    shapes() {
        const { view } = this, stalls = this.journal.stallsOf(...view.range()), rect = (one, { title } = one) => shape("rect", { ...one, title });
        return [...stalls.flatMap((stall) => this.fields(stall)).map((field) => rect(field)), ...view.levels().map((level) => rect(this.level(level))),
            ...view.arrows().flatMap((to) => this.arrow(to)), ...view.bars().flatMap((call) => [rect(this.bar(call), call), this.knob(call)]),
            ...view.boxes().flatMap((step) => [rect(this.box(step), step), this.label(step)]), ...stalls.flatMap((stall) => this.guesses(stall))];
    }
    signs(step) {  // the signs of a step that its shapes share
        const { place, port, end, shown: { side } } = step, { page } = this;
        return [hueOf(port), side, page.marks.has(place) && "found", place === page.chosen?.place && "chosen", step.isTrouble && "trouble",
            { "": "open", d: "drained" }[end.letter], step.endsBy("xtw") && "cancelled", "mco".includes(step.letter) && "thick"].filter(Boolean).join(" ");
    }
    fields({ place, calls }) {
        const { view } = this, width = Math.max(3, view.dots), places = calls.map((call) => view.place.get(this.journal.step(call)?.lane));
        const x = view.x(place) - width / 2, title = `step ${place + 1} stalls everyone who is left`;
        return places.filter(Boolean).map(({ y, height }) => ({ class: "field", x, y: y - height / 2, width, height, title }));
    }
    level({ row, port, from, until, count }) {
        const { view } = this, x = Math.max(LEFT, view.x(from)), width = Math.max(1, Math.min(view.width, view.x(until)) - x);
        const height = count / this.journal.rooms[port - 1] * FULL, title = `port ${port} holds ${count} of ${this.journal.roomAt(from, port)}`;
        return { class: `level ${hueOf(port)}`, x, y: view.floor(row) - height, width, height, title };
    }
    arrow(to) {
        const { view, page } = this, from = to.sender, [start, end] = [from, to].map((step) => view.place.get(step.lane));
        const side = Math.sign(end.y - start.y), x = view.x(from.end.by), toX = view.x(to.end.by);
        const y = start.y + (side || -1) * start.size / 2, toY = end.y - (side || 1) * end.size / 2, bend = side ? (y + toY) / 2 : y - 14;
        const d = `M${x},${y}C${x},${bend} ${toX},${bend} ${toX},${toY}`, look = `arrow ${hueOf(to.port)} ${page.marks.has(to.place) ? "found" : ""}`;
        return [look, "reach"].map((signs, at) => shape("path", { d, class: signs, "data-link": wayLink(to), title: at > 0 && to.title }));
    }
    bar(call) {
        const { view } = this, { y, size } = view.place.get(call.lane), height = size * 0.45, x = Math.max(LEFT - 2, view.x(call.place));
        const width = Math.max(0, Math.min(view.width + 2, view.x(Math.min(call.end.by, this.journal.steps))) - x);
        return { class: `bar ${this.signs(call)}`, x, y: y - height / 2, width, height, "data-link": stepLink(call.end.letter ? call.end.by : call.place) };
    }
    knob(call) {  // where its end is in view
        const { x, y, width, height, ...more } = this.bar(call), place = { cx: x + width, cy: y + height / 2, r: Math.min(5, height * 0.6) };
        return call.end.by < this.view.range()[1] ? shape("circle", { ...more, ...place, class: more.class.replace("bar", "knob") }) : "";
    }
    box(step) {
        const { view } = this, { y, size } = view.place.get(step.lane), width = view.boxWidth, small = view.dots < 5 ? "small" : "";
        const more = { y: y - size / 2, width, height: size, "data-link": stepLink(step.place) };
        return { class: `box ${this.signs(step)} ${small}`, x: view.x(step.place) - width / 2, ...more };
    }
    label(step) {
        const { view } = this, { y, size } = view.place.get(step.lane), { label, value } = step;
        const text = size > 9 && [`${label}:${readable(value)}`, label].slice(value === null).find((text) => text.length * 6.2 <= view.boxWidth);
        return text ? shape("text", { class: `label ${this.signs(step)}`, x: view.x(step.place), y }, text) : "";
    }
    guesses(stall) {
        const { view } = this, x = view.x(stall.place) + view.boxWidth / 2 + 3;
        const ends = this.journal.casesOf(stall).map(({ step, other }) => [step?.pid, other].map((pid) => view.place.get(pid)));
        const way = (from, to, far = x + (from.y < to.y ? 20 : 40)) => `M${x},${from.y}C${far},${from.y} ${far},${to.y} ${x},${to.y}`;
        return ends.filter(([from, to]) => from && to).map(([from, to]) => shape("path", { class: "guess", d: way(from, to) }));
    }
    begin(canvas, width, height, fine = devicePixelRatio || 1) {
        [canvas.width, canvas.height, canvas.style.height] = [Math.round(width * fine), Math.round(height * fine), height + "px"];
        Object.assign(this, { pen: canvas.getContext("2d"), style: getComputedStyle(canvas), colours: {}, fine });
        Object.assign(this.pen, { font: "11px system-ui, sans-serif" }).scale(fine, fine);
    }
    colour(name) { return this.colours[name] ??= Object.assign(this.pen, { fillStyle: this.style.getPropertyValue("--" + name) }).fillStyle; }
    fill(name, x, y, width, height) { Object.assign(this.pen, { fillStyle: this.colour(name) }).fillRect(x, y, width, height); }
    paintShapes() {
        const { view } = this, shapes = [...view.levels().map((level) => this.level(level)), ...view.bars().map((call) => this.bar(call)),
            ...view.boxes().map((step) => this.box(step)), ...this.journal.stallsOf(...view.range()).flatMap((stall) => this.fields(stall))];
        const colourOf = (signs) => (/trouble|field/.test(signs) ? "trouble" : /h\d|edge/.exec(signs)[0]);
        for (const { class: signs, x, y, width, height } of shapes) this.fill(colourOf(signs), x, y, width, height);
    }
    paintCounts() {  // in columns of dots: waits as a band as high as their share, steps as a thinner one on it, troubles
        const { view, journal } = this, edges = this.beginColumns(LEFT, Math.min(view.width, view.x(journal.steps - 0.5)), view.first, view.dots);
        const bands = [["waited", "h1", 0.8], ["asked", "edge", 1.2], ["troubles", "trouble", Infinity]];
        for (const [name, colour, weight] of bands) for (const [pid, { y, height }] of view.place)
            this.fillColumns(edges, colour, y, journal.shares(journal[name], pid, edges), weight * (height - 2), height - 2);
        for (const [row, port] of view.strips().entries())
            this.fillColumns(edges, hueOf(port), view.floor(row), journal.mosts(port, edges), FULL / journal.rooms[port - 1], FULL, 1);
        this.pen.putImageData(this.image, 0, 0);
    }
    beginColumns(left, right, first, dots) {  // where their edges are, in pixels of the device, and in the journal
        const { pen, fine, journal } = this, { width, height } = pen.canvas, count = Math.ceil(Math.floor(right - left) / COLUMN);
        if (this.image?.width !== width || this.image.height !== height) this.image = pen.createImageData(width, height);
        this.pixels = new Uint32Array(this.image.data.buffer).fill(0);
        const edge = (dot) => ({ x: Math.min(width, Math.round((left + dot) * fine)), ...journal.within(first + dot / dots) });
        return numbers(0, count + 1).map((column) => edge(column * COLUMN));
    }
    fillColumns(edges, colour, y, shares, times, most, above = 0.5) {  // pixel by pixel: rectangles take ten times as long
        const { pixels, fine, image: { width } } = this, pixel = Number(this.colour(colour).replace(/#(..)(..)(..)/, "0xff$3$2$1"));
        for (let column = 0; column < shares.length; column++) {
            const size = Math.min(most, times * shares[column]), rows = size > 0.2 ? Math.max(1, Math.round(size * fine)) : 0, { x } = edges[column];
            const first = Math.round(y * fine - rows * above) * width + x, end = first + rows * width, wide = edges[column + 1].x - x;
            for (let at = first; at < end; at += width) for (let dot = 0; dot < wide; dot++) pixels[at + dot] = pixel;
        }
    }
    paintAxis(canvas) {
        const { view } = this, [, end] = view.range(), least = (26 + 6 * String(end).length) / view.dots;
        const power = 10 ** Math.max(0, Math.floor(Math.log10(least))), every = power * [1, 2, 5, 10].find((times) => times * power >= least);
        this.begin(canvas, view.width, AXIS);
        Object.assign(this.pen, { textAlign: "center", fillStyle: this.colour("dim") }).fillText("step", LEFT - 36, 14);
        for (let step = Math.ceil(Math.max(1, view.first + 0.5) / every) * every; step <= end; step += every) this.pen.fillText(step, view.x(step - 1), 14);
    }
    paintWhole(canvas, found) {  // of few steps each call is counted, since a block is wide there
        const { journal } = this, { stalls } = journal, count = Math.max(1, journal.steps), width = canvas.parentElement.clientWidth;
        const x = (step) => Math.floor(step / scale), scale = count / width, isSummed = count > MOST_SHAPES || journal.told;
        const others = numbers(0, journal.procs).filter((lane) => lane !== journal.clock);
        this.begin(canvas, width, 54);
        const edges = this.beginColumns(0, width, 0, 1 / scale), waiting = isSummed ? others.map((lane) => journal.shares(journal.waited, lane, edges))
            : journal.goingOn(0, journal.steps).filter(({ waits, pid }) => waits && pid !== journal.clock).map((one) => one.shares(edges));
        this.fillColumns(edges, "h1", 48, pairs(edges, (from, to, at) => waiting.reduce((sum, own) => sum + own[at], 0)), 32 / others.length, 32, 1);
        this.pen.putImageData(this.image, 0, 0);
        for (const place of stalls) this.fill("trouble", x(place), 16, Math.max(2, x(1)), 32);
        for (const column of new Set(found.map(x))) this.fill("on", column, 48, 2, 6);
    }
}
