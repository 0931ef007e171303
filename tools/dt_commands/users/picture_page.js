// Zooms and moves the picture of the page that it is in.
const picture = document.querySelector('figure > svg'), plot = picture.querySelector('.plot'), ticks = picture.querySelector('.ticks');
const [from, to] = [Number(picture.dataset.start), Number(picture.dataset.end)], box = plot.viewBox.baseVal;
const [left, wide, height, margin] = [Number(picture.dataset.left), box.width, box.height, -box.x], across = wide - 2 * margin;
const y = Number(ticks.dataset.y), marks = [...plot.querySelectorAll('[data-zoom]')], patterns = [...picture.querySelectorAll('pattern')];
let zoom = 1, start = 0, waits = false;
function tick(text, x) {
    const line = document.createElementNS(picture.namespaceURI, 'line'), words = document.createElementNS(picture.namespaceURI, 'text');
    for (const [key, value] of Object.entries({x1: x, x2: x, y1: y, y2: y + 4, stroke: '#6b7280'})) line.setAttribute(key, value);
    for (const [key, value] of Object.entries({x: x, y: y + 16, class: 'm s'})) words.setAttribute(key, value);
    words.textContent = text;
    ticks.append(line, words);
}
function draw() {
    waits = false;
    box.x = start - margin / zoom;
    box.width = wide / zoom;
    picture.style.setProperty('--narrow', 1 / zoom);
    for (const it of marks) it.setAttribute('visibility', Number(it.dataset.zoom) <= zoom ? 'inherit' : 'hidden');
    for (const it of patterns) it.setAttribute('patternTransform', `scale(${1 / zoom} 1) ${it.dataset.turned}`);
    while (ticks.children.length > 1) ticks.lastChild.remove();
    const each = Math.max(1, (to - from) / zoom / 12), power = 10 ** Math.floor(Math.log10(each));
    const step = [1, 2, 5, 10].map(it => it * power).find(it => it >= each);
    const first = from + start / across * (to - from), last = first + (to - from) / zoom;
    for (let at = Math.ceil(first / step) * step; at <= last + step / 1e6; at += step)
        tick(Math.round(at).toLocaleString('en'), left + (at - first) / (to - from) * across * zoom);
    if (turns) drawTurns(first, last);
}
function show(nextZoom, nextStart) {
    zoom = Math.min(Math.max(nextZoom, 1), 16384);
    start = Math.min(Math.max(nextStart, 0), across * (1 - 1 / zoom));
    if (!waits) requestAnimationFrame(draw);
    waits = true;
}
function place(event) {
    const seen = picture.getBoundingClientRect();
    return start + ((event.clientX - seen.left) * picture.viewBox.baseVal.width / seen.width - left) / zoom;
}
function nearer(factor, at) { show(zoom * factor, at - (at - start) / Math.min(factor, 16384 / zoom)); }
const middle = () => start + across / zoom / 2;
const moves = {'+': () => nearer(2, middle()), '=': () => nearer(2, middle()), '-': () => nearer(.5, middle()), '0': () => show(1, 0),
    ArrowLeft: () => show(zoom, start - across / zoom / 4), ArrowRight: () => show(zoom, start + across / zoom / 4)};
document.addEventListener('keydown', event => {
    if (moves[event.key] && !event.ctrlKey && !event.metaKey && !event.altKey) { moves[event.key](); event.preventDefault(); }
});
for (const it of document.querySelectorAll('.zoom button')) it.onclick = moves[it.dataset.key];
plot.addEventListener('wheel', event => {
    if (event.ctrlKey || event.shiftKey) { nearer((event.deltaY || event.deltaX) < 0 ? 1.25 : .8, place(event)); event.preventDefault(); }
}, {passive: false});
plot.addEventListener('dblclick', event => nearer(event.shiftKey ? .5 : 2, place(event)));
plot.addEventListener('pointerdown', event => {
    const [x, first, factor] = [event.clientX, start, picture.viewBox.baseVal.width / picture.getBoundingClientRect().width];
    const move = event => show(zoom, first - (event.clientX - x) * factor / zoom);
    addEventListener('pointermove', move);
    addEventListener('pointerup', () => removeEventListener('pointermove', move), {once: true});
    event.preventDefault();
});
function range() {
    const told = /^#(\d+)-(\d+)$/.exec(location.hash);
    if (told && Number(told[2]) > Number(told[1]))
        show((to - from) / (told[2] - told[1]), (told[1] - from) / (to - from) * across);
}
// A long run's turns: chunks of them, drawn above the columns if few enough are seen.
const told = document.getElementById('turns'), turns = told && JSON.parse(told.textContent), unpacked = new Map();
const above = document.createElementNS(picture.namespaceURI, 'g');
let drawing = 0;
plot.append(above);
async function unpack(at) {
    const packed = Uint8Array.from(atob(turns.chunks[at]), it => it.charCodeAt(0));
    return JSON.parse(await new Response(new Blob([packed]).stream().pipeThrough(new DecompressionStream('deflate'))).text());
}
function chunk(at) {
    if (unpacked.size > 32) unpacked.clear();
    if (!unpacked.has(at)) unpacked.set(at, unpack(at));
    return unpacked.get(at);
}
const escaped = text => text.replace(/[&<>]/g, it => `&#${it.charCodeAt(0)};`);
const counted = number => `${number.toLocaleString('en')} instruction${number === 1 ? '' : 's'}`;
function sliceOf([kind, row, start, end, turn, name]) {
    const what = turns.kinds[kind], thread = turns.threads[row], runs = what === 'segment' || what === 'keeper';
    const does = runs ? 'executes' : {token: 'waits for the token', phase: "waits for the phase's other turns"}[what] || `waits: ${name}`;
    const said = `thread ${thread} ${does}${what === 'keeper' ? ', keeping the token' : ''}\n${counted(end - start)} from ${start.toLocaleString('en')} on`;
    const fill = runs ? turns.colours[what] : `url(#${what})`, scale = across / (to - from);
    const box = `x="${(start - from) * scale}" y="${turns.rows[row]}" width="${(end - start) * scale}" height="${turns.bar}"`;
    return end > start ? `<rect ${box} fill="${fill}" data-turn="${turn}"><title>turn ${turn}: ${escaped(said)}</title></rect>` : '';
}
function markOf([number, row, time, name, text]) {
    const place = (time - from) * across / (to - from), y = turns.rows[row];
    const line = `<line y1="${y - 3}" y2="${y + turns.bar + 2}" stroke="#111827" stroke-width="1.4"/>`;
    const said = `turn ${number}: thread ${turns.threads[row]} at ${time.toLocaleString('en')}\n${text}`;
    return `<g transform="translate(${place})" data-turn="${number}"><title>${escaped(said)}</title><g class="u">${line}</g></g>`;
}
function* grouped(numbers, each, texts, first) {
    for (let at = 0; at < numbers.length; at += each)
        yield numbers.slice(at, at + each).map((it, place) => place < first ? it : texts[it]);
}
function seen(first, last) {
    const found = [];
    for (let at = 0; at < turns.starts.length; at++)
        if (turns.starts[at] <= last && (at + 1 === turns.starts.length || turns.starts[at + 1] >= first)) found.push(at);
    return found;
}
function elements(parts, first, last) {
    const slices = new Map(), marks = [];
    for (const part of parts) {
        for (const it of grouped(part.slices, 6, part.texts, 5)) if (it[2] <= last && it[3] >= first) slices.set(it.slice(0, 5).join(), it);
        for (const it of grouped(part.turns, 5, part.texts, 3)) if (it[2] <= last && it[2] >= first) marks.push(it);
    }
    return [...slices.values()].map(sliceOf).join('') + marks.map(markOf).join('');
}
async function drawTurns(first, last) {
    const mine = ++drawing, places = seen(first, last), count = places.reduce((sum, it) => sum + turns.counts[it], 0);
    // (of the chunks at both ends a part is seen)
    const whole = Math.max(1, turns.starts[places[places.length - 1] + 1] || to) - turns.starts[places[0]];
    const few = count * Math.min(1, (last - first) / Math.max(1, whole)) <= turns.most && places.length <= 8;
    const parts = few ? await Promise.all(places.map(chunk)) : [];
    if (mine !== drawing) return;
    const ground = `<rect x="0" y="${turns.rows[0] - 3}" width="${across}" height="${turns.rows[turns.rows.length - 1] + turns.bar + 3 - turns.rows[0]}" fill="#fff"/>`;
    above.innerHTML = few ? ground + elements(parts, first, last) : '';
}
// A click on a turn shows the command that goes there.
const command = document.querySelector('.command');
plot.addEventListener('click', event => {
    const it = event.target.closest('[data-turn]');
    if (!it || !command) return;
    const words = `${command.dataset.words} --turn ${it.dataset.turn}`;
    command.hidden = false;
    command.querySelector('code').textContent = words;
    command.querySelector('button').onclick = () => navigator.clipboard && navigator.clipboard.writeText(words);
});
document.body.classList.add('scripted');
addEventListener('hashchange', range);
range();
