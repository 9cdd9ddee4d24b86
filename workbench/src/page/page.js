// The page: its runs, its controls, its keys.

const WINDOW = 9;
const LEAP = 10;
const LINK_DELAY = 400;
const SCROLLS = ".boxes, .box";
const ANSWERS = ["refused", "wait", "dropped", "done"];

const byId = (id) => document.getElementById(id);
const sources = [...document.querySelectorAll("script[type='application/json']")];
const runs = sources.map((source) => ({ name: source.dataset.name, run: JSON.parse(source.textContent) }));
const refused = runs.find(({ run }) => run.refused);
const replays = refused ? [] : runs.map(({ name, run }) => new Replay(name, run));
const last = refused ? 0 : replays[0].steps.length;
const views = replays.map(viewOf);
const differing = differences();
let linkTimer = 0;

// Where a run is shown: its step, and its world.
function viewOf(replay) {
  return { replay, step: el("div", { class: "story" }), world: el("div", { class: "boxset" }) };
}

// The steps at which the two runs answer or change something else.
function differences() {
  if (replays.length < 2) return [];
  const key = (step) => JSON.stringify([step.answer, step.changes]);
  const [right, other] = replays.map((replay) => replay.steps.map(key));
  return right.flatMap((text, index) => (text === other[index] ? [] : [index + 1]));
}

// A section for one run: its name above the step, or above the world.
function runSection(view, part, label) {
  const two = replays.length > 1;
  const head = two ? el("h2", { class: "run" }, view.replay.name) : el("h2", { class: "spoken" }, label);
  return el("section", { class: part, "aria-label": two ? `${view.replay.name}: ${label}` : label }, head, view[part]);
}

// The page's fixed parts, once.
function build() {
  byId("last").textContent = last.toLocaleString("en");
  for (const id of ["slider", "at"]) byId(id).max = last;
  if (refused) {
    document.body.classList.add("is-refused");
    byId("world").textContent = `${refused.run.schedule.bytes.toLocaleString("en")} bytes`;
    byId("main").append(drawRefused(refused.name, refused.run));
    return;
  }
  byId("world").textContent = worldText(replays[0].run);
  const list = el("section", { class: "schedule", "aria-label": "Schedule" },
    el("div", { class: "head" }, el("h2", {}, "Schedule"), differText()), el("ol", { id: "list" }));
  for (const view of views) view.step.setAttribute("aria-live", "polite");
  const story = el("div", { class: "stories" }, ...views.map((view) => runSection(view, "step", "Step")), list);
  const worlds = el("div", { class: "worlds" }, ...views.map((view) => runSection(view, "world", "World")));
  byId("main").classList.add(replays.length > 1 ? "two" : "one");
  byId("main").append(story, worlds, legend());
}

// Where the two runs differ first, as a line with a button.
function differText() {
  if (replays.length < 2) return "";
  if (differing.length === 0) return el("p", { class: "differ" }, "the runs do not differ");
  const button = el("button", { type: "button" }, `step ${differing[0]}`);
  button.addEventListener("click", () => show(differing[0]));
  return el("p", { class: "differ" }, "first differ at ", button);
}

// What the marks mean.
function legend() {
  const hidden = (name, text) => el("span", { class: name, "aria-hidden": "true" }, text);
  const mark = (name, text) => el("li", { class: name }, hidden("sign", SIGNS[name]), text);
  const other = el("li", {}, hidden("other", "≠"), "another digest than the orderer's");
  const full = el("li", {}, squares(1, [0], [], "counted"), "counts towards the threshold");
  const open = el("li", {}, squares(1, [], [0], "called"), "called only");
  const differs = replays.length > 1 ? el("li", {}, el("span", { class: "swatch" }), "the two runs differ here") : "";
  return el("ul", { class: "legend", "aria-label": "Marks" }, mark("new", "new in this step"),
    mark("changed", "changed"), mark("gone", "gone"), other, full, open, differs);
}

// Shows the world behind a step.
function show(step) {
  const at = Math.min(Math.max(Math.trunc(step) || 0, 0), last);
  for (const view of views) drawView(view, at);
  compareViews();
  drawList(at);
  for (const id of ["slider", "at"]) byId(id).value = at;
  byId("slider").setAttribute("aria-valuetext", `step ${at} of ${last}`);
  for (const [id, off] of [["first", at === 0], ["back", at === 0], ["on", at === last], ["end", at === last]]) {
    byId(id).disabled = off;
  }
  byId("mark").style.left = `${(100 * Math.max(0, at - 0.5)) / Math.max(1, last)}%`;
  document.body.dataset.step = at;
  clearTimeout(linkTimer);
  linkTimer = setTimeout(writeLink, LINK_DELAY);
}

// Draws one run behind a step.
function drawView(view, at) {
  view.replay.go(at);
  const changes = view.replay.changes();
  view.step.replaceChildren(...drawStep(view.replay));
  const tables = el("div", { class: "tables" }, drawOrderer(view.replay, changes), drawRequests(view.replay, changes),
    drawVerdict(view.replay));
  become(view.world, el("div", { class: "boxset" }, drawServers(view.replay, changes), tables));
  const boxes = [...view.world.querySelectorAll(SCROLLS)];
  const long = boxes.filter((box) => box.scrollHeight > box.clientHeight);
  for (const box of long) box.tabIndex = 0;
  for (const mark of view.world.querySelectorAll(".new, .changed, .gone")) uncover(mark);
}

// Scrolls a mark's own box so that the mark can be seen; the page itself stays.
function uncover(mark) {
  const box = mark.closest(SCROLLS);
  if (!box || box.tabIndex < 0) return;
  const [inner, outer] = [mark.getBoundingClientRect(), box.getBoundingClientRect()];
  if (inner.bottom > outer.bottom || inner.top < outer.top) box.scrollTop += inner.top - outer.top - outer.height / 2;
}

// Gives a server's rows in both runs one height, so that the eye finds them side by side.
function alignRows() {
  const rows = views.map((view) => [...view.world.querySelectorAll(".servers tbody tr")]);
  const heights = rows[0].map((row, index) => Math.max(row.offsetHeight, rows[1][index].offsetHeight));
  for (const list of rows) list.forEach((row, index) => { row.style.height = `${heights[index]}px`; });
}

// Marks what differs between the two runs' worlds.
function compareViews() {
  if (views.length < 2) return;
  alignRows();
  const keyed = views.map((view) => [...view.world.querySelectorAll(".servers [data-key]")]);
  keyed[0].forEach((mine, index) => {
    const other = keyed[1][index];
    if (mine.dataset.key !== other.dataset.key) for (const one of [mine, other]) one.classList.add("differs");
  });
  const rows = views.map((view) => new Map([...view.world.querySelectorAll("[data-execution]")].map(rowKey)));
  for (const [mine, theirs] of [rows, [rows[1], rows[0]]]) {
    for (const [name, row] of mine) row.classList.toggle("differs", theirs.get(name)?.dataset.key !== row.dataset.key);
  }
}

// An execution's row by its name.
function rowKey(row) {
  return [row.dataset.execution, row];
}

// The steps around the one shown.
function drawList(at) {
  if (refused) return;
  const from = Math.max(1, Math.min(at - (WINDOW >> 1), last - WINDOW + 1));
  const count = Math.min(WINDOW, last);
  const rows = Array.from({ length: count }, (_, index) => listRow(from + index, at));
  byId("list").replaceChildren(...rows);
}

// One step in the list: its number, its text, its answers.
function listRow(number, at) {
  const step = replays[0].steps[number - 1];
  const answers = replays.map((replay) => replay.steps[number - 1]).map(({ answer, name }) =>
    el("span", { class: `answer ${answerClass(answer)}`, title: `${answer} ${name}` }, String(answer)));
  const button = el("button", { type: "button", title: step.text, "aria-current": number === at ? "step" : undefined },
    el("span", { class: "nr" }, String(number)), el("span", { class: "short" }, step.text), ...answers);
  button.addEventListener("click", () => show(number));
  return el("li", { class: differing.includes(number) ? "differs" : "" }, button);
}

// The strip of answers under the slider: one line a run, each step at its own part of the width.
function drawStrip() {
  const canvas = byId("strip");
  const scale = window.devicePixelRatio || 1;
  canvas.width = canvas.clientWidth * scale;
  canvas.height = canvas.clientHeight * scale;
  const room = canvas.height / Math.max(1, replays.length);
  const high = replays.length > 1 ? room - scale : room;
  replays.forEach((replay, line) => drawLine(canvas, tallies(replay, canvas.width), line * room, high, scale));
}

// One run's line of the strip; where many steps share a column, each kind of answer has its share of the height.
function drawLine(canvas, columns, top, high, scale) {
  const swatch = (name) => getComputedStyle(document.querySelector(`.key .${name}`), "::before").backgroundColor;
  const colours = ANSWERS.map(swatch);
  const context = canvas.getContext("2d");
  const edge = (column) => Math.floor((column * canvas.width) / columns.length);
  columns.forEach((counts, column) => {
    const wide = edge(column + 1) - edge(column);
    const all = counts.reduce((sum, count) => sum + count, 0);
    let from = top;
    counts.forEach((count, kind) => {
      context.fillStyle = colours[kind];
      context.fillRect(edge(column), from, wide > 3 * scale ? wide - scale : wide, (high * count) / all);
      from += (high * count) / all;
    });
  });
}

// How many answers of each kind the steps in each of at most so many columns have.
function tallies(replay, most) {
  const count = Math.min(last, Math.max(1, Math.floor(most)));
  const columns = Array.from({ length: count }, () => ANSWERS.map(() => 0));
  for (const { step, answer } of replay.steps) {
    columns[Math.floor(((step - 1) * count) / last)][ANSWERS.indexOf(answerClass(answer))] += 1;
  }
  return columns;
}

// The next step, on or back, of which something is true; else the one shown.
function seek(way, test) {
  const at = Number(document.body.dataset.step);
  for (let step = at + way; step >= 1 && step <= last; step += way) if (test(step)) return step;
  return at;
}

// Whether some run's answer to a step is not DONE.
function isNotDone(step) {
  return replays.some((replay) => replay.steps[step - 1].answer !== 0);
}

// Dark where it was light, and back.
function toggleTheme() {
  const isDark = (document.documentElement.dataset.theme ?? systemTheme()) === "dark";
  document.documentElement.dataset.theme = isDark ? "light" : "dark";
  drawStrip();
  writeLink();
}

// The theme that the system asks for.
function systemTheme() {
  return window.matchMedia("(prefers-color-scheme: dark)").matches ? "dark" : "light";
}

// What the page's address says behind the #: step, and theme where it was chosen.
function readLink() {
  const link = new URLSearchParams(window.location.hash.slice(1));
  const theme = link.get("theme");
  if (theme === "dark" || theme === "light") document.documentElement.dataset.theme = theme;
  show(Number(link.get("step") ?? 0));
  drawStrip();
}

// Writes the step shown, and a chosen theme, into the page's address.
function writeLink() {
  const { theme } = document.documentElement.dataset;
  const link = `#step=${document.body.dataset.step}${theme ? `&theme=${theme}` : ""}`;
  if (window.location.hash !== link) window.history.replaceState(null, "", link);
}

// What a key does, or nothing.
function keyAction(event) {
  const at = Number(document.body.dataset.step);
  const leap = event.shiftKey ? LEAP : 1;
  return {
    ArrowRight: () => show(at + leap),
    ArrowLeft: () => show(at - leap),
    Home: () => show(0),
    End: () => show(last),
    n: () => show(seek(1, isNotDone)),
    p: () => show(seek(-1, isNotDone)),
    d: () => show(differing.find((step) => step > at) ?? at),
    t: toggleTheme,
    "?": () => byId("words").showModal(),
  }[event.key];
}

// Takes a key, unless it is meant for a field or for the browser.
function onKey(event) {
  const isField = event.target instanceof HTMLInputElement && event.target.type === "number";
  if (isField || event.ctrlKey || event.altKey || event.metaKey || byId("words").open) return;
  const action = keyAction(event);
  if (!action) return;
  event.preventDefault();
  action();
}

// Ties the controls to what they do.
function listen() {
  const at = () => Number(document.body.dataset.step);
  byId("first").addEventListener("click", () => show(0));
  byId("back").addEventListener("click", () => show(at() - 1));
  byId("on").addEventListener("click", () => show(at() + 1));
  byId("end").addEventListener("click", () => show(last));
  byId("slider").addEventListener("input", (event) => show(event.target.valueAsNumber));
  byId("at").addEventListener("change", (event) => show(event.target.valueAsNumber));
  byId("strip").addEventListener("click", (event) =>
    show(Math.ceil((event.offsetX / byId("strip").clientWidth) * last)));
  byId("theme").addEventListener("click", toggleTheme);
  byId("help").addEventListener("click", () => byId("words").showModal());
  document.addEventListener("keydown", onKey);
  window.addEventListener("hashchange", readLink);
  window.addEventListener("resize", drawStrip);
}

build();
listen();
readLink();
