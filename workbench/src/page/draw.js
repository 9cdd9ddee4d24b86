// A run's world as elements of the page.

const SIGNS = { new: "+", changed: "~", gone: "−" };
const LINES_SHOWN = 12;
const HEX_SHOWN = 6;
const BYTES_AROUND = 32;

// An element with attributes and children; a text is a child too.
function el(name, attributes, ...children) {
  const element = document.createElement(name);
  for (const [key, value] of Object.entries(attributes)) {
    if (value !== undefined && value !== "") element.setAttribute(key, value);
  }
  element.append(...children.filter((child) => child !== undefined && child !== ""));
  return element;
}

// Makes an element as another one is, and leaves alone what is so already: a step changes little of a large world.
function become(old, fresh) {
  if (old.isEqualNode(fresh)) return;
  if (old.nodeName !== fresh.nodeName || hasText(old) || hasText(fresh)) {
    old.replaceWith(fresh);
    return;
  }
  for (const name of old.getAttributeNames()) if (!fresh.hasAttribute(name)) old.removeAttribute(name);
  for (const name of fresh.getAttributeNames()) old.setAttribute(name, fresh.getAttribute(name));
  const [mine, theirs] = [[...old.children], [...fresh.children]];
  mine.slice(theirs.length).forEach((child) => child.remove());
  theirs.forEach((child, index) => (mine[index] ? become(mine[index], child) : old.append(child)));
}

// Whether an element has a text of its own.
function hasText(element) {
  return [...element.childNodes].some((node) => node.nodeType === Node.TEXT_NODE);
}

// The sign of a mark, and its word for who does not see it.
function sign(mark) {
  if (!mark) return [];
  const seen = el("span", { class: "sign", "aria-hidden": "true" }, SIGNS[mark]);
  return [seen, el("span", { class: "spoken" }, `${mark} `)];
}

// The sign of a sending whose request is not the one the orderer keeps.
function otherSign(replay, sending) {
  if (!replay.isOther(sending)) return "";
  const title = `not the digest that the orderer keeps for ${sending.sender}.${sending.id}`;
  return el("span", { class: "other", title, role: "img", "aria-label": title }, "≠");
}

// One box of a server: its place, its sending and what belongs to it.
function chip(replay, box, mark, tail) {
  const place = el("span", { class: "place", title: `place ${box.place}` }, String(box.place));
  const what = el("span", { class: "what" }, sendingText(box));
  const more = tail ? el("span", { class: "tail" }, tail) : "";
  return el("li", { class: `chip ${mark}` }, ...sign(mark), place, what, more, otherSign(replay, box));
}

// A cell of the servers' table: its boxes, and a key by which two runs are compared.
function cell(replay, boxes, tail) {
  const key = boxes.filter((box) => box.mark !== "gone").map((box) => `${box.place}:${sendingText(box)}${tail(box)}`);
  const list = el("ul", {}, ...boxes.map((box) => chip(replay, box, box.mark, tail(box))));
  return el("td", { "data-key": `boxes ${key.join(" ")}` }, el("div", { class: "boxes" }, list));
}

// The boxes of a list with their marks; what the step took away is still shown, as gone.
function marked(list, box, server, changes) {
  const shown = used(list).map((value) => ({ ...value, mark: markOf(changes.get(`${box}/${server}/${value.place}`)) }));
  return [...shown, ...goneFrom(box, server, changes)].sort((a, b) => a.place - b.place);
}

// What the step took from a server's list.
function goneFrom(box, server, changes) {
  const gone = [...changes.values()].filter((change) => change.box === box && change.now === null);
  const here = gone.filter((change) => (change.server ?? change.origin) === server);
  return here.map((change) => ({ ...change.was, place: change.place, mark: "gone" }));
}

// The entries of a server's hold at one stage; an entry that left the stage is shown as gone from it.
function entriesAt(stage, server, replay, changes) {
  const entries = marked(replay.world.holds[server], "entry", server, changes);
  const left = [...changes.values()].filter((change) => change.box === "entry" && change.server === server);
  const raised = left.filter((change) => change.now && change.was && change.was.stage !== change.now.stage);
  const ghosts = raised.map((change) => ({ ...change.was, place: change.place, mark: "gone" }));
  return [...entries, ...ghosts].filter((entry) => entry.stage === stage).sort((a, b) => a.place - b.place);
}

// A server's delivered items, each by its number.
function items(server, replay, changes) {
  const markAt = (index) => markOf(changes.get(`item/${server}/${index}`));
  const delivered = used(replay.world.delivered[server]);
  return delivered.map((item) => ({ ...item, mark: markAt(item.place), place: item.place + 1 }));
}

// A server's row.
function serverRow(server, replay, changes) {
  const side = replay.isFaulty(server) ? "faulty" : "correct";
  const next = used(replay.world.delivered[server]).length + 1;
  const awaits = el("span", { class: "next", title: `the number it delivers next is ${next}` }, `next #${next}`);
  const under = side === "faulty" ? el("span", { class: "side" }, side) : awaits;
  const head = el("th", { scope: "row" }, el("span", { class: "server" }, `Server ${server}`), under);
  const packets = marked(replay.world.outgoing[server], "packet", server, changes);
  const stages = [1, 2, 3].map((stage) => cell(replay, entriesAt(stage, server, replay, changes), numberTail));
  return el("tr", { class: side, "data-server": server }, head, cell(replay, packets, (packet) => `→ ${packet.to}`),
    ...stages, cell(replay, items(server, replay, changes), () => ""));
}

// An entry's number, where it has one.
function numberTail(entry) {
  return entry.number > 0 ? `#${entry.number}` : "";
}

// The servers' table: what each sends, holds and has delivered.
function drawServers(replay, changes) {
  const columns = [["Outgoing", "under way"], ["Stage one", "arrived"], ["Stage two", "awaits its number"],
    ["Stage three", "awaits its turn"], ["Delivered", "by number"]];
  const head = columns.map(([name, hint]) => el("th", { scope: "col" }, name, el("span", { class: "hint" }, hint)));
  const rows = replay.world.holds.map((_, server) => serverRow(server, replay, changes));
  return el("div", { class: "servers" }, el("table", {}, el("caption", {}, "Servers"),
    el("thead", {}, el("tr", {}, el("td", {}), ...head)), el("tbody", {}, ...rows)));
}

// A row of small squares, one a server: full where it counts, open where it only called.
function squares(n, full, open, title) {
  const state = (server) => (full.includes(server) ? "full" : open.includes(server) ? "open" : "none");
  const square = (_, server) => el("span", { class: state(server), "aria-hidden": "true" }, String(server));
  const label = el("span", { class: "spoken" }, title);
  return el("span", { class: "squares", title }, ...Array.from({ length: n }, square), label);
}

// A digest, shortened.
function digestText(digest) {
  return el("code", { title: digest }, `${digest.slice(0, HEX_SHOWN)}…`);
}

// One execution's row in the orderer's table.
function executionRow(sender, execution, replay, changes) {
  const { id, digest, called, mask, number, place } = execution;
  const mark = markOf(changes.get(`execution/${sender}/${place}`));
  const slot = replay.slotOf(digest);
  const whose = slot < 0 ? "no stored request" : `slot ${slot}`;
  const calls = `called: ${serversText(called)}; counted: ${serversText(mask)}`;
  const key = [id, number, called, mask, digest].join("/");
  return el("tr", { class: mark, "data-key": key, "data-execution": `${sender}.${id}` },
    el("th", { scope: "row" }, ...sign(mark), `${sender}.${id}`),
    el("td", {}, squares(replay.run.world.n, mask, called, calls)),
    el("td", { class: "number" }, number > 0 ? String(number) : "–"),
    el("td", {}, el("span", { class: "whose" }, whose), " ", digestText(digest)));
}

// The orderer's table of executions.
function drawOrderer(replay, changes) {
  const row = (sender) => (execution) => executionRow(sender, execution, replay, changes);
  const rows = replay.world.executions.flatMap((list, sender) => used(list).map(row(sender)));
  const given = `numbers given: ${replay.world.numbered}`;
  const title = ["Orderer", el("span", { class: "given" }, given)];
  return tableBox("orderer", title, ["Execution", "Called", "No.", "Digest of"], rows, "no execution yet");
}

// A request's command: as text where it is one, else as hex.
function commandText(command) {
  const bytes = command.match(/../g).map((pair) => parseInt(pair, 16));
  const isText = bytes.every((byte) => byte >= 0x20 && byte < 0x7f);
  const short = command.replace(/(00)+$/, "…");
  return el("code", { title: command }, isText ? String.fromCharCode(...bytes) : short);
}

// One stored request's row.
function requestRow(request, replay, changes) {
  const mark = markOf(changes.get(`request/${request.place}/`));
  const seals = `seal good at: ${serversText(request.seals)}`;
  return el("tr", { class: mark, "data-key": request.digest, "data-slot": request.place },
    el("th", { scope: "row" }, ...sign(mark), String(request.place)),
    el("td", {}, `${request.client} / ${request.number}`),
    el("td", {}, squares(replay.run.world.n, request.seals, [], seals)),
    el("td", { class: "command" }, commandText(request.command)),
    el("td", {}, digestText(request.digest)));
}

// The stored requests.
function drawRequests(replay, changes) {
  const columns = ["Slot", "Client / no.", "Good seals", "Command", "Digest"];
  const rows = used(replay.world.requests).map((request) => requestRow(request, replay, changes));
  return tableBox("requests", ["Requests"], columns, rows, "no request yet");
}

// A table in a box that scrolls by itself where it is long.
function tableBox(name, title, columns, rows, empty) {
  const head = columns.map((column) => el("th", { scope: "col" }, column));
  const nothing = el("tr", { class: "empty" }, el("td", { colspan: columns.length }, empty));
  return el("div", { class: `box ${name}` }, el("table", {}, el("caption", {}, ...title),
    el("thead", {}, el("tr", {}, ...head)), el("tbody", {}, ...(rows.length > 0 ? rows : [nothing]))));
}

// The step that led here: what it was, its answer and why, and what it changed.
function drawStep(replay) {
  const step = replay.step();
  if (!step) return [el("p", { class: "text" }, "Before the first step"), el("p", {}, "Every box is empty.")];
  const answer = el("span", { class: `answer ${answerClass(step.answer)}` }, `${step.answer} ${step.name}`);
  const line = (change) => el("li", { class: markOf(change) }, ...sign(markOf(change)), changeText(change));
  const nothing = el("li", { class: "nothing" }, "Nothing changed.");
  const changes = step.changes.length > 0 ? step.changes.map(line) : [nothing];
  const state = step.quiet ? "The world is quiet." : "The world is not quiet: something is still due.";
  return [el("p", { class: "text" }, el("span", { class: "nr" }, `Step ${step.step}`), step.text),
    el("p", { class: "why" }, answer, el("span", { class: "reason" }, step.why)),
    el("ul", { class: "changes" }, ...changes), el("p", { class: "state" }, state)];
}

// How the whole run ended.
function drawVerdict(replay) {
  const { quiet, open, waiting, agreement, behind, numbered } = replay.run.verdict;
  const facts = [quiet ? "quiet" : "not quiet", `numbers given: ${numbered}`];
  if (behind.length > 0) facts.push(`behind: server ${serversText(behind)}`);
  return el("div", { class: "box verdict" }, el("h3", {}, "At the end of the run"), el("p", {}, agreement),
    el("p", { class: "facts" }, facts.join(" · ")), ...lines("Still due", open),
    ...lines("Held, and not due", waiting));
}

// Some lines under a title, the first of them where there are many; nothing where there are none.
function lines(title, texts) {
  if (texts.length === 0) return [];
  const shown = texts.slice(0, LINES_SHOWN).map((text) => el("li", {}, text));
  if (texts.length > LINES_SHOWN) shown.push(el("li", {}, `and ${texts.length - LINES_SHOWN} more`));
  return [el("h4", {}, title), el("ul", {}, ...shown)];
}

// A refused schedule: why, and the bytes around the place.
function drawRefused(name, run) {
  const { number, offset } = run.refused;
  const bytes = run.schedule.hex.match(/../g) ?? [];
  const from = Math.max(0, offset - BYTES_AROUND);
  const byte = (text, index) => el("span", from + index === offset ? { class: "refused" } : {}, text);
  const shown = bytes.slice(from, offset + BYTES_AROUND).map(byte);
  return el("section", { class: "refusal", "aria-label": name }, el("h2", {}, "This schedule is refused"),
    el("p", {}, el("span", { class: "answer refused" }, `${number} ${run.refused.name}`), ` at byte ${offset}`),
    el("p", {}, REFUSALS[number] ?? ""), el("p", {}, "Nothing ran and nothing was written."),
    el("p", { class: "bytes" }, from > 0 ? "… " : "", ...shown));
}
