// What a page shows, read off its elements: one value for each run on it.
const text = (element) => (element ? element.textContent : "");
const all = (from, selector) => [...from.querySelectorAll(selector)];

// The words of a chip that are there to be seen: place, sending, and what belongs to it.
function chip(element) {
  return [".place", ".what", ".tail"].map((part) => text(element.querySelector(part))).filter((part) => part).join(" ");
}

// The servers of a row of squares that are of some kinds.
function squares(row, kinds) {
  const found = all(row, ".squares > [aria-hidden]").filter((one) => kinds.includes(one.className));
  return found.map((one) => Number(one.textContent));
}

// A table row of an execution.
function execution(row) {
  return {
    key: row.dataset.execution, called: squares(row, ["full", "open"]), mask: squares(row, ["full"]),
    number: text(row.querySelector(".number")), digest: row.querySelector("code").title,
  };
}

// A table row of a request.
function request(row) {
  const [command, digest] = all(row, "code").map((code) => code.title);
  return { slot: row.dataset.slot, client: text(row.cells[1]), seals: squares(row, ["full"]), command, digest };
}

// One run: its world, its step and its marks.
function read(world, step) {
  const rows = all(world, ".servers tbody tr");
  const part = (selector) => text(step.querySelector(selector));
  const count = (mark) => all(world, `.chip.${mark}, tr.${mark}`).length;
  return {
    world: {
      servers: rows.map((row) => all(row, "td").map((cell) => all(cell, ".chip:not(.gone)").map(chip))),
      executions: all(world, "[data-execution]").map(execution),
      requests: all(world, "[data-slot]").map(request),
      given: text(world.querySelector(".given")),
    },
    step: { answer: part(".answer"), why: part(".reason"), text: part(".text") },
    marks: { new: count("new"), changed: count("changed"), gone: count("gone") },
  };
}

const steps = all(document, ".story");
const runs = all(document, ".boxset").map((world, index) => read(world, steps[index]));
return { at: Number(document.body.dataset.step), runs };
