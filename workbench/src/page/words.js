// Changes, answers and refusals in words.

const STAGES = ["", "one", "two", "three"];

const REFUSALS = {
  20: "The schedule has more than 32,768 bytes.",
  21: "The schedule is empty, or its first byte is not 01.",
  22: "The kind byte of a record is 00 or above 0A.",
  23: "A start stands behind the first record.",
  24: "The bytes end inside a record.",
  25: "No world may start so: n is not 1 to 8, or the faulty mask names a server at n or above, or more than f.",
};

// A sending as SENDER.ID.SLOT.
function sendingText(sending) {
  return `${sending.sender}.${sending.id}.${sending.slot}`;
}

// Servers by name: "0, 2 and 3".
function serversText(servers) {
  if (servers.length < 2) return servers.join("") || "none";
  return `${servers.slice(0, -1).join(", ")} and ${servers.at(-1)}`;
}

// How a change looks: new, changed or gone.
function markOf(change) {
  if (!change) return "";
  if (change.box === "numbered") return "changed";
  if (change.was === null) return "new";
  return change.now === null ? "gone" : "changed";
}

// The class of an answer: done, dropped, wait or refused.
function answerClass(answer) {
  return ["done", "dropped", "wait"][answer] ?? "refused";
}

// A change of a packet in words.
function packetChange({ origin, place, was, now }) {
  const packet = now ?? was;
  const what = `${sendingText(packet)} to server ${packet.to}`;
  if (now) return `Server ${origin} sends ${what} (place ${place})`;
  return `Server ${origin}'s packet ${what} leaves place ${place}`;
}

// A change of a hold's entry in words.
function entryChange({ server, place, was, now }) {
  const what = `${sendingText(now ?? was)} at place ${place}`;
  if (!now) return `Server ${server}'s entry ${what} goes (it was at stage ${STAGES[was.stage]})`;
  if (!was) return `Server ${server} holds ${what}, stage ${STAGES[now.stage]}`;
  const number = now.number === was.number ? "" : `, with number ${now.number}`;
  return `Server ${server}'s entry ${what} goes from stage ${STAGES[was.stage]} to ${STAGES[now.stage]}${number}`;
}

// A change of an execution in words.
function executionChange({ sender, was, now }) {
  const key = `${sender}.${now.id}`;
  const given = now.number > 0 && now.number !== (was?.number ?? 0) ? `; it gets number ${now.number}` : "";
  if (!was) return `The orderer opens execution ${key}, proposed by server ${serversText(now.mask)}${given}`;
  const called = now.called.filter((server) => !was.called.includes(server));
  const counted = now.mask.filter((server) => !was.mask.includes(server));
  const how = counted.length > 0 ? "and counts it" : "and does not count it";
  return `The orderer records the call of server ${serversText(called)} for ${key} ${how}${given}`;
}

// A change in words.
function changeText(change) {
  switch (change.box) {
    case "request": return `Client ${change.now.client}'s request ${change.now.number} goes into slot ${change.slot}`;
    case "execution": return executionChange(change);
    case "packet": return packetChange(change);
    case "entry": return entryChange(change);
    case "item": return `Server ${change.server} delivers ${sendingText(change.now)} as its number ${change.index + 1}`;
    default: return `Numbers given: ${change.now}`;
  }
}

// A run's world in words.
function worldText(run) {
  const { n, f, threshold, faulty } = run.world;
  const liars = faulty.length === 0 ? "none of them faulty" : `faulty: ${serversText(faulty)}`;
  const count = (number, word) => `${number.toLocaleString("en")} ${word}${number === 1 ? "" : "s"}`;
  return `${count(n, "server")}, ${liars} · f = ${f}, threshold ${threshold} · ${count(run.steps.length, "step")}` +
    ` · ${count(run.schedule.bytes, "byte")}`;
}
