// The world at a step, rebuilt from the changes of the steps: every world starts empty, a step's "now" leads on and
// its "was" leads back.

// The places of one list, all empty, one list for each server.
function lists(n) {
  return Array.from({ length: n }, () => []);
}

// A world before its first step.
function emptyWorld(n) {
  return {
    numbered: 0, requests: [], executions: lists(n), outgoing: lists(n), holds: lists(n), delivered: lists(n),
  };
}

// Where a change's box lies in a world: its list, and its place there.
function boxOf(world, change) {
  switch (change.box) {
    case "request": return [world.requests, change.slot];
    case "execution": return [world.executions[change.sender], change.place];
    case "packet": return [world.outgoing[change.origin], change.place];
    case "entry": return [world.holds[change.server], change.place];
    case "item": return [world.delivered[change.server], change.index];
    case "numbered": return [world, "numbered"];
    default: throw new Error(`a change of an unknown box: ${change.box}`);
  }
}

// Puts a value into a change's box; what is null there is not there.
function put(world, change, value) {
  const [list, place] = boxOf(world, change);
  list[place] = value;
}

// What lies in a list, with its place, the lowest place first.
function used(list) {
  return list.map((value, place) => ({ place, ...value, there: Boolean(value) })).filter((box) => box.there);
}

// A run that can be looked at behind any of its steps.
class Replay {
  // A run under a name, before its first step.
  constructor(name, run) {
    this.name = name;
    this.run = run;
    this.steps = run.steps;
    this.world = emptyWorld(run.world.n);
    this.at = 0;
  }

  // Goes to the world behind a step; step 0 is the world before the first.
  go(step) {
    while (this.at < step) {
      for (const change of this.steps[this.at].changes) put(this.world, change, change.now);
      this.at += 1;
    }
    while (this.at > step) {
      this.at -= 1;
      for (const change of [...this.steps[this.at].changes].reverse()) put(this.world, change, change.was);
    }
  }

  // The step that led here, or none before the first.
  step() {
    return this.steps[this.at - 1];
  }

  // What the step that led here changed, by the name of the box.
  changes() {
    const changes = this.at === 0 ? [] : this.step().changes;
    return new Map(changes.map((change) => [nameOf(change), change]));
  }

  // Whether a server may lie.
  isFaulty(server) {
    return this.run.world.faulty.includes(server);
  }

  // The orderer's execution of a sender and id, or none.
  execution(sender, id) {
    return this.world.executions[sender].find((execution) => execution?.id === id);
  }

  // The slot of the stored request that has a digest, or -1.
  slotOf(digest) {
    return this.world.requests.findIndex((request) => request?.digest === digest);
  }

  // Whether the orderer keeps another digest for a sending than its request has.
  isOther(sending) {
    const execution = this.execution(sending.sender, sending.id);
    const request = this.world.requests[sending.slot];
    return Boolean(execution && request) && execution.digest !== request.digest;
  }
}

// The name of a change's box, the same wherever the box is drawn.
function nameOf(change) {
  const { box, slot, sender, origin, server, place, index } = change;
  return [box, slot ?? sender ?? origin ?? server ?? "", place ?? index ?? ""].join("/");
}
