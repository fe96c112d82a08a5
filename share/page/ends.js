// Ends: the trees of states in which no process is live. Trees are the same if their names, kinds and bytes are.

let ends = [], endOf = new Map(), endSets;

// Sets of numbers for states, where the set of a state has those of each state after it.
class Sets {
  constructor(count) {
    this.width = Math.max(count + 31 >> 5, 1);
    this.bits = new Uint32Array(this.width * rows.length);
  }

  add(state, number) { this.bits[state * this.width + (number >> 5)] |= 1 << (number & 31); }
  has(state, number) { return (this.bits[state * this.width + (number >> 5)] >>> (number & 31) & 1) === 1; }

  same(one, other) {
    for (let at = 0; at < this.width; at++) {
      if (this.bits[one * this.width + at] !== this.bits[other * this.width + at]) return false;
    }
    return true;
  }

  // Adds the set of each state to those of the states before it, until nothing changes.
  close() {
    const queue = rows.map((_, state) => state), waits = new Uint8Array(rows.length).fill(1);
    while (queue.length) {
      const state = queue.pop();
      waits[state] = 0;
      for (const one of before[state]) {
        let changed = false;
        for (let at = 0; at < this.width; at++) {
          const old = this.bits[one * this.width + at], more = (old | this.bits[state * this.width + at]) >>> 0;
          if (more !== old) { this.bits[one * this.width + at] = more; changed = true; }
        }
        if (changed && !waits[one]) { waits[one] = 1; queue.push(one); }
      }
    }
  }
}

const endKey = state => names(state).map(name => `${name.kind} "${name.path}" ${name.content}`).join('\n');

// Finds the ends, each with its states; and for each state the ends that it can lead to. The last number is for a step that was left out.
function findEnds() {
  const keys = new Map();
  rows.forEach((_, state) => {
    if (live(state).length) return;
    const key = endKey(state);
    if (!keys.has(key)) { keys.set(key, ends.length); ends.push([]); }
    endOf.set(state, keys.get(key));
    ends[keys.get(key)].push(state);
  });
  endSets = new Sets(ends.length + 1);
  for (const [state, end] of endOf) endSets.add(state, end);
  rows.forEach((_, state) => { if (live(state).some(one => one.to === -1)) endSets.add(state, ends.length); });
  endSets.close();
}
const reaches = (state, end) => endSets.has(state, end);
const endsFrom = state => ends.map((_, end) => end).filter(end => reaches(state, end));
const isOpen = state => reaches(state, ends.length);
const sameEnds = (one, other) => endSets.same(one, other);
