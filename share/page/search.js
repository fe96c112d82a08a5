// Search: breadth first, so that the first witness is a shortest one. Case does not matter.

let hits = null, hit = -1, can = null, sought = '', lower = null;

function* breadth(start) {
  const from = new Map([[start, null]]), queue = [start];
  for (let head = 0; head < queue.length; head++) {
    const state = queue[head];
    for (const one of processes(state)) {
      yield { state, one, from };
      if (one.to >= 0 && !from.has(one.to)) { from.set(one.to, { state, process: one.process }); queue.push(one.to); }
    }
  }
}

function stepsTo(from, state) {
  const steps = [];
  for (let back = from.get(state); back; back = from.get(back.state)) steps.unshift(stepOf(back.state, back.process));
  return steps;
}

const utf8 = text => String.fromCharCode(...new TextEncoder().encode(text));

// A line in lower case, and with the bytes of a GIO line as characters, too.
function lowered(line) {
  const bytes = line.startsWith('GIO') ? (line.split(' ').pop().match(/../g) || []).map(pair => String.fromCharCode(parseInt(pair, 16))).join('') : '';
  return [line.toLowerCase(), bytes.toLowerCase()];
}

function blocksWith(text) {
  lower = lower || data.lines.map(lowered);
  const wanted = text.toLowerCase(), bytes = utf8(wanted), has = lower.map(([line, own]) => line.includes(wanted) || own.includes(bytes));
  return data.blocks.map(block => block.some(line => has[line]));
}

// Each different step, or state, that has the text, with a shortest prefix that leads to it.
function find(text, where) {
  const has = blocksWith(text), start = where === 'here' && now() >= 0 ? at : 0, seen = new Set(), found = [];
  const begin = prefix.slice(0, start);
  for (const { state, one, from } of breadth(stateAt(begin, start))) {
    const blocks = where === 'states' ? [one.is, one.may, rows[state][0]] : one.to === -2 ? [] : [one.step];
    for (const block of blocks) {
      const key = (block === rows[state][0] && where === 'states' ? 0 : one.process) + ' ' + block;
      if (!has[block] || seen.has(key)) continue;
      seen.add(key);
      const steps = stepsTo(from, state);
      if (where !== 'states') steps.push(stepOf(state, one.process));
      found.push([...begin, ...steps]);
      if (found.length === 1000) return found;
    }
  }
  return found;
}

// Finds the states from which a step with the text can still come.
function findCan(has) {
  can = new Uint8Array(rows.length);
  can.has = has;
  const queue = [], add = state => { if (!can[state]) { can[state] = 1; queue.push(state); } };
  rows.forEach((_, state) => { if (live(state).some(one => has[one.step])) add(state); });
  while (queue.length) before[queue.pop()].forEach(add);
}

function nothing(where, text) {
  if (!data.complete) return `No visited state ${where === 'states' ? 'has' : 'has a step with'} ‘${text}’. The graph is not complete.`;
  if (where === 'states') return `No schedule leads to a state with ‘${text}’.`;
  return where === 'here' ? `No schedule has a step with ‘${text}’ after this prefix.` : `No schedule has a step with ‘${text}’.`;
}

function search(event) {
  if (event) event.preventDefault();
  stop();
  const where = by('where').value, value = by('text').value, key = where + ' ' + value;
  if (!value) {
    can = null;
    forget();
    show(false);
    return say('The search is empty. Enter a text, or choose one of the suggestions.');
  }
  if (!hits || hits.key !== key) {
    hits = find(value, where);
    hits.key = key;
    hit = -1;
    sought = value;
    findCan(blocksWith(value));
  }
  if (!hits.length) {
    show(false);
    return say(nothing(where, value));
  }
  hit = (hit + 1) % hits.length;
  prefix = hits[hit].slice();
  at = prefix.length;
  show(true);
  say(`${hit + 1} of ${hits.length}: a shortest witness has ${count(prefix.length, 'step')}: ${runs(prefix).join(', ')}`);
}

function forget() { hits = null; hit = -1; }

// ---- suggestions

// Texts of steps that are worth a search, by their subject.
function suggestions() {
  const all = pattern => [...new Set(data.lines.map(line => pattern.exec(line)).filter(Boolean).map(found => found[1]))];
  return [
    ['Refusals', [...all(/^PLDG  \w+, "(\w+)", \w+$/).map(promise => `"${promise}", `), ...all(/^UNVL  (none, needs|locked)/),
      ...all(/^UNVL  (entry \d+, needs)/), ...all(/^PSIG  (SIGABRT)$/)]],
    ['Errors', all(/^RET   .* errno \d+ (\w+)$/)],
    ['Paths', all(/^NAMI  "(.+)"$/)],
    ['Bytes', all(/^TEXT  "([^"\\]{2,24})", node/)],
  ].map(([subject, texts]) => [subject, texts.slice(0, 8)]).filter(([, texts]) => texts.length);
}

function drawSuggestions() {
  const ask = text => { by('text').value = text; by('where').value = 'steps'; forget(); search(); };
  by('suggested').replaceChildren(...suggestions().flatMap(([subject, texts]) => [make('dt', {}, subject), make('dd', {}, ...texts.map(text =>
    // The press must not take the focus, or the list closes before the click.
    make('button', { type: 'button', onmousedown: event => event.preventDefault(), onclick: () => ask(text) }, text)))]));
}
