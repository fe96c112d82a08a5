// The schedule prefix on the page: a row for each step, a column for each process.

const text = value => document.createTextNode(value);

function make(name, attributes, ...children) {
  const element = document.createElement(name);
  for (const [key, value] of Object.entries(attributes || {})) {
    if (key === 'class') element.className = value;
    else if (key.startsWith('on')) element.addEventListener(key.slice(2), value);
    else if (value !== false && value !== null) element.setAttribute(key, value === true ? '' : value);
  }
  element.append(...children.filter(child => child !== null && child !== ''));
  return element;
}

// A link to a prefix. A press takes it, also if the address is too long for the page.
function linkTo(steps, label, key) {
  return make('a', { href: address(steps), 'data-key': key, onclick: event => { event.preventDefault(); take(steps); } }, label);
}

// Each process as it is before a step or, if it ended on this prefix, as it was last.
function meet(last, step) {
  for (const one of live(step.from)) last.set(one.process, one);
  return last;
}
const lastOf = steps => steps.reduce(meet, new Map());

// The processes whose tables hide what a step accesses.
function hiddenOn(step, last) {
  const one = !step.gone && processes(step.from).find(one => one.process === step.process), found = one ? accesses(step.from, one) : [];
  const others = found.length ? [...last.values()].filter(other => other.process !== step.process) : [];
  return [...new Set(found.flatMap(access => hiddenFrom(step.from, access, others)))].sort((one, other) => one - other);
}

// Whether a step is an access by a descriptor at a place that the process's own table hides.
function isPastOwn(step) {
  const one = !step.gone && processes(step.from).find(one => one.process === step.process);
  return Boolean(one) && accesses(step.from, one).some(access => pastOwnTable(step.from, one, access));
}
const PAST_OWN = 'its own table hides the file';

// What a step decides: the ends that are left, and the observations that it rules out.
function decided(step, before) {
  const notes = step.to >= 0 && !sameEnds(step.from, step.to) ? [text(endsText(step.to))] : [], ruled = ruledOut(step, before);
  if (ruled.length) notes.push(...notes.length ? [text('; ')] : [], ruledNote(ruled));
  return notes.length ? make('span', { class: 'note' }, ' \u2192 ', ...notes) : '';
}

// The observations that are ruled out: two by their texts, more by their number, with the texts in a tip.
function ruledNote(ruled) {
  const texts = ruled.map(number => observationText(observations[number]));
  return make('span', { title: texts.join('\n') }, 'rules out ' + (texts.length < 3 ? texts.join(' and ') : count(texts.length, 'observation')));
}

function rowOf(step, k, { programs, before, last }, jump) {
  const said = linesOf(step), { call, answer, bytes } = summary(step, programs.get(step.process));
  const hidden = hiddenOn(step, meet(last, step)), isOwn = isPastOwn(step);
  const why = said.filter(line => ['PLDG', 'UNVL', 'WHY'].includes(word(line)));
  const button = make('button', { onclick: () => jump(k + 1), 'data-key': 'row' + (k + 1), tabindex: -1 },
    make('span', { class: 'step' }, String(k + 1)),
    make('span', { class: 'call' }, make('span', { class: 'who' }, make('span', { class: 'heard' }, 'process '), String(step.process)),
      said.length && !step.gone ? call : make('span', { class: 'quiet' }, call), answer ? ' ' + answer : '',
      bytes ? make('span', { class: 'bytes' }, '  ' + bytes) : '',
      isOwn ? make('span', { class: 'note tag' }, ` by a descriptor: ${PAST_OWN}`) : '',
      hidden.length ? make('span', { class: 'note tag' }, ` hidden from ${hidden.join(', ')}`) : '', decided(step, before)));
  const row = make('li', { class: `lanes ${kindOf(said)}${hidden.length || isOwn ? 'hidden' : ''}` }, button);
  if (why.length) {
    row.append(make('ul', { class: 'why' }, ...why.map(line => make('li', {}, make('b', {}, word(line)), rest(line)))));
  }
  return row;
}

function setLane(row, lane) {
  row.querySelectorAll(':scope > .why, :scope > button > .call').forEach(cell => { cell.style.gridColumn = `${lane + 2} / -1`; });
}

// Draws the rows of a prefix. Rows of steps that did not change stay.
function drawRows(list, steps, lanes, jump) {
  const old = list.steps || [];
  let same = 0;
  while (same < old.length && same < steps.length && old[same] === steps[same]) same++;
  while (list.children.length > same) list.lastChild.remove();
  const past = { programs: programsAt(steps, same), before: made(steps.slice(0, same)), last: lastOf(steps.slice(0, same)) };
  for (let k = same; k < steps.length; k++) {
    list.append(rowOf(steps[k], k, past, jump));
    follow(past.programs, steps[k]);
    observedBy(steps[k]).forEach(number => past.before.add(number));
  }
  list.steps = steps.slice();
  list.style.setProperty('--lanes', lanes.length);
  steps.forEach((step, k) => setLane(list.children[k], lanes.indexOf(step.process)));
}

function lanesOf(...prefixes) {
  const found = new Set();
  for (const steps of prefixes) for (const step of steps) found.add(step.process);
  if (now() >= 0) for (const one of processes(now())) found.add(one.process);
  return [...found].sort((one, other) => one - other);
}

function drawHeads(box, lanes, programs) {
  box.style.setProperty('--lanes', lanes.length);
  box.replaceChildren(...lanes.map((process, lane) => {
    const head = make('span', {}, make('span', { class: 'who' }, String(process)), ' ',
      lanes.length > 5 ? '' : make('code', {}, pathOf(programs.get(process))));
    head.style.gridColumn = `${lane + 2}`;
    return head;
  }));
}

function drawPrefix() {
  const lanes = lanesOf(prefix), list = by('rows');
  drawRows(list, prefix, lanes, go);
  [...list.children].forEach((row, k) => {
    row.classList.toggle('here', k === at - 1);
    row.classList.toggle('after', k >= at);
    row.classList.toggle('found', Boolean(hits && hits.length && k === at - 1 && k === prefix.length - 1));
    row.firstChild.tabIndex = k === Math.max(at - 1, 0) ? 0 : -1;
    if (k === at - 1) row.firstChild.setAttribute('aria-current', 'step'); else row.firstChild.removeAttribute('aria-current');
  });
  drawHeads(by('heads'), lanes, programsAt(prefix, at));
  by('count').textContent = at < prefix.length ? `${at} of ${count(prefix.length, 'step')}` : count(at, 'step');
  by('schedule').textContent = runs(prefix.slice(0, at)).join('\n');
  by('trace').textContent = traceOf(prefix.slice(0, at));
}

// Scrolls the current step into the view of the box that scrolls. The document itself stays where it is.
function reveal() {
  const list = by('rows'), here = list.children[at - 1], isNarrow = getComputedStyle(list).overflowY === 'auto';
  const box = isNarrow ? list : by('prefix'), above = isNarrow ? 0 : 60, below = isNarrow ? 0 : by('choices').offsetHeight + 12;
  if (!here) { box.scrollTop = 0; return; }
  const bottom = here.offsetTop + here.offsetHeight;
  if (bottom > box.scrollTop + box.clientHeight - below) box.scrollTop = bottom - box.clientHeight + below;
  else if (here.offsetTop < box.scrollTop + above) box.scrollTop = here.offsetTop - above;
}

// ---- the prefix that is kept

function drawKept() {
  document.body.classList.toggle('two', Boolean(keptPrefix));
  by('kept').hidden = !keptPrefix;
  by('keep').setAttribute('aria-pressed', String(Boolean(keptPrefix)));
  if (!keptPrefix) return;
  const { steps } = keptPrefix;
  drawHeads(by('kept-heads'), lanesOf(steps), programsAt(steps, keptPrefix.at));
  drawRows(by('kept-rows'), steps, lanesOf(steps), number => { keptPrefix.at = number; show(false); });
  const parted = [...Array(Math.max(prefix.length, steps.length)).keys()]
    .find(k => !prefix[k] || !steps[k] || prefix[k].process !== steps[k].process);
  for (const list of [by('rows'), by('kept-rows')]) [...list.children].forEach((row, k) => row.classList.toggle('part', k === parted));
  [...by('kept-rows').children].forEach((row, k) => {
    row.classList.toggle('here', k === keptPrefix.at - 1);
    row.firstChild.tabIndex = k === Math.max(keptPrefix.at - 1, 0) ? 0 : -1;
  });
  by('kept-count').textContent = `${count(keptPrefix.at, 'step')}${parted === undefined ? ', the same prefix' : `, differs from step ${parted + 1} on`}`;
  drawDifference(now(), stateAt(steps, keptPrefix.at));
}

function drawDifference(one, other) {
  const box = by('difference');
  if (one < 0 || other < 0) return box.replaceChildren('One of the two prefixes leads to a state that was left out.');
  const seen = [made(prefix.slice(0, at)), made(keptPrefix.steps.slice(0, keptPrefix.at))]
    .map(numbers => [...numbers].map(number => observationText(observations[number])));
  const here = [...one === other ? [] : described(one, other), ...seen[0]], there = [...one === other ? [] : described(other, one), ...seen[1]];
  const list = (title, own, others) => [make('h3', {}, title),
    make('ul', {}, ...own.filter(line => !others.includes(line)).map(line => make('li', {}, line)))];
  const same = here.every(line => there.includes(line)) && there.every(line => here.includes(line));
  if (same) return box.replaceChildren(one === other ? 'Both prefixes lead to the same state, with the same observations.'
    : 'Both prefixes lead to states that differ in registers alone, with the same observations.');
  box.replaceChildren(...list('Only after this prefix', here, there), ...list('Only after the kept prefix', there, here));
}
