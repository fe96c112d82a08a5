// What every schedule can lead to: the observations and the ends, each with a link to a witness.

// The observations of a process, a verb and a file together: those first whose file the process's own table hides, then those whose file
// another table hides.
function groups() {
  const found = new Map();
  observations.forEach((one, number) => {
    const key = [one.process, one.verb, one.label].join('\n');
    if (!found.has(key)) found.set(key, []);
    found.get(key).push(number);
  });
  const rank = numbers => {
    const one = observations[numbers[0]];
    return [numbers.some(number => observations[number].own) ? 0 : numbers.some(number => observations[number].hidden) ? 1 : 2, one.process,
      VERBS.indexOf(one.verb)];
  };
  return [...found.values()].sort((one, other) => {
    const [left, right] = [rank(one), rank(other)], at = left.findIndex((value, k) => value !== right[k]);
    return at < 0 ? one[0] - other[0] : left[at] - right[at];
  });
}

// Whether an observation is made on this prefix, can still come, or neither.
function statusOf(number, seen) {
  if (seen.has(number)) return 'made';
  return now() >= 0 && observationSets.has(now(), number) ? '' : 'ruled out';
}

function witnessLink(number, seen) {
  const one = observations[number], steps = witnessOf(one), status = statusOf(number, seen);
  return make('li', { class: status === 'ruled out' ? 'shut' : '' }, linkTo(steps, one.detail || 'witness', 'seen' + number),
    make('span', { class: 'quiet' }, ` ${count(steps.length, 'step')}${status ? ', ' + status : ''}`), one.own ? ownTag(number) : null,
    one.hidden ? hiddenTag(number) : null);
}

// That the process's own table hides the file, with a link if the shortest witness of that is another one.
function ownTag(number) {
  const one = observations[number], { state } = one.own, said = `by a descriptor: ${PAST_OWN}`;
  return make('span', { class: 'tag' }, ' ', state === one.state ? said : linkTo(witnessOf(one, state), said, 'own' + number));
}

// From which processes the file is hidden, with a link if the shortest witness of that is another one.
function hiddenTag(number) {
  const one = observations[number], { from, state } = one.hidden, who = from.join(', ');
  return make('span', { class: 'tag' }, ' hidden from ', state === one.state ? who : linkTo(witnessOf(one, state), who, 'hidden' + number));
}

function groupOf(numbers, seen) {
  const one = observations[numbers[0]], shown = numbers.slice(0, 12);
  return make('li', { class: numbers.some(number => observations[number].own || observations[number].hidden) ? 'hidden' : '' },
    make('span', { class: 'who' }, make('span', { class: 'heard' }, 'process '), String(one.process)), ` ${one.verb} `,
    make('code', {}, fileButton(fileOf(one), one.node === undefined ? nodesAt(one.path) : [one.node], 'file' + numbers[0])),
    make('ul', {}, ...shown.map(number => witnessLink(number, seen)),
      ...numbers.length > shown.length ? [make('li', { class: 'quiet' }, `and ${numbers.length - shown.length} more`)] : []));
}

// A file of the first tree. If another file had its path, that is said, too.
const unreadName = ({ path, node }) => sharedPaths.has(path) ? `the first tree's ${path} (node ${node})` : path;

// What is said in place of the list, or below it.
function observationsNote(shown, filter) {
  if (!observations.length) return data.complete ? 'No schedule has a step that accesses a file.'
    : 'No visited state has a step that accesses a file. The graph is not complete.';
  if (!shown.length) return `No observation has ‘${filter}’.`;
  if (!data.complete) return 'The graph is not complete: there may be further observations.';
  if (!unread.length) return 'Some schedule reads or runs each file of the first tree.';
  return `No schedule ${unread.some(name => name.kind === 'x') ? 'reads or runs' : 'reads'} ${unread.map(unreadName).join(', ')}.`;
}

function drawObservations() {
  by('observations-title').textContent = `Observations: ${observations.length}`;
  if (!by('observations').open) return;
  const filter = by('filter').value.trim().toLowerCase(), seen = made(prefix.slice(0, at));
  const shown = groups().filter(numbers => numbers.some(number => observationText(observations[number]).toLowerCase().includes(filter)));
  by('observed').replaceChildren(...shown.slice(0, 200).map(numbers => groupOf(numbers, seen)));
  by('observations-note').textContent = observationsNote(shown, by('filter').value.trim());
}

function drawEnds() {
  by('ends-title').textContent = `Ends: ${ends.length}` + (now() >= 0 ? `, from here ${endsFrom(now()).length}` : '');
  if (!by('ends').open) return;
  const shown = ends.slice(0, 60), sets = shown.map(([state]) => new Set(endLines(state)));
  const common = new Set(sets.length ? [...sets[0]].filter(line => sets.every(set => set.has(line))) : []);
  by('ends-list').replaceChildren(...shown.map(([state], end) => {
    const steps = prefixTo(state);
    return make('li', {}, linkTo(steps, `End ${end + 1}`, 'end' + end),
      make('span', { class: 'quiet' }, ` ${count(steps.length, 'step')}` + (now() >= 0 && !reaches(now(), end) ? ', not from here' : '')),
      make('ul', {}, ...[...sets[end]].filter(line => !common.has(line)).map(line => make('li', {}, line))));
  }));
  by('ends-note').textContent = ends.length ? '' : data.complete ? 'No schedule ends all processes.' : 'No visited state is an end. The graph is not complete.';
}
