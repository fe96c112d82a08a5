// The processes of the current state.

function permissions(allowed) {
  return make('span', { class: 'may' }, ...[...allowed].map(one => one === '-' ? make('i', {}, '-') : one));
}

function field(name, values, fresh) {
  if (!values.length) return [];
  return [make('dt', {}, name), make('dd', {}, ...values.map((value, k) => make('div', { class: (fresh && fresh[k] ? 'new' : '') }, value)))];
}

// A node in words, without its number if it has a path.
const plain = value => value.replace(/^node \d+ (?=")/, '');

function entryOf(value) {
  const [, number, allowed, target] = /^entry (\d+), (\S+), (.*)$/.exec(value);
  return make('div', { class: 'entry' }, number, make('span', {}, permissions(allowed), plain(target)));
}

function descriptorLine(value) {
  const [, number, file, mode, offset, target] = /^(\d+), file (\d+), ([^,]+), offset (\d+), (.*)$/.exec(value);
  return make('div', { class: 'entry' }, number, make('span', {}, `${mode} ${plain(target)}`,
    make('span', { class: 'quiet' }, ` offset ${offset}, file ${file}`)));
}

// What a process can reach: names with the same permissions together.
function reachOf(may) {
  const groups = new Map();
  for (const line of lines(may).map(rest)) {
    const found = /^(\S{4}) (?:node \d+ )?(".*?"(?: in node \d+)?|node \d+)/.exec(line);
    if (!groups.has(found[1])) groups.set(found[1], []);
    groups.get(found[1]).push(found[2].replace(/^"(.*)"$/, '$1'));
  }
  const all = lines(may).length;
  const order = ([one], [other]) => (one === '----') - (other === '----');
  return [...groups].sort(order).map(([allowed, paths]) => make('span', {}, permissions(allowed), ' ',
    paths.length === all && all > 1 ? `all ${all} names` : allowed === '----' ? count(paths.length, 'name')
      : paths.slice(0, 6).join(' ') + (paths.length > 6 ? ` and ${paths.length - 6} more` : '')));
}

// ---- the files that a process can read or change by its own calls, or that another could hand it

let hasLists = false;
const exposedProgram = program => program && data.exposed.find(one => one.nodes.includes(program.node));
const rangesOf = lines => lines.map(([from, to]) => from === to ? `${from}` : `${from}-${to}`).join(', ');
const linesLabel = lines => (/\D/.test(rangesOf(lines)) ? 'lines ' : 'line ') + rangesOf(lines);

// A finding of `exposure`, with a link to its witness. The key has the process of the card.
const findingLink = (finding, label, process) => linkTo(stepsOf(finding.turns), label, `${finding.word} ${process} ${finding.file} witness`);

// One file: the reason of this process at this line and, second, that of a later line.
function findingRow(process, word, text, reason, finding, line) {
  const last = finding ? Math.max(...finding.lines.map(([, to]) => to)) : line, link = () => findingLink(finding, `at line ${last}`, process);
  const later = !finding ? [] : reason === null ? [', on another schedule; ', link(), `: ${finding.reason}`]
    : last === line ? [] : ['; ', link(), finding.reason === reason ? ' too' : `: ${finding.reason}`];
  return make('span', {}, fileButton(textLabel(text), nodesOf(text), `${word} ${process} ${text}`),
    make('span', { class: 'quiet' }, reason === null ? '' : `, ${reason}`, ...later));
}

// The rows of one list of a process at its line: the files of this state, then those of other schedules.
function findingRows(state, one, word, own, line) {
  const found = new Map();
  for (const node of filesOf(state)) {
    const reason = FINDINGS[word](state, one, node), text = brief(state, node);
    if (reason && !found.has(text)) found.set(text, reason);
  }
  const listed = own.findings.filter(finding => finding.word === word), at = text => listed.find(finding => finding.file === text);
  const other = listed.filter(({ file, lines }) => !found.has(file) && lines.some(([from, to]) => from <= line && line <= to));
  return [...[...found].map(([text, reason]) => findingRow(one.process, word, text, reason, at(text), line)),
    ...other.map(finding => findingRow(one.process, word, finding.file, null, finding, line))];
}

// What `exposure` says of a process: nothing, if its program is not known.
function exposureFields(state, one, program) {
  const own = exposedProgram(program), { line } = facts(one.is);
  if (!own) return [];
  const none = data.complete ? 'no file, under any schedule' : 'no file in the visited states';
  const list = (name, word) => field(name, (rows => rows.length || word === 'PEER' ? rows : [none])(findingRows(state, one, word, own, line)));
  const file = (word, text, ...more) => make('span', {}, fileButton(textLabel(text), nodesOf(text), `${word} ${one.process} ${text}`),
    make('span', { class: 'quiet' }, ' ', ...more));
  const reads = own.findings.filter(({ word }) => word === 'READ')
    .map(finding => file('READ', finding.file, findingLink(finding, `at ${linesLabel(finding.lines)}`, one.process)));
  const safe = own.safe.map(text => file('SAFE', text, 'at each line'));
  return [...list('could read', 'LEAK'), ...hasLists ? [...list('peer could', 'PEER'), ...list('could change', 'EDIT'), ...field('reads', reads)] : [],
    ...field('safe', safe)];
}

// An ended process that waits to be waited for.
function endedCard(one, fact, old) {
  const status = Number((/status (\d+)/.exec(fact.PROC) || [0, 0])[1]);
  return make('article', { class: old && old.PROC === fact.PROC ? '' : 'new' }, make('h3', {}, make('b', {}, `Process ${one.process}`),
    make('span', { class: 'quiet' }, `${fact.PROC}${status % 256 ? ', SIGABRT' : `, exit ${status >> 8}`}`)));
}

function cardOf(state, one, previous, programs) {
  const fact = facts(one.is), old = previous ? facts(previous.is) : null, program = programs.get(one.process);
  if (one.to === -2) return endedCard(one, fact, old);
  const title = make('h3', {}, make('b', {}, `Process ${one.process}`), make('code', {}, pathOf(program)),
    make('span', { class: 'quiet' }, `line ${fact.line} of ${fact.of}, parent ${fact.parent}`));
  const fresh = (key, own = fact[key]) => Boolean(previous) && !(Array.isArray(old[key]) ? old[key].includes(own) : old[key] === own);
  const single = (name, key, shown = fact[key]) => field(name, [shown], [fresh(key)]);
  const button = make('button', { class: 'next', 'data-key': 'card' + one.process, onclick: () => makeStep(one.process) },
    make('span', { class: 'heard' }, 'Step process '), make('span', { class: 'number' }, String(one.process)),
    make('span', {}, nextOf(fact, program)));
  return make('article', { 'aria-label': `Process ${one.process}` }, title, button, make('dl', {},
    ...single('promises', 'PLDG', fact.PLDG === 'none' ? 'not pledged' : fact.PLDG.replace(/"/g, '') || '(empty)'),
    ...fact.EXPR === 'none' && fact.PLDG === 'none' && !fresh('EXPR') ? [] : single('execpromises', 'EXPR', fact.EXPR.replace(/"/g, '') || '(empty)'),
    ...single('unveil', 'UNVL', fact.UNVL.replace('none', 'no table')),
    ...fact.unveil.length ? field('', fact.unveil.map(entryOf), fact.unveil.map(value => fresh('unveil', value))) : [],
    ...field('descriptors', fact.descriptors.map(descriptorLine), fact.descriptors.map(value => fresh('descriptors', value))),
    ...single('directory', 'CWD', plain(fact.CWD)),
    ...single('registers', 'REGS'), ...fact.BUF === '0' && !fresh('BUF') ? [] : single('buffer', 'BUF', bytesOf(fact.BUF)),
    ...field('can reach', reachOf(one.may)),
    ...exposureFields(state, one, program)));
}

function drawCards() {
  const state = now(), box = by('cards');
  by('state').textContent = state < 0 ? '' : `state ${state} of ${data.rows.length}`;
  if (state < 0) return box.replaceChildren(make('p', { class: 'cut' }, 'This state was left out of the graph.'));
  const old = at && stateAt(prefix, at - 1) >= 0 ? processes(stateAt(prefix, at - 1)) : null, programs = programsAt(prefix, at);
  box.replaceChildren(...processes(state).map(one => cardOf(state, one, old && old.find(other => other.process === one.process), programs)));
  if (!processes(state).length) box.replaceChildren(make('p', { class: 'quiet' }, 'No process is left.'));
}
