// Texts of steps and states.

const count = (number, word) => `${number.toLocaleString('en')} ${word}${number === 1 ? '' : 's'}`;

function runs(steps) {
  const found = [];
  for (const step of steps) {
    const last = found[found.length - 1];
    if (last && last[0] === step.process) last[1]++; else found.push([step.process, 1]);
  }
  return found.map(([process, many]) => `${process} ${many}`);
}

const traceOf = steps => steps.flatMap(step => linesOf(step)
  .filter(line => !['TEXT', 'WHY', 'STEP'].includes(word(line)))
  .map(line => `${String(step.process).padStart(5)} ${line}`)).map(line => line + '\n').join('');

// The program of each process after the first steps of a prefix: /init, and after an execve the path and node of the new program. Node 0 is no file:
// without /init process 1 has an empty program.
function programsAt(steps, number) {
  const found = new Map([[1, { path: '/init', node: (nameAt(0, '/init') || { node: 0 }).node }]]);
  for (const step of steps.slice(0, number)) follow(found, step);
  return found;
}

function follow(programs, step) {
  const said = linesOf(step), child = said.map(line => /^RET   fork (\d+)$/.exec(line)).find(Boolean);
  if (child) programs.set(Number(child[1]), programs.get(step.process));
  if (!said.includes('RET   execve 0')) return;
  const one = processes(step.from).find(one => one.process === step.process), path = rest(said.find(line => word(line) === 'NAMI')).slice(1, -1);
  const name = nameAt(step.from, walk(step.from, directoryOf(one.is), path, true));
  programs.set(step.process, { path, node: name && name.node });
}

const pathOf = program => program ? program.path : '';

// The next instruction of a process: that of its source, if it is known, or the call that the state has.
function nextOf(fact, program) {
  const own = program && data.programs[program.node];
  return fact.NEXT === 'registers' && own && own.instructions.length === fact.of ? own.instructions[fact.line - 1] : fact.NEXT;
}

function bytesOf(value) {
  const [number, digits = ''] = value.split(' ');
  if (number === '0') return '0';
  const shown = digits.match(/../g).slice(0, 60).map(pair => {
    const byte = parseInt(pair, 16);
    return byte < 0x20 || byte > 0x7e || byte === 0x22 || byte === 0x5c ? '\\x' + pair : String.fromCharCode(byte);
  }).join('');
  return `${number} "${shown}"${Number(number) > 60 ? ' ..' : ''}`;
}

function kindOf(said) {
  const words = said.map(word);
  if (words.includes('PSIG')) return 'killed';
  return words.includes('PLDG') || words.includes('UNVL') ? 'refused' : '';
}

// A step in one line: the call, its result, and its bytes.
function summary(step, program) {
  const said = linesOf(step), of = key => said.filter(line => word(line) === key).map(rest);
  const call = of('CALL')[0], answer = of('RET')[0], bytes = of('TEXT')[0];
  if (step.gone) return { call: 'no such process', answer: '', bytes: '' };
  if (!call) {
    const one = processes(step.from).find(one => one.process === step.process);
    return { call: nextOf(facts(one.is), program), answer: '', bytes: '' };
  }
  let result = answer === undefined ? '' : '= ' + answer.slice(answer.indexOf(' ') + 1).replace(/ errno \d+ /, ' ');
  if (of('PSIG').length) result = 'killed, ' + of('PSIG')[0];
  if (of('WAIT').length) result = 'blocked';
  return { call, answer: result, bytes: bytes || '' };
}

// The bytes of a file as a text, or where a link leads; cut to this many characters. With a mark, a text that is cut has the number of its
// content, so that different contents have different texts.
function contentOf(name, width, mark) {
  if (name.text === null) return '';
  const [own, size] = Array.isArray(name.text) ? name.text : [name.text, 0], isCut = size > 0 || own.length > width;
  const text = (name.kind === 'l' ? '\u2192 ' : '"') + own.slice(0, width) + (isCut ? '..' : '') + (name.kind === 'l' ? '' : '"');
  return text + (isCut && mark ? ` content ${name.content}` : '');
}

// The lines of a state for a comparison with another: its tree, and its processes without their registers.
function described(state, other = state) {
  const all = names(state).map(name => `${name.kind} ${name.node} ${name.size} "${name.path}" ${contentOf(name, 60, true)}`.trimEnd());
  const common = new Set(processes(other).map(one => one.process));
  for (const one of processes(state)) {
    const known = common.has(one.process) ? lines(one.is).filter(line => word(line) !== 'REGS') : lines(one.is).slice(0, 1);
    all.push(...known.map(line => `${one.process} ${line}`));
  }
  return all;
}

// The lines of an end: names, kinds and bytes.
const endLines = state => names(state).map(name => `${name.kind} "${name.path}" ${contentOf(name, 60, true)}`.trimEnd());
