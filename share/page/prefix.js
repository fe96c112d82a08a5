// The schedule prefix: its steps, how many of them are made, and the prefix that is kept for comparison.

let prefix = [], at = 0, keptPrefix = null, looked = 0, timer = 0, schedule = [];
const most = 10000;

const stateAt = (steps, count) => count ? steps[count - 1].to : 0;
const now = () => stateAt(prefix, at);

function push(step) {
  if (at < prefix.length && prefix[at].process === step.process && !prefix[at].gone === !step.gone) { at++; return; }
  prefix.length = at;
  prefix.push(step);
  at++;
}

function makeStep(process) {
  stop();
  const state = now(), step = stepOf(state, process);
  if (state < 0) return say('The graph ends here: the page does not have the states that follow.');
  if (!step) return say(`Process ${process} is not live.`);
  if (at >= most) return say(`A schedule prefix has at most ${most} steps here.`);
  push(step);
  forget();
  show(true);
}

// Takes another prefix, with all its steps made.
function take(steps) {
  stop();
  prefix = steps.slice();
  at = prefix.length;
  show(true);
}

function go(count) {
  stop();
  at = Math.max(0, Math.min(count, prefix.length));
  show(true);
}

// ---- the bundle's schedule

function* turns() {
  let made = 0;
  for (const [process, count] of data.schedule) for (let k = 0; k < count; k++) if (made++ < most) yield process; else return;
}

// Makes one step of the bundle's schedule. If the prefix left the schedule, it goes back to that step instead.
function turn() {
  const parted = prefix.slice(0, at).findIndex((step, k) => step.process !== schedule[k]);
  if (parted >= 0) {
    at = parted;
    return `Back to step ${parted}, where this prefix left the schedule.`;
  }
  if (now() < 0) return 'The graph ends here: the page does not have the states that follow.';
  if (at >= schedule.length) return 'The schedule ends here.';
  const process = schedule[at];
  push(stepOf(now(), process) || { process, from: now(), to: now(), gone: true });
  return '';
}
const over = said => said === 'The schedule ends here.' || said.startsWith('The graph');

function scheduleStep() {
  const said = turn();
  forget();
  show(true);
  if (said) say(said);
  return said;
}

function scheduleAll() {
  stop();
  let said = '';
  while (!over(said)) said = turn();
  forget();
  show(true);
  say(said);
}

function play() {
  if (timer) return stop();
  by('play').setAttribute('aria-pressed', 'true');
  by('play').textContent = 'Stop';
  timer = setInterval(() => { if (over(scheduleStep())) stop(); }, 500);
}

function stop() {
  clearInterval(timer);
  timer = 0;
  by('play').setAttribute('aria-pressed', 'false');
  by('play').textContent = 'Play';
}

// ---- the prefix in the address of the page

const address = steps => '#' + runs(steps).map(run => run.replace(' ', '*')).join(',');

function remember() {
  const hash = address(prefix.slice(0, at));
  if (hash.length < 2000) try { history.replaceState(null, '', hash); } catch (_) { /* a page without a history */ }
}

function fromAddress() {
  prefix = [];
  at = 0;
  for (const [, process, many] of location.hash.matchAll(/(\d+)\*(\d+)/g)) {
    for (let k = 0; k < Number(many) && at < most; k++) {
      const step = now() >= 0 && (stepOf(now(), Number(process)) || { process: Number(process), from: now(), to: now(), gone: true });
      if (step) push(step);
    }
  }
}

// ---- two prefixes

function keep() {
  keptPrefix = keptPrefix ? null : { steps: prefix.slice(), at };
  show(false);
  if (keptPrefix) say('This prefix is kept. Go back and make other steps to compare.');
}

function swap() {
  const other = { steps: prefix.slice(), at };
  prefix = keptPrefix.steps.slice();
  at = keptPrefix.at;
  keptPrefix = other;
  show(true);
}
