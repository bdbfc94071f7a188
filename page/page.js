'use strict';
// Shows the page's two texts, the scene and the report of it: agents that move, what the report
// lists, where and when. All that is shown is read from these texts.
(function () {
  const KINDS = ['vertex', 'parked', 'edge', 'follow', 'swap', 'cycle'];
  const SHOWN = KINDS.concat(['visit', 'unfinished']);
  const NAMES = { visit: 'blocked', unfinished: 'not at goal' };
  const ROW = 26;
  const MOST_LIT = 400;
  const COLOURS = 5;
  const MOST_SCALE = 80;

  // ---- Reading the texts ----

  function element(id) { return document.getElementById(id); }

  // A new element of the page.
  function make(tag, fields, ...children) {
    const made = Object.assign(document.createElement(tag), fields);
    made.append(...children);
    return made;
  }

  // The number that a word says; none where it says `none`.
  function numberOf(word) { return word === 'none' ? null : Number(word); }

  function cellOf(word) {
    const at = word.indexOf(',');
    return [Number(word.slice(0, at)), Number(word.slice(at + 1))];
  }

  // Reads the numbers of the text from one index to the other, which is behind them all, into `numbers`
  // behind `many`; answers how many there are then. Letters, blanks and commas part them.
  function scanNumbers(text, from, to, numbers, many) {
    let number = -1;
    for (let at = from; at <= to; at += 1) {
      const digit = text.charCodeAt(at) - 48;
      if (digit >= 0 && digit <= 9) {
        number = (number < 0 ? 0 : number * 10) + digit;
      } else if (number >= 0) {
        numbers[many] = number;
        many += 1;
        number = -1;
      }
    }
    return many;
  }

  // The agents of the scene's lines from an index on. Their paths' columns and rows stand one behind
  // the other in `places`.
  function readAgents(text, start, leaving) {
    const places = new Int32Array(Math.ceil((text.length - start) / 2) + 8);
    const agents = [];
    let goal = [0, 0];
    let many = 0;
    for (let at = start, end = 0; at < text.length; at = end + 1) {
      const first = many;
      end = text.indexOf('\n', at);
      many = scanNumbers(text, at, end, places, many);
      if (text[at] === 'a') {
        goal = [places[first + 3], places[first + 4]];
        many = first;
      } else {
        const isHome = places[many - 2] === goal[0] && places[many - 1] === goal[1];
        agents.push({ number: places[first], from: first + 1, last: (many - first - 3) / 2, goal: goal, leaves: leaving && isHome });
      }
    }
    return { places, agents };
  }

  // The scene: its map's rows, and its agents.
  function readScene(block) {
    const text = block.textContent;
    const mode = block.dataset.mode;
    const height = Number(text.split('\n', 2)[1].slice('height '.length));
    const rows = text.split('\n', height + 4).slice(4);
    const start = text.indexOf('\nmap\n') + 5 + height * (rows[0].length + 1);
    const { places, agents } = readAgents(text, start, mode === 'disappear');
    return { width: rows[0].length, height, rows, mode, agents, places, byNumber: new Map(agents.map((agent) => [agent.number, agent])) };
  }

  // Where an agent is at a time; nowhere after it has left.
  function placeOf(agent, time) {
    if (time > agent.last && agent.leaves) { return null; }
    const at = agent.from + 2 * Math.min(time, agent.last);
    return [scene.places[at], scene.places[at + 1]];
  }

  // What a line of an entry or a visit finds: its time, its agents, and its cells, which of a cycle are
  // those that its agents leave.
  function findingOf(line, words) {
    const kind = words[0];
    const agents = words.slice(1).filter((word) => !word.includes(',')).map(Number);
    const time = kind === 'visit' ? agents.pop() : agents.shift();
    const cells = words.filter((word) => word.includes(',')).map(cellOf);
    const left = () => agents.map((number) => placeOf(scene.byNumber.get(number), time));
    return { kind, time, agents, cells: kind === 'cycle' ? left() : cells, line };
  }

  // What the line of an agent says, and the finding where it isn't at its goal.
  function readAgentLine(report, line, words) {
    const costs = { settle: Number(words[3]), finished: words[5] === 'yes', bound: numberOf(words[7]), gap: numberOf(words[9]) };
    const number = Number(words[1]);
    report.costs.set(number, costs);
    if (!costs.finished) {
      const cell = placeOf(scene.byNumber.get(number), costs.settle);
      report.findings.push({ kind: 'unfinished', time: costs.settle, agents: [number], cells: [cell], line: line });
    }
  }

  // The report: the costs of agents, its totals, and what it finds, in order of time.
  function readReport(block) {
    const report = { costs: new Map(), totals: new Map(), findings: [], counts: new Map(), asked: block.dataset.solves.trim().split(' ') };
    for (const line of block.textContent.split('\n')) {
      const words = line.split(' ');
      if (words[0] === 'agent') {
        readAgentLine(report, line, words);
      } else if (KINDS.includes(words[0]) || words[0] === 'visit') {
        report.findings.push(findingOf(line, words));
      } else if (words.length === 2) { report.totals.set(words[0], numberOf(words[1])); }
    }
    for (const { kind } of report.findings) { report.counts.set(kind, (report.counts.get(kind) || 0) + 1); }
    report.findings.sort((a, b) => a.time - b.time);
    return report;
  }

  // The entries and visits of each time.
  function findingsByTime(findings) {
    const byTime = new Map();
    for (const finding of findings.filter((one) => one.kind !== 'unfinished')) {
      byTime.set(finding.time, byTime.get(finding.time) || []);
      byTime.get(finding.time).push(finding);
    }
    return byTime;
  }

  // Whether what is of that kind keeps the plans from solving the problem.
  function doesCount(kind) {
    return kind === 'visit' || kind === 'unfinished' || report.asked.includes(kind === 'parked' ? 'vertex' : kind);
  }

  function countOf(kind) { return report.counts.get(kind) || 0; }
  function doesSolve() { return SHOWN.every((kind) => !doesCount(kind) || countOf(kind) === 0); }

  // ---- What is shown ----

  const scene = {};
  Object.assign(scene, readScene(element('scene')));
  const report = readReport(element('report'));
  const byTime = findingsByTime(report.findings);
  const horizon = scene.agents.reduce((most, agent) => Math.max(most, agent.last), 0);
  const canvas = element('map');
  const pen = canvas.getContext('2d', { alpha: false });
  const backdrop = document.createElement('canvas');
  const state = {
    now: 0, step: 0, playing: false, speed: 4, loop: false, before: 0, toldAt: 0,
    kinds: new Set(SHOWN.filter(doesCount)), from: null, to: null, allPaths: false,
    picked: null, chosen: null, listed: [], rows: { shown: [] }, scale: 1, left: 0, top: 0,
    isFitted: true, isStale: true, isDue: false, frames: 0, look: {}, ground: null,
  };

  function isShown(finding) { return state.kinds.has(finding.kind); }

  // What is lit: what is of the present time and of a kind that is shown.
  function litNow() { return (byTime.get(state.step) || []).filter(isShown); }

  // Whether the finding is in the list as it is filtered.
  function isListed(finding) {
    return isShown(finding)
      && (state.picked === null || finding.agents.includes(state.picked.number))
      && (state.from === null || finding.time >= state.from)
      && (state.to === null || finding.time <= state.to);
  }

  // ---- The map ----

  // The colours of the style, which go by the browser's wish for a dark or a light look.
  function readLook() {
    const style = getComputedStyle(document.documentElement);
    const names = ['ground', 'floor', 'wall', 'net', 'ink', 'panel', 'mark', 'other', 'focus'];
    for (let colour = 0; colour < COLOURS; colour += 1) { names.push('c' + colour, 't' + colour); }
    for (const name of names) { state.look[name] = style.getPropertyValue('--' + name).trim(); }
    state.ground = paintGround();
    turnStale();
  }

  // The map, a pixel for each cell.
  function paintGround() {
    const ground = make('canvas', { width: scene.width, height: scene.height });
    const brush = ground.getContext('2d');
    brush.fillStyle = state.look.floor;
    brush.fillRect(0, 0, scene.width, scene.height);
    brush.fillStyle = state.look.wall;
    scene.rows.forEach((row, y) => {
      for (const wall of row.matchAll(/[^.]+/g)) { brush.fillRect(wall.index, y, wall[0].length, 1); }
    });
    return ground;
  }

  function ratio() { return window.devicePixelRatio || 1; }

  // The least scale at which the whole map is seen.
  function fittingScale() {
    return Math.min(canvas.clientWidth / (scene.width + 1), canvas.clientHeight / (scene.height + 1), 60);
  }

  // Has the point of the map, in cells, in the middle of the canvas.
  function lookAt(x, y) {
    state.left = x - canvas.clientWidth / state.scale / 2;
    state.top = y - canvas.clientHeight / state.scale / 2;
    keepInSight();
  }

  function fitMap() {
    state.scale = fittingScale();
    lookAt(scene.width / 2, scene.height / 2);
    state.isFitted = true;
  }

  // Zooms by a factor round a point of the canvas.
  function zoomBy(factor, x, y) {
    const scale = Math.min(Math.max(state.scale * factor, Math.min(fittingScale(), 1) / 2), MOST_SCALE);
    Object.assign(state, { left: state.left + x / state.scale - x / scale, top: state.top + y / state.scale - y / scale, scale });
    keepInSight();
  }

  // Keeps some of the map in sight.
  function keepInSight() {
    const across = canvas.clientWidth / state.scale;
    const down = canvas.clientHeight / state.scale;
    state.left = Math.min(Math.max(state.left, -across / 2), scene.width - across / 2);
    state.top = Math.min(Math.max(state.top, -down / 2), scene.height - down / 2);
    state.isFitted = false;
    turnStale();
  }

  // Moves the view by so many pixels.
  function moveBy(across, down) {
    Object.assign(state, { left: state.left + across / state.scale, top: state.top + down / state.scale });
    keepInSight();
  }

  // Centres a point of the map, near enough to see who is there.
  function centreOn(x, y) {
    state.scale = Math.max(state.scale, 22);
    lookAt(x, y);
  }

  // The backdrop has to be painted anew.
  function turnStale() {
    state.isStale = true;
    redraw();
  }

  function fitCanvas() {
    const width = Math.max(1, Math.round(canvas.clientWidth * ratio()));
    const height = Math.max(1, Math.round(canvas.clientHeight * ratio()));
    [canvas, backdrop].forEach((one) => Object.assign(one, { width, height }));
    if (state.isFitted) { fitMap(); }
    turnStale();
  }

  // Lets the brush draw in cells: a cell's upper left corner is its column and row.
  function useCells(brush) {
    const scale = state.scale * ratio();
    brush.setTransform(scale, 0, 0, scale, -state.left * scale, -state.top * scale);
  }

  function traceLine(brush, corners) {
    corners.forEach((corner, index) => brush[index === 0 ? 'moveTo' : 'lineTo'](corner[0], corner[1]));
  }

  // The borders of the cells in sight.
  function paintNet(brush) {
    const right = Math.min(scene.width, Math.ceil(state.left + canvas.clientWidth / state.scale));
    const bottom = Math.min(scene.height, Math.ceil(state.top + canvas.clientHeight / state.scale));
    const [left, top] = [Math.max(0, Math.floor(state.left)), Math.max(0, Math.floor(state.top))];
    brush.beginPath();
    for (let x = left; x <= right; x += 1) { traceLine(brush, [[x, top], [x, bottom]]); }
    for (let y = top; y <= bottom; y += 1) { traceLine(brush, [[left, y], [right, y]]); }
    stroke(brush, state.look.net, 1, 0);
  }

  function colourOf(agent) { return state.look['c' + (agent.number % COLOURS)]; }

  function isMarked(agent) {
    return agent === state.picked || (state.chosen !== null && state.chosen.agents.includes(agent.number));
  }

  // An agent's path, by its corners.
  function tracePath(brush, agent) {
    const places = scene.places;
    brush.moveTo(places[agent.from] + 0.5, places[agent.from + 1] + 0.5);
    for (let step = 1; step <= agent.last; step += 1) {
      const at = agent.from + 2 * step;
      const goesOn = step < agent.last && places[at] - places[at - 2] === places[at + 2] - places[at]
        && places[at + 1] - places[at - 1] === places[at + 3] - places[at + 1];
      if (!goesOn) { brush.lineTo(places[at] + 0.5, places[at + 1] + 0.5); }
    }
  }

  // Strokes something of each of the agents, in its colour.
  function strokeEach(brush, agents, trace, cells) {
    brush.globalAlpha = 0.6;
    for (const agent of agents) {
      brush.beginPath();
      trace(agent);
      stroke(brush, colourOf(agent), 1.2, cells);
    }
    brush.globalAlpha = 1;
  }

  // Paints what goes by the view alone: the map, and the paths and goals of agents that don't move.
  function paintBackdrop() {
    const brush = backdrop.getContext('2d', { alpha: false });
    brush.setTransform(1, 0, 0, 1, 0, 0);
    brush.fillStyle = state.look.ground;
    brush.fillRect(0, 0, backdrop.width, backdrop.height);
    useCells(brush);
    brush.imageSmoothingEnabled = state.scale * ratio() < 1;
    brush.drawImage(state.ground, 0, 0);
    if (state.scale >= 9) { paintNet(brush); }
    if (state.allPaths) { strokeEach(brush, scene.agents, (agent) => tracePath(brush, agent), 0.1); }
    if (state.scale >= 9 && state.picked === null) {
      strokeEach(brush, scene.agents.filter((one) => isInSight(one.goal)), ({ goal }) => brush.rect(goal[0] + 0.2, goal[1] + 0.2, 0.6, 0.6), 0.07);
    }
    state.isStale = false;
  }

  // ---- Agents and marks ----

  // Strokes what was traced, so many pixels wide, or so many cells where that is more.
  function stroke(brush, colour, pixels, cells) {
    brush.strokeStyle = colour;
    brush.lineWidth = Math.max(pixels / state.scale, cells);
    brush.stroke();
  }

  function fill(colour) {
    pen.fillStyle = colour;
    pen.fill();
  }

  function sizeOf(pixels, cells) { return Math.max(pixels / state.scale, cells); }

  // Where an agent is drawn at the present moment, which may be between two steps.
  function spotOf(agent) {
    const here = placeOf(agent, state.step);
    const share = state.now - state.step;
    const next = here === null || share === 0 ? null : placeOf(agent, state.step + 1);
    return next === null ? here : [here[0] + (next[0] - here[0]) * share, here[1] + (next[1] - here[1]) * share];
  }

  function isInSight(spot) {
    return spot !== null && spot[0] > state.left - 1 && spot[1] > state.top - 1
      && spot[0] < state.left + canvas.clientWidth / state.scale && spot[1] < state.top + canvas.clientHeight / state.scale;
  }

  // The agents that are in sight, of those that are handed in, with their spots.
  function thoseInSight(agents) {
    return agents.map((agent) => ({ agent: agent, spot: spotOf(agent) })).filter((one) => isInSight(one.spot));
  }

  function traceDot(spot, size) {
    pen.moveTo(spot[0] + 0.5 + size, spot[1] + 0.5);
    pen.arc(spot[0] + 0.5, spot[1] + 0.5, size, 0, 2 * Math.PI);
  }

  function traceBody(spot) {
    const size = sizeOf(2, 0.38);
    if (state.scale < 7) {
      pen.rect(spot[0] + 0.5 - size, spot[1] + 0.5 - size, 2 * size, 2 * size);
    } else { traceDot(spot, size); }
  }

  // Agents that aren't marked; they are faint where others are.
  function drawBodies(seen) {
    pen.globalAlpha = state.picked !== null || state.chosen !== null ? 0.3 : 1;
    const plain = seen.filter((one) => !isMarked(one.agent));
    for (let colour = 0; colour < COLOURS; colour += 1) {
      pen.beginPath();
      plain.filter((one) => one.agent.number % COLOURS === colour).forEach((one) => traceBody(one.spot));
      fill(state.look['c' + colour]);
    }
    if (state.scale >= 26) { plain.forEach(drawNumber); }
    pen.globalAlpha = 1;
  }

  // Writes a text round a point of the map, so many pixels high.
  function write(text, x, y, weight, pixels, colour) {
    pen.setTransform(ratio(), 0, 0, ratio(), 0, 0);
    Object.assign(pen, { font: weight + ' ' + pixels + 'px system-ui, sans-serif', textAlign: 'center', textBaseline: 'middle', fillStyle: colour });
    pen.fillText(text, (x - state.left) * state.scale, (y - state.top) * state.scale);
    useCells(pen);
  }

  // The agent's number on its body.
  function drawNumber(one) {
    const colour = state.look['t' + (one.agent.number % COLOURS)];
    write(String(one.agent.number), one.spot[0] + 0.5, one.spot[1] + 0.53, 600, Math.max(12, 0.36 * state.scale), colour);
  }

  // A thin line from each agent that rests away from its goal to that goal.
  function drawLacks(seen) {
    pen.beginPath();
    for (const one of seen) {
      const costs = report.costs.get(one.agent.number);
      if (!costs.finished && state.step >= costs.settle && state.kinds.has('unfinished')) {
        traceLine(pen, [one.spot, one.agent.goal].map((place) => [place[0] + 0.5, place[1] + 0.5]));
      }
    }
    pen.setLineDash([sizeOf(4, 0), sizeOf(4, 0)]);
    stroke(pen, state.look.mark, 1.5, 0);
    pen.setLineDash([]);
  }

  // The path, start and goal of a marked agent.
  function drawCourse(agent) {
    const size = sizeOf(4, 0.26);
    pen.lineCap = 'round';
    pen.lineJoin = 'round';
    pen.beginPath();
    tracePath(pen, agent);
    stroke(pen, colourOf(agent), 2, agent === state.picked ? 0.14 : 0.05);
    pen.beginPath();
    traceDot(placeOf(agent, 0), size);
    pen.rect(agent.goal[0] + 0.5 - size, agent.goal[1] + 0.5 - size, 2 * size, 2 * size);
    fill(state.look.floor);
    stroke(pen, colourOf(agent), 2.5, 0.12);
  }

  // A marked agent's body, with a ring round it.
  function drawMarked(one) {
    pen.beginPath();
    traceBody(one.spot);
    fill(colourOf(one.agent));
    pen.beginPath();
    traceDot(one.spot, sizeOf(10, 0.74));
    stroke(pen, state.look.ink, 2.5, 0.08);
  }

  // The number of a marked agent beside it, above those of others that are there.
  function drawTag(one, index, marked) {
    const isNear = (other) => Math.abs(other.spot[0] - one.spot[0]) < 1 && Math.abs(other.spot[1] - one.spot[1]) < 1;
    const above = marked.slice(0, index).filter(isNear).length;
    const size = sizeOf(13, 0.3);
    const text = String(one.agent.number);
    const across = (text.length * 0.62 + 0.5) * size;
    const x = one.spot[0] + 0.5 + sizeOf(9, 0.55);
    const y = one.spot[1] + 0.5 - sizeOf(8, 0.45) - above * size * 1.4;
    pen.beginPath();
    pen.rect(x, y - size * 0.65, across, size * 1.3);
    fill(state.look.panel);
    stroke(pen, colourOf(one.agent), 2, 0);
    write(text, x + across / 2, y, 700, size * state.scale, state.look.ink);
  }

  // The middle of a finding's cells.
  function middleOf(finding) {
    const many = finding.cells.length;
    return [0, 1].map((side) => finding.cells.reduce((sum, cell) => sum + cell[side], 0) / many + 0.5);
  }

  // The lines of the signs that have straight ones, round their middle; each line is a list of corners.
  const SIGNS = {
    parked: [[[-0.9, -0.9], [0.9, -0.9], [0.9, 0.9], [-0.9, 0.9], [-0.9, -0.9]]],
    follow: [[[0, -1], [0.9, 0.7], [-0.9, 0.7], [0, -1]]],
    visit: [[[-0.8, -0.8], [0.8, 0.8]], [[0.8, -0.8], [-0.8, 0.8]]],
    edge: [[[-1, -0.45], [1, -0.45]], [[-1, 0.45], [1, 0.45]]],
    swap: [[[1, -0.45], [-1, -0.45], [-0.6, -0.85]], [[-1, 0.45], [1, 0.45], [0.6, 0.85]]],
  };

  // The sign of a finding: a ring of a vertex, a polygon through the cells of a cycle, and else its
  // lines, which lie along the step where there is one.
  function traceSign(finding, size) {
    const middle = middleOf(finding);
    if (finding.kind === 'vertex') {
      traceDot([middle[0] - 0.5, middle[1] - 0.5], size);
    } else if (finding.kind === 'cycle') {
      traceLine(pen, finding.cells.concat(finding.cells.slice(0, 1)).map((cell) => [cell[0] + 0.5, cell[1] + 0.5]));
    } else {
      const stands = finding.cells.length > 1 && finding.cells[0][0] === finding.cells[1][0];
      const at = (corner) => [middle[0] + size * corner[stands ? 1 : 0], middle[1] + size * corner[stands ? 0 : 1]];
      SIGNS[finding.kind].forEach((corners) => traceLine(pen, corners.map(at)));
    }
  }

  // The signs of what is lit: those that count in the colour of faults, all on a pale ground.
  function drawSigns(lit) {
    for (const finding of lit) {
      const middle = middleOf(finding);
      if (isInSight([middle[0] - 0.5, middle[1] - 0.5])) {
        pen.beginPath();
        traceSign(finding, sizeOf(7, 0.56));
        stroke(pen, state.look.floor, 5, 0.2);
        stroke(pen, doesCount(finding.kind) ? state.look.mark : state.look.other, 2.5, 0.11);
      }
    }
  }

  // A frame round the cells of the line that is chosen, at all times.
  function drawChosen() {
    const middle = middleOf(state.chosen);
    const size = sizeOf(13, 0.85);
    pen.beginPath();
    pen.rect(middle[0] - size, middle[1] - size, 2 * size, 2 * size);
    stroke(pen, state.look.focus, 3, 0.09);
  }

  // One frame.
  function draw() {
    if (state.isStale) { paintBackdrop(); }
    pen.setTransform(1, 0, 0, 1, 0, 0);
    pen.drawImage(backdrop, 0, 0);
    useCells(pen);
    const seen = thoseInSight(scene.agents);
    drawLacks(seen);
    drawBodies(seen);
    scene.agents.filter(isMarked).forEach(drawCourse);
    const marked = seen.filter((one) => isMarked(one.agent));
    marked.forEach(drawMarked);
    drawSigns(litNow());
    if (state.chosen !== null) { drawChosen(); }
    marked.forEach(drawTag);
    state.frames += 1;
    for (const name of ['frames', 'scale', 'left', 'top']) { canvas.dataset[name] = state[name]; }
  }

  function redraw() {
    if (!state.isDue) { requestAnimationFrame(tick); }
    state.isDue = true;
  }

  // ---- Time ----

  function tick(moment) {
    state.isDue = false;
    if (state.playing) {
      advance(Math.min(moment - state.before, 250) / 1000);
      state.before = moment;
    }
    draw();
    if (state.playing) { redraw(); }
  }

  // Plays on by some seconds; where it loops, the end is seen before the start.
  function advance(seconds) {
    showTime(state.loop && state.now >= horizon ? 0 : state.now + seconds * state.speed);
    if (state.now >= horizon && !state.loop) { setPlaying(false); }
  }

  function setPlaying(playing) {
    if (playing && state.now >= horizon) { showTime(0); }
    state.playing = playing && horizon > 0;
    state.before = performance.now();
    const button = Object.assign(element('play'), { textContent: state.playing ? '\u275a\u275a pause' : '\u25b6 play' });
    button.setAttribute('aria-label', state.playing ? 'Pause' : 'Play');
    button.setAttribute('aria-pressed', String(state.playing));
    if (!state.playing) { tellStep(true); }
    redraw();
  }

  // Goes to a moment, which may lie between two steps.
  function showTime(now) {
    state.now = Math.min(Math.max(now, 0), horizon);
    const step = Math.floor(state.now);
    if (step !== state.step) {
      state.step = step;
      tellStep(false);
    }
  }

  // Goes to a step, and stays there.
  function goTo(step) {
    if (state.playing) { setPlaying(false); }
    state.now = Math.min(Math.max(Math.floor(step), 0), horizon);
    state.step = state.now;
    tellStep(true);
    redraw();
  }

  // Tells of the present step. While it plays, what is lit is told five times a second at most.
  function tellStep(always) {
    element('time').textContent = String(state.step);
    const slider = element('slider');
    slider.value = String(state.step);
    slider.setAttribute('aria-valuetext', 'time ' + state.step + ' of ' + horizon);
    const moment = performance.now();
    if (always || moment - state.toldAt > 200) {
      state.toldAt = moment;
      tellLit();
      tellPicked();
      tellRows();
    }
  }

  function tellLit() {
    const lit = litNow();
    element('lit-count').textContent = lit.length === 0 ? 'nothing' : String(lit.length);
    const lines = lit.slice(0, MOST_LIT).map((finding) => finding.line);
    if (lit.length > MOST_LIT) { lines.push('.. and ' + (lit.length - MOST_LIT) + ' more'); }
    element('lit').replaceChildren(...lines.map((line) => make('li', {}, line)));
  }

  // ---- The list ----

  function filterList() {
    state.listed = report.findings.filter(isListed);
    element('listed').textContent = state.listed.length + ' of ' + report.findings.length;
    element('rows').style.height = state.listed.length * ROW + 'px';
    tellRows();
    redraw();
  }

  function rowText(finding) {
    const cells = finding.cells.map((cell) => cell.join(','));
    return finding.agents.join(' ') + '  at ' + (finding.kind === 'cycle' ? cells[0] : cells.join(' '));
  }

  function rowOf(finding, index) {
    const fields = { id: 'row-' + index, title: finding.line, style: 'top:' + index * ROW + 'px', onclick: () => chooseFinding(finding) };
    const row = make('div', fields, make('i', {}, 't ' + finding.time), make('i', {}, NAMES[finding.kind] || finding.kind), rowText(finding));
    const told = { role: 'option', 'aria-posinset': index + 1, 'aria-setsize': state.listed.length };
    Object.entries(told).forEach((pair) => row.setAttribute(...pair));
    return row;
  }

  function markRow(row, finding) {
    const isNow = finding.time === state.step && finding.kind !== 'unfinished';
    row.className = 'row' + (isNow ? ' now' : '') + (finding === state.chosen ? ' chosen' : '');
    row.setAttribute('aria-selected', finding === state.chosen);
  }

  // The rows of the list that are in sight, made anew where they aren't those of before.
  function tellRows() {
    const list = element('list');
    const from = Math.max(0, Math.floor(list.scrollTop / ROW) - 4);
    const shown = state.listed.slice(from, from + Math.ceil(list.clientHeight / ROW) + 8);
    if (state.rows.from !== from || state.rows.many !== state.listed.length || shown.some((it, at) => it !== state.rows.shown[at])) {
      state.rows = { from, shown, many: state.listed.length };
      element('rows').replaceChildren(...shown.map((finding, index) => rowOf(finding, from + index)));
    }
    shown.forEach((finding, index) => markRow(element('rows').children[index], finding));
    const at = shown.indexOf(state.chosen);
    list.setAttribute('aria-activedescendant', at < 0 ? '' : 'row-' + (from + at));
  }

  // Goes to the finding's time and cell, and marks who is in it.
  function chooseFinding(finding) {
    state.chosen = finding;
    goTo(finding.time);
    centreOn(...middleOf(finding));
    showRow(state.listed.indexOf(finding));
    tellChosen();
  }

  function tellChosen() {
    const chosen = state.chosen;
    element('chosen').textContent = chosen === null ? '' : 'marked at time ' + chosen.time + ': ' + chosen.agents.map((it) => 'agent ' + it).join(', ');
  }

  // Scrolls the list where the row isn't in sight.
  function showRow(index) {
    const list = element('list');
    list.scrollTop = Math.min(Math.max(list.scrollTop, (index + 1) * ROW - list.clientHeight), Math.max(index, 0) * ROW);
    tellRows();
  }

  // Chooses the line that is so many lines behind the chosen one; where none is, the first from now on.
  function chooseNext(many) {
    if (state.listed.length === 0) { return; }
    const at = state.chosen === null ? -1 : state.listed.indexOf(state.chosen);
    const first = state.listed.findIndex((finding) => finding.time >= state.step);
    const wanted = at < 0 ? Math.max(first, 0) : at + many;
    chooseFinding(state.listed[Math.min(Math.max(wanted, 0), state.listed.length - 1)]);
  }

  // Shows one agent and what it meets; with none, all.
  function pickAgent(agent) {
    state.picked = agent;
    state.chosen = null;
    element('agent').value = agent === null ? '' : String(agent.number);
    tellPicked();
    tellChosen();
    filterList();
    turnStale();
  }

  function given(number) { return number === null ? 'none' : String(number); }

  function pickedText(agent) {
    const costs = report.costs.get(agent.number);
    const here = placeOf(agent, state.step);
    return 'agent ' + agent.number + (here === null ? ' has left' : ' is at ' + here.join(',')) + ' at time ' + state.step
      + '\nfrom ' + placeOf(agent, 0).join(',') + ' to its goal ' + agent.goal.join(',') + (costs.finished ? '' : ', which it misses')
      + '\nsettles at ' + costs.settle + ', bound ' + given(costs.bound) + ', gap ' + given(costs.gap);
  }

  function tellPicked() {
    element('picked').textContent = state.picked === null ? 'Click an agent, or give its number.' : pickedText(state.picked);
  }

  // The agent nearest to a point of the canvas, if one is near.
  function agentAt(x, y) {
    const far = (one) => Math.hypot(one.spot[0] + 0.5 - x / state.scale - state.left, one.spot[1] + 0.5 - y / state.scale - state.top);
    const near = thoseInSight(scene.agents).filter((one) => far(one) < Math.max(0.5, 9 / state.scale));
    near.sort((one, other) => far(one) - far(other));
    return near.length === 0 ? null : near[0].agent;
  }

  // ---- What a person does ----

  // Where the pointer is on the canvas.
  function pointOf(event) {
    const box = canvas.getBoundingClientRect();
    return [event.clientX - box.left, event.clientY - box.top];
  }

  // Tells the cell under the pointer, and the agent there.
  function tellHover(event) {
    const point = pointOf(event);
    const x = Math.floor(point[0] / state.scale + state.left);
    const y = Math.floor(point[1] / state.scale + state.top);
    const agent = agentAt(...point);
    const isOn = x >= 0 && y >= 0 && x < scene.width && y < scene.height;
    element('under').textContent = isOn ? x + ',' + y + (agent === null ? '' : '  agent ' + agent.number) : '';
  }

  // A drag moves the map, and a click picks an agent.
  function listenToPointers() {
    let held = null;
    let moved = 0;
    canvas.addEventListener('pointerdown', function hold(event) {
      held = pointOf(event);
      moved = 0;
      canvas.setPointerCapture(event.pointerId);
    });
    canvas.addEventListener('pointermove', function drag(event) {
      const point = pointOf(event);
      if (held === null) { return tellHover(event); }
      moved += Math.hypot(point[0] - held[0], point[1] - held[1]);
      canvas.classList.toggle('dragged', moved > 4);
      if (moved > 4) { moveBy(held[0] - point[0], held[1] - point[1]); }
      held = point;
      return undefined;
    });
    function release(event) {
      if (held !== null && event.type === 'pointerup' && moved <= 4) { pickAgent(agentAt(...pointOf(event))); }
      held = null;
      canvas.classList.remove('dragged');
    }
    canvas.addEventListener('pointerup', release);
    canvas.addEventListener('pointercancel', release);
    canvas.addEventListener('pointerleave', () => { element('under').textContent = ''; });
  }

  function listenToWheel() {
    canvas.addEventListener('wheel', function roll(event) {
      event.preventDefault();
      const lines = event.deltaMode === 1 ? event.deltaY * 30 : event.deltaY;
      zoomBy(Math.exp(-Math.min(Math.max(lines, -300), 300) / 400), ...pointOf(event));
    }, { passive: false });
  }

  function zoomAtMiddle(factor) { zoomBy(factor, canvas.clientWidth / 2, canvas.clientHeight / 2); }

  const KEYS = {
    ' ': () => setPlaying(!state.playing),
    ArrowLeft: () => goTo(state.step - 1),
    ArrowRight: () => goTo(state.step + 1),
    Home: () => goTo(0),
    End: () => goTo(horizon),
    '+': () => zoomAtMiddle(1.4),
    '-': () => zoomAtMiddle(1 / 1.4),
    0: fitMap,
    n: () => chooseNext(1),
    p: () => chooseNext(-1),
    l: () => element('loop').click(),
    Escape: () => pickAgent(null),
  };

  const MOVES = { ArrowLeft: [-60, 0], ArrowRight: [60, 0], ArrowUp: [0, -60], ArrowDown: [0, 60] };

  // Whether the key is for the part of the page that has the focus.
  function isTaken(target, key) {
    if (target.id === 'list') { return key === 'Home' || key === 'End'; }
    if (target.tagName === 'INPUT' && target.type !== 'checkbox') {
      return key !== 'Escape' && (target.type === 'number' || key !== ' ');
    }
    return target.tagName === 'SELECT' || (key === ' ' && ['BUTTON', 'INPUT', 'SUMMARY'].includes(target.tagName));
  }

  function obeyKey(event) {
    const move = event.shiftKey ? MOVES[event.key] : undefined;
    const isKnown = move !== undefined || Object.keys(KEYS).includes(event.key);
    if (isKnown && !event.ctrlKey && !event.metaKey && !event.altKey && !isTaken(event.target, event.key)) {
      event.preventDefault();
      (move === undefined ? KEYS[event.key] : moveBy)(...(move || []));
    }
  }

  // The number in a field; none where it is empty.
  function fieldOf(id) { return element(id).value === '' ? null : Number(element(id).value); }

  // Does it where the field's value changes.
  function onChange(id, act) { ['input', 'change'].forEach((kind) => element(id).addEventListener(kind, act)); }

  function pickByNumber() {
    const number = fieldOf('agent');
    const agent = number === null ? null : scene.byNumber.get(number);
    if (agent !== undefined) { return pickAgent(agent); }
    element('picked').textContent = 'There is no agent ' + number + '.';
    return undefined;
  }

  function filterByTime() {
    Object.assign(state, { from: fieldOf('from'), to: fieldOf('to') });
    filterList();
  }

  function listenToFields() {
    onChange('slider', () => goTo(Number(element('slider').value)));
    onChange('speed', () => { state.speed = Number(element('speed').value); });
    onChange('loop', () => { state.loop = element('loop').checked; });
    onChange('paths', () => { state.allPaths = element('paths').checked; turnStale(); });
    onChange('agent', pickByNumber);
    onChange('from', filterByTime);
    onChange('to', filterByTime);
  }

  function listenToList() {
    const list = element('list');
    list.addEventListener('scroll', tellRows);
    list.addEventListener('keydown', function walk(event) {
      const many = { ArrowDown: 1, ArrowUp: -1, PageDown: 8, PageUp: -8, Home: -Infinity, End: Infinity }[event.key];
      if (many !== undefined) {
        chooseNext(many);
        event.preventDefault();
      }
    });
  }

  // The key that does what a button does.
  const BUTTONS = {
    play: ' ', back: 'ArrowLeft', forth: 'ArrowRight', first: 'Home', last: 'End', closer: '+', wider: '-', fit: '0', nobody: 'Escape',
  };

  function listen() {
    Object.keys(BUTTONS).forEach((id) => element(id).addEventListener('click', () => KEYS[BUTTONS[id]]()));
    listenToFields();
    listenToList();
    listenToPointers();
    listenToWheel();
    document.addEventListener('keydown', obeyKey);
    new ResizeObserver(fitCanvas).observe(canvas);
    window.matchMedia('(prefers-color-scheme: dark)').addEventListener('change', readLook);
  }

  // ---- The beginning ----

  function tellVerdict() {
    const solves = doesSolve();
    const verdict = element('verdict');
    verdict.className = solves ? 'good' : 'bad';
    verdict.textContent = (solves ? '\u2713 solves' : '\u2717 does not solve') + ' (' + report.asked.join(', ') + ')';
    element('title').textContent = document.title;
    element('about').textContent = scene.agents.length + ' agents, ' + scene.width + ' x ' + scene.height + ' cells, mode ' + scene.mode;
    element('horizon').textContent = 'of ' + horizon;
  }

  function tellCosts() {
    const rows = [['sum of costs', 'sum'], ['makespan', 'makespan'], ['sum of bounds', 'bounds'], ['gap', 'gap']];
    element('costs').tBodies[0].replaceChildren(...rows.map((row) => make('tr', {},
      make('th', { scope: 'row' }, row[0]), make('td', { id: 'total-' + row[1] }, given(report.totals.get(row[1]))))));
  }

  // A box for each kind, with how many there are; those that count stand out where there are some.
  function tellKinds() {
    for (const kind of SHOWN) {
      const box = make('input', { type: 'checkbox', id: 'kind-' + kind, checked: state.kinds.has(kind) });
      box.addEventListener('change', () => {
        state.kinds[box.checked ? 'add' : 'delete'](kind);
        tellLit();
        filterList();
      });
      const style = doesCount(kind) && countOf(kind) > 0 ? 'counts' : '';
      element('kinds').append(make('label', {}, box, NAMES[kind] || kind, make('b', { id: 'count-' + kind, className: style }, String(countOf(kind)))));
    }
  }

  function begin() {
    element('slider').max = String(horizon);
    element('agent').max = String(scene.agents.reduce((number, agent) => Math.max(number, agent.number), 0));
    [tellVerdict, tellCosts, tellKinds, listen, readLook, fitCanvas].forEach((act) => act());
    pickAgent(null);
    tellStep(true);
  }

  begin();
}());
