  // ---- Live: what live.py tells of a host is shown as it changes. This stands within page/page.js, before its last call ----

  // The pieces of the two texts, each a node of its own, in their order: what stands before the map's rows, these, and each agent's two
  // lines; the lines of the report.
  const pieces = { scene: [], report: [] };
  // What the lines of the report find; how much of the places of the scene's paths is taken.
  const found = new Map();
  let taken = 0;

  function textOf(piece) { return piece.data.slice(0, -1); }
  function isAgent(piece) { return piece.startsWith('agent '); }
  function agentOf(piece) { return parseInt(piece.slice('agent '.length), 10); }

  // Takes out the pieces at those places, and puts in those that came, each at its place behind that. Answers those that went.
  function keepUp(name, gone, came) {
    const went = new Set(gone.map((at) => pieces[name][at]));
    went.forEach((piece) => piece.remove());
    pieces[name] = pieces[name].filter((piece) => !went.has(piece));
    for (const [at, text] of came) {
      const piece = new Text(text + '\n');
      element(name).insertBefore(piece, pieces[name][at] || null);
      pieces[name].splice(at, 0, piece);
    }
    return Array.from(went, textOf);
  }

  // Reads the whole scene, and leaves room for paths that come.
  function readWhole() {
    Object.assign(scene, readScene(element('scene')));
    taken = scene.places.length;
    const places = new Int32Array(2 * taken + 65536);
    places.set(scene.places);
    scene.places = places;
    readLook();
  }

  // Takes a row of the map, and paints those of its cells that are others.
  function takeRow(y, row) {
    const brush = state.ground.getContext('2d');
    for (let x = 0; x < scene.width; x += 1) {
      if (row[x] !== scene.rows[y][x]) {
        brush.fillStyle = state.look[row[x] === '.' ? 'floor' : 'wall'];
        brush.fillRect(x, y, 1, 1);
      }
    }
    scene.rows[y] = row;
  }

  // Takes rows and agents that came into the scene, and out those that went. Answers the agents that came.
  function takeScene(went, came) {
    const lines = came.map((one) => one[1]).filter(isAgent);
    const read = readAgents(lines.map((piece) => piece + '\n').join(''), 0, scene.mode === 'disappear');
    if (taken + read.places.length > scene.places.length || came.some(([at]) => at === 0)) {
      readWhole();
      return lines.map(agentOf);
    }
    went.filter(isAgent).forEach((piece) => scene.byNumber.delete(agentOf(piece)));
    came.filter((one) => !isAgent(one[1])).forEach(([at, row]) => takeRow(at - 1, row));
    scene.places.set(read.places, taken);
    read.agents.forEach((agent) => scene.byNumber.set(agent.number, Object.assign(agent, { from: agent.from + taken })));
    taken += read.places.length;
    scene.agents = Array.from(scene.byNumber.values()).sort((one, other) => one.number - other.number);
    return lines.map(agentOf);
  }

  // Whether the finding's cells, which its line doesn't name, may be others, since its agents have moved.
  function isElsewhere(finding, moved) {
    return (finding.kind === 'cycle' || finding.kind === 'unfinished') && finding.agents.some((number) => moved.has(number));
  }

  // Takes what the lines find that came into the report, and out what those found that went.
  function takeReport(went, came, moved) {
    went.forEach((line) => found.delete(line));
    went.filter(isAgent).forEach((line) => report.costs.delete(agentOf(line)));
    const lines = came.map((one) => one[1]);
    for (const finding of found.values()) {
      if (isElsewhere(finding, moved)) { lines.push(finding.line); }
    }
    const read = readReport({ dataset: element('report').dataset, textContent: lines.join('\n') });
    ['costs', 'totals'].forEach((name) => read[name].forEach((value, key) => report[name].set(key, value)));
    read.findings.forEach((finding) => found.set(finding.line, finding));
  }

  // What the report finds, in order of time, those of one time in the report's.
  function listFindings() {
    report.findings = pieces.report.map((piece) => found.get(textOf(piece))).filter((finding) => finding !== undefined);
    report.findings.sort((one, other) => one.time - other.time);
    report.counts.clear();
    report.findings.forEach(({ kind }) => report.counts.set(kind, countOf(kind) + 1));
    byTime.clear();
    findingsByTime(report.findings).forEach((findings, time) => byTime.set(time, findings));
    horizon = scene.agents.reduce((most, agent) => Math.max(most, agent.last), 0);
  }

  // What was picked and marked before, as it is now.
  function findAgain() {
    const { picked, chosen } = state;
    if (picked !== null && !scene.byNumber.has(picked.number)) { pickAgent(null); }
    state.picked = picked === null ? null : scene.byNumber.get(picked.number) || null;
    state.chosen = chosen === null ? null : report.findings.find((finding) => finding.line === chosen.line) || null;
  }

  function tellCounts() {
    for (const kind of SHOWN) {
      const className = doesCount(kind) && countOf(kind) > 0 ? 'counts' : '';
      Object.assign(element('count-' + kind), { textContent: String(countOf(kind)), className });
    }
  }

  // Shows the two texts again. The time, the view, what is picked, marked and filtered stay.
  function showAgain() {
    listFindings();
    findAgain();
    element('slider').max = String(horizon);
    element('agent').max = String(scene.agents.reduce((number, agent) => Math.max(number, agent.number), 0));
    showTime(state.now);
    [tellVerdict, tellCosts, tellCounts, tellChosen, filterList, turnStale].forEach((act) => act());
    tellStep(true);
  }

  const told = make('p', { id: 'live' }, 'live');
  let version = null;

  // Tells why the page stays as it is.
  function tellEnd(why) {
    told.setAttribute('role', 'alert');
    told.style.color = 'var(--bad)';
    told.textContent = '\u25a0 ' + why + (version === null ? '' : ', at version ' + version);
  }

  function show(news) {
    if (news.version !== null) {
      version = news.version;
      showAgain();
      told.textContent = '\u25cf live, version ' + version;
    }
    if (news.over !== null) { tellEnd(news.over); }
  }

  function take(news) {
    if (news.whole) {
      Object.keys(pieces).forEach((name) => {
        pieces[name] = [];
        element(name).replaceChildren();
      });
      [found, report.costs, report.totals].forEach((it) => it.clear());
    }
    const [scenes, lines] = ['scene', 'report'].map((name) => keepUp(name, ...news[name]));
    const moved = new Set(takeScene(scenes, news.scene[1]));
    takeReport(lines, news.report[1], moved);
  }

  // News that aren't shown yet: all that are there by then are taken in at once.
  const waiting = [];

  function showWaiting() {
    const all = waiting.splice(0);
    all.filter((news) => news.version !== null).forEach(take);
    show(all[all.length - 1]);
  }

  function hear(news) {
    if (waiting.length === 0) { setTimeout(showWaiting, 0); }
    waiting.push(news);
  }

  function listenToHost() {
    const source = new EventSource('/changes');
    source.onopen = () => {
      told.removeAttribute('role');
      told.style.color = 'var(--good)';
    };
    source.onmessage = (message) => {
      const news = JSON.parse(message.data);
      hear(news);
      if (news.over !== null) { source.close(); }
    };
    source.onerror = () => tellEnd('live.py doesn\u2019t answer');
    element('verdict').after(told);
  }

  listenToHost();

