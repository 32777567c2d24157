// Some steps of a run, to walk forwards and backwards. Nothing is executed: what a step was and what it left came with
// the page, and memory is what the journal's records put back.
'use strict';
(() => {
  const data = JSON.parse(document.getElementById('data').textContent);
  const bytes = (text) => Uint8Array.from(atob(text), (c) => c.charCodeAt(0));
  const get = (id) => document.getElementById(id);
  const hex = (value, digits) => value.toString(16).toUpperCase().padStart(digits, '0');
  const many = data.steps.length;
  const records = new Uint8Array(64 * many + 32);
  records.set(bytes(data.journal));
  records.set(bytes(data.close), 64 * many);
  const word = (from, at) => from[at] | from[at + 1] << 8;
  const record = (i) => records.subarray(64 * i, 64 * i + 32);
  const count = (i) => word(record(i), 22) + 65536 * word(record(i), 24);
  const first = count(0);

  // ---- memory: put back by the records, newest first, and what each step left, for the way forwards
  const memory = new Uint8Array(65536);
  for (const [at, text] of data.memory) memory.set(bytes(text), at);
  const place = (i) => word(records, 64 * i + 48);
  const left = new Uint8Array(24 * many);
  const undo = (i) => {
    memory.set(records.subarray(64 * i + 32, 64 * i + 48));
    for (let k = 0; k < 8; k++) memory[place(i) + k & 0xFFFF] = records[64 * i + 50 + k];
  };
  const redo = (i) => {
    for (let k = 0; k < 8; k++) memory[place(i) + k & 0xFFFF] = left[24 * i + 16 + k];
    memory.set(left.subarray(24 * i, 24 * i + 16));
  };
  let now = many; // steps of the walk that are done
  const move = (to) => {
    while (now > to) undo(--now);
    while (now < to) redo(now++);
  };
  for (let i = many - 1; i >= 0; i--) {
    left.set(memory.subarray(0, 16), 24 * i);
    for (let k = 0; k < 8; k++) left[24 * i + 16 + k] = memory[place(i) + k & 0xFFFF];
    undo(i);
  }
  now = 0;
  const toDevice = (i) => data.steps[i].length > 3; // a store to device bytes, from the fourth number on
  const covers = (i, at) => (at - (toDevice(i) ? data.steps[i][3] : place(i)) & 0xFFFF) < data.steps[i][1];
  const deviceWritten = (i, at) => records[64 * i + 32 + at] !== left[24 * i + at] || (toDevice(i) && covers(i, at));
  const wrote = (i, at) => covers(i, at) || (at < 16 && deviceWritten(i, at));

  // What a step left, PC aside: registers, bytes stored or pushed, device bytes that are others than before, or were stored.
  const names = ['R0', 'R1', 'R2', 'R3', 'R4', 'LR', 'SP', '', 'PSW', 'CEX'];
  const leftBy = (i) => {
    const parts = [];
    names.forEach((name, k) => {
      const value = word(record(i + 1), 2 * k);
      if (name && value !== word(record(i), 2 * k)) parts.push(name + ' ' + hex(value, name === 'CEX' ? 2 : 4));
    });
    const stored = data.steps[i][1];
    const there = [...left.subarray(24 * i + 16, 24 * i + 16 + stored)];
    if (stored > 0 && !toDevice(i)) parts.push(hex(place(i), 4) + ':' + there.map((b) => ' ' + hex(b, 2)).join(''));
    for (let k = 0; k < 16; k++)
      if (deviceWritten(i, k))
        parts.push('device ' + (k >> 1) + (k & 1 ? ' data ' : ' status ') + hex(left[24 * i + k], 2));
    return parts.join(', ');
  };

  // ---- parts of the page
  const row = (cells, kind) => {
    const tr = document.createElement('tr');
    if (kind) tr.className = kind;
    for (const [text, kind] of cells) {
      const td = document.createElement('td');
      td.textContent = text;
      if (kind) td.className = kind;
      tr.append(td);
    }
    return tr;
  };
  const psw = (p) => {
    const flags = [[16, 'V'], [8, 'SLP'], [4, 'N'], [2, 'Z'], [1, 'C'], [256, 'FLT']].filter(([bit]) => p & bit);
    return 'priority ' + (p >> 5 & 7) + ', previous ' + (p >> 13) + ', flags: ' +
      (flags.map(([, name]) => name).join(' ') || 'none');
  };
  const cex = (x) => x === 0 ? 'clear' : 'true count ' + (x >> 3 & 7) + ', false count ' + (x & 7) + ', condition ' +
    (x & 64 ? 'held' : 'not held');
  const lines = (r) => [7, 6, 5, 4, 3, 2, 1, 0].map((d) => hex(r[26 + (d >> 1)] >> 4 * (d & 1) & 15, 1)).join('');
  const fields = (r) => [...['R0', 'R1', 'R2', 'R3', 'R4', 'LR', 'SP', 'PC'].map((name, i) => [name, hex(word(r, 2 * i), 4), '']),
    ['PSW', hex(word(r, 16), 4), psw(word(r, 16))], ['CEX', hex(r[18], 2), cex(r[18])], ['lines', lines(r), 'device 7 first']];

  const showRegisters = () => {
    const after = fields(record(now));
    const before = fields(record(now > 0 ? now - 1 : 0));
    get('registers').replaceChildren(...after.map(([name, value, says], i) => {
      const other = before[i][1] !== value;
      return row([[name], [value, 'n'], [other ? 'was ' + before[i][1] : '', 'n'], [says]], other ? 'changed' : '');
    }));
  };

  // The frames that are open, the oldest first, by the words that each has on the stack.
  const frames = () => {
    const open = [];
    for (let f = now > 0 ? data.steps[now - 1][2] : 0; f; f = data.frames[f][0]) open.unshift(data.frames[f]);
    return open;
  };
  const stackRow = (at, sp, places, written) => {
    const mark = at === (sp & 0xFFFE) ? 'SP' : '';
    const kind = (places.has(at) ? 'frame' : '') + (written(at) || written(at + 1) ? ' changed' : '');
    return row([[mark], [hex(at, 4), 'n'], [hex(word(memory, at), 4), 'n'], [places.get(at) || '']], kind.trim());
  };
  const showStack = () => {
    const sp = word(record(now), 12);
    const open = frames();
    const places = new Map();
    open.forEach(([, at, step, text], number) => ['CEX', 'PSW', 'LR', 'PC'].forEach((name, i) => places.set(at + 2 * i & 0xFFFE,
      name + (i === 0 ? ' of frame ' + (number + 1) + ': ' + text + ', step ' + (first + step) : ' of frame ' + (number + 1)))));
    const up = open.map(([, at]) => (at - sp & 0xFFFF) / 2 + 6).filter((k) => k <= 40);
    const rows = [];
    for (let i = -2; i < Math.max(8, ...up); i++)
      rows.push(stackRow(sp + 2 * i & 0xFFFE, sp, places, (at) => now > 0 && wrote(now - 1, at & 0xFFFF)));
    get('stack').replaceChildren(...rows);
    get('frames').textContent = 'Frames open, of those that these steps opened: ' + open.length + '.';
  };

  const showScreen = () => {
    let text = data.shown > 0 ? '(' + data.shown + ' bytes before)\n' : '';
    const all = [...bytes(data.screen), ...data.log.filter(([step]) => step < now).map(([, , byte]) => byte)];
    const plain = (byte) => byte === 9 || byte === 10 || (byte > 31 && byte < 127 && byte !== 92);
    for (const byte of all) text += plain(byte) ? String.fromCharCode(byte) : '\\x' + hex(byte, 2);
    get('screen').textContent = text;
  };

  const showDevices = () => {
    const bits = [[16, 'ENA'], [8, 'OF'], [4, 'DBA'], [2, 'input'], [1, 'IE']];
    const rows = [];
    for (let d = 0; d < 8; d++) {
      const status = memory[2 * d];
      const waiting = record(now)[26 + (d >> 1)] >> 4 * (d & 1) & 15;
      if (status === 0 && memory[2 * d + 1] === 0 && waiting === 0) continue;
      const changed = now > 0 && (wrote(now - 1, 2 * d) || wrote(now - 1, 2 * d + 1));
      rows.push(row([[d], [hex(status, 2), 'n'], [bits.filter(([bit]) => status & bit).map(([, name]) => name).join(' ')],
        [hex(memory[2 * d + 1], 2), 'n'], [waiting]], changed ? 'changed' : ''));
    }
    get('devices').replaceChildren(...rows);
  };

  let chosen = 0; // the byte that is looked at
  const showMemory = () => {
    const from = Math.min(Math.max((chosen & 0xFFF0) - 48, 0), 0xFF80);
    const pre = get('memory');
    pre.replaceChildren();
    for (let at = from; at < from + 128; at++) {
      if (at % 16 === 0) pre.append((at > from ? '\n' : '') + hex(at, 4) + ' ');
      const span = document.createElement('span');
      span.textContent = hex(memory[at], 2);
      span.dataset.at = at;
      span.className = (at === chosen ? 'chosen ' : '') + (now > 0 && wrote(now - 1, at) ? 'changed' : '');
      pre.append(' ', span);
    }
  };

  const what = (i) => data.what[data.steps[i][0]];
  const plain = (i) => what(i).replace(/^[0-9A-F]{4} /, '').replace(/ +/g, ' ');
  const pc = (i) => hex(word(record(i), 14), 4);
  const label = (i) => data.places[pc(i)] || '';
  const labelled = Object.keys(data.places).length > 0;

  // Lines of a source by address and word, from its listing on the page.
  const listed = new Map();
  for (const line of [...document.querySelectorAll('#source pre')].map((pre) => pre.textContent).join('\n').split('\n')) {
    const parts = /^([0-9A-F]{4})  ([0-9A-F]{4}) +(\d+\.  .*)$/.exec(line);
    if (parts) listed.set(parts[1] + parts[2], parts[3]);
  }
  const source = (i) => listed.get(pc(i) + what(i).slice(0, 4)) || '';
  const showAround = () => {
    const from = Math.max(0, Math.min(now - 8, many - 15));
    const rows = [];
    for (let i = from; i < Math.min(many, from + 15); i++) {
      const cells = [[first + i, 'n'], [pc(i), 'n'], [what(i), 'n pre'], [leftBy(i), 'n']];
      if (listed.size > 0) cells.push([source(i), 'n pre']);
      if (labelled) cells.push([label(i), 'n']);
      const tr = row(cells, i === now - 1 ? 'current' : '');
      tr.dataset.to = i + 1;
      rows.push(tr);
    }
    get('around').replaceChildren(...rows);
  };

  const end = data.behind === 0 ? ' The run ends here.' : ' ' + data.behind + ' more steps follow.';
  const showNow = () => {
    const text = now === 0 ? 'Before step ' + first + ', the first of these.' :
      'After step ' + (first + now - 1) + ', at $' + pc(now - 1) + (label(now - 1) && ' ' + label(now - 1)) + ': ' +
      plain(now - 1) + '. It left: ' + (leftBy(now - 1) || 'nothing but PC') + '.' + (now === many ? end : '');
    get('now').textContent = text;
    get('step').value = now === 0 ? '' : first + now - 1;
    get('slide').value = now;
    get('to_first').disabled = get('to_back').disabled = now === 0;
    get('to_last').disabled = get('to_on').disabled = now === many;
  };

  const show = () => {
    if (now > 0 && data.steps[now - 1][1] > 0 && !get('hold').checked) chosen = place(now - 1);
    showNow();
    showRegisters();
    showStack();
    showScreen();
    showDevices();
    showMemory();
    showAround();
  };
  const go = (to) => {
    get('found').textContent = '';
    move(Math.min(Math.max(to, 0), many));
    show();
  };

  // ---- who wrote this byte
  const address = () => {
    const word = get('byte').value.trim();
    const text = word.replace(/^\$/, '');
    if (/^[A-Z]/.test(word) && word in data.names) return data.names[word];
    return /^[0-9A-Fa-f]{1,4}$/.test(text) ? parseInt(text, 16) : -1;
  };
  const seek = (direction) => {
    const at = address();
    if (at < 0) {
      get('found').textContent = 'An address has one to four digits of base sixteen.' +
        (Object.keys(data.names).length > 0 ? ' Names of the source may stand for it.' : '');
      return;
    }
    const again = get('found').dataset.of === at + ' ' + now && wrote(now - 1, at);
    let i = direction < 0 ? now - (again ? 2 : 1) : now;
    while (i >= 0 && i < many && !wrote(i, at)) i += direction;
    const there = i >= 0 && i < many;
    chosen = at;
    if (there) move(i + 1);
    const held = get('hold').checked;
    get('hold').checked = true;
    show();
    get('hold').checked = held;
    get('found').textContent = there ? 'Step ' + (first + i) + ' wrote $' + hex(at, 4) + ': ' + plain(i) + '.' :
      'No step ' + (direction < 0 ? 'before, back to step ' + first + ',' : 'after, up to step ' + (first + many - 1) + ',') +
      ' wrote $' + hex(at, 4) + '.';
    get('found').dataset.of = there ? at + ' ' + now : '';
  };

  // ---- buttons and keys
  get('to_first').onclick = () => go(0);
  get('to_back').onclick = () => go(now - 1);
  get('to_on').onclick = () => go(now + 1);
  get('to_last').onclick = () => go(many);
  get('slide').oninput = () => go(Number(get('slide').value));
  get('step').onchange = () => go(/^\d+$/.test(get('step').value.trim()) ? Number(get('step').value) - first + 1 : now);
  get('writer').onclick = () => seek(-1);
  get('next_writer').onclick = () => seek(1);
  get('byte').onkeydown = (event) => { if (event.key === 'Enter') seek(event.shiftKey ? 1 : -1); };
  get('memory').onclick = (event) => {
    if (event.target.dataset.at === undefined) return;
    chosen = Number(event.target.dataset.at);
    get('byte').value = hex(chosen, 4);
    showMemory();
  };
  get('around').onclick = (event) => {
    const tr = event.target.closest('tr');
    if (tr) go(Number(tr.dataset.to));
  };
  for (const link of document.querySelectorAll('a.to_step')) {
    link.hidden = false;
    link.addEventListener('click', () => go(Number(link.dataset.step) - first + 1));
  }
  const inView = () => {
    const box = get('walk').getBoundingClientRect();
    return box.bottom > 0 && box.top < window.innerHeight;
  };
  const keys = { ArrowLeft: -1, ArrowRight: 1, Home: -2000, End: 2000 };
  document.addEventListener('keydown', (event) => {
    if (event.altKey || event.ctrlKey || event.metaKey || event.target.closest('input') || !inView()) return;
    if (event.key === 'w') get('byte').focus();
    else if (event.key in keys) go(now + keys[event.key] * (event.shiftKey ? 32 : 1));
    else return;
    event.preventDefault();
  });

  if (data.behind > 0) get('title').textContent = 'Walk through steps ' + first + ' to ' + (first + many - 1);
  get('slide').max = many;
  get('walk').hidden = false;
  move(data.at);
  show();
})();
