'use strict';

const at = id => document.getElementById(id);
const examples = JSON.parse(at('examples').textContent);
const names = ['theory', 'goals', 'proof'];

// The numbers with which the program ends.
const meanings = [
  'Done',
  'A step of the proof does not follow its rule',
  'A text does not read',
  'The words are no command',
  'A text is too long',
  'The search is stuck',
  'A limit is used up',
  'A file was not read',
  'A file was not written',
  'Out of memory',
  'A term is too large',
  'They differ',
];

// A text box. What was stored or opened is kept as bytes, until someone edits it; where it is long,
// only its beginning is shown, and it cannot be edited.
class Box {
  static shown = 300000;

  constructor(id) {
    this.area = at(id);
    this.kept = null;
    this.area.addEventListener('input', () => { this.kept = null; });
  }

  get bytes() {
    return this.kept ?? new TextEncoder().encode(this.area.value);
  }

  set bytes(bytes) {
    const long = bytes.length > Box.shown;
    const text = new TextDecoder().decode(long ? bytes.subarray(0, Box.shown) : bytes);
    this.area.value = long ? `${text}\n.. (${count(bytes.length, 'byte')} in all)` : text;
    this.area.readOnly = long;
    this.kept = bytes;
  }

  get text() {
    return new TextDecoder().decode(this.bytes);
  }

  set text(text) {
    this.bytes = new TextEncoder().encode(text);
  }
}

const boxes = Object.fromEntries(names.map(name => [name, new Box(name)]));

function count(number, word) {
  return `${number.toLocaleString('en')} ${word}${number === 1 ? '' : 's'}`;
}

// Whether the browser knows memories and tables with addresses of 64 bits.
function isAble() {
  const head = [0, 97, 115, 109, 1, 0, 0, 0];
  const sections = [4, 4, 1, 112, 4, 0, 5, 3, 1, 4, 0];
  return typeof WebAssembly === 'object' && typeof DecompressionStream === 'function'
    && typeof Worker === 'function' && WebAssembly.validate(new Uint8Array([...head, ...sections]));
}

let compiling = null;

// The program, which stands in the page packed.
function compiled() {
  compiling ??= (async () => {
    const packed = Uint8Array.from(atob(at('program').textContent), c => c.charCodeAt(0));
    const stream = new Blob([packed]).stream().pipeThrough(new DecompressionStream('gzip'));
    return WebAssembly.compile(await new Response(stream).arrayBuffer());
  })();
  return compiling;
}

const workerAddress = URL.createObjectURL(
  new Blob([at('worker').textContent], { type: 'text/javascript' }));

// The question that is being answered: its worker, its clock, and who is told of its end. A question
// that is `left` for another is not spoken of.
let asked = null;

function end(result) {
  if (!asked) return;
  asked.worker.terminate();
  clearInterval(asked.clock);
  at('stop').disabled = true;
  document.body.classList.remove('busy');
  const { tell } = asked;
  asked = null;
  tell(result);
}

// Asks the program with these words over these files: a promise of what it answers.
async function ask(words, files) {
  end({ fault: 'left' });
  const module = await compiled();
  end({ fault: 'left' });
  return new Promise(tell => {
    const worker = new Worker(workerAddress);
    const began = performance.now();
    const clock = setInterval(() => {
      say('busy', 'Running', `${((performance.now() - began) / 1000).toFixed(0)} s`);
    }, 1000);
    asked = { worker, clock, tell };
    worker.onmessage = ({ data }) => end(data);
    worker.onerror = event => end({ fault: event.message || 'the worker failed' });
    at('stop').disabled = false;
    document.body.classList.add('busy');
    worker.postMessage({ module, words: ['circ', ...words], files });
  });
}

function say(kind, text, more = '') {
  at('status').className = `status ${kind}`;
  at('status').querySelector('b').textContent = text;
  at('status').querySelector('span').textContent = more;
}

// What a fault of the browser means.
function told(fault) {
  if (fault === 'stopped') return ['Stopped'];
  const why = /stack|RangeError|out of bounds/.test(fault) ? 'its stack overflowed'
    : /memory/.test(fault) ? 'there was no memory left' : 'the browser stopped it';
  return [`No answer: ${why}`, fault];
}

function show(words, result) {
  if (result.fault) {
    say(result.fault === 'stopped' ? 'plain' : 'bad', ...told(result.fault));
    at('answer').textContent = '';
    return;
  }
  const { number, text, proof, took, memory } = result;
  const all = new TextDecoder().decode(text);
  const long = all.length > Box.shown;
  at('answer').textContent = long
    ? `${all.slice(0, Box.shown)}\n.. (${count(text.length, 'byte')} in all)` : all;
  say(number === 0 ? 'good' : 'bad', meanings[number] ?? 'Unknown',
    `status ${number}, ${took.toFixed(took < 10 ? 1 : 0)} ms, ${Math.ceil(memory / 2 ** 20)} MB`);
  if (words[0] === 'prove' && number === 0) boxes.proof.bytes = proof;
}

// The words of a button: those behind an @ name the field that has the word.
function wordsOf(button) {
  return button.dataset.words.split(' ').map(w => (w[0] === '@' ? at(w.slice(1)).value : w));
}

function limits() {
  const given = ['steps', 'derives'].flatMap(id => (at(id).value === '' ? [] : [`--${id}`, at(id).value]));
  return [...given, ...['split', 'rewrite'].filter(id => at(id).checked).map(id => `--${id}`)];
}

async function run(words) {
  say('busy', 'Running');
  at('answer').textContent = '';
  try {
    const result = await ask([...limits(), ...words], names.map(name => boxes[name].bytes));
    if (result.fault !== 'left') show(words, result);
    return result;
  } catch (fault) {
    show(words, { fault: String(fault) });
    return { fault: String(fault) };
  }
}

// The theory and the goals as the part of an address behind its #.
function fragment() {
  const given = ['theory', 'goals'].map(name => `${name}=${encodeURIComponent(boxes[name].text)}`);
  return `#${given.join('&')}`;
}

function takeFragment() {
  const given = new Map(location.hash.slice(1).split('&').map(part => {
    const [name, text = ''] = part.split('=');
    return [name, text];
  }));
  if (!given.has('theory') || !given.has('goals')) return false;
  for (const name of ['theory', 'goals']) boxes[name].text = decodeURIComponent(given.get(name));
  clear();
  at('example').value = '';
  return true;
}

async function link() {
  const address = location.href.split('#')[0] + fragment();
  let where = 'The link is copied.';
  try {
    await navigator.clipboard.writeText(address);
  } catch {
    where = 'The link stands in the address bar.';
  }
  history.replaceState(null, '', fragment());
  at('linked').textContent = where;
  setTimeout(() => { at('linked').textContent = ''; }, 4000);
}

function clear() {
  boxes.proof.text = '';
  at('answer').textContent = '';
  say('plain', '');
}

function choose() {
  const { theory, goals } = examples[at('example').value];
  boxes.theory.text = theory;
  boxes.goals.text = goals;
  end({ fault: 'left' });
  clear();
}

function save() {
  const address = URL.createObjectURL(new Blob([boxes.proof.bytes]));
  const anchor = document.createElement('a');
  anchor.href = address;
  anchor.download = 'circ.proof';
  anchor.click();
  setTimeout(() => URL.revokeObjectURL(address), 60000);
}

async function take(file, box) {
  if (file) box.bytes = new Uint8Array(await file.arrayBuffer());
}

function listen() {
  for (const button of document.querySelectorAll('[data-words]')) {
    button.addEventListener('click', () => run(wordsOf(button)));
  }
  at('stop').addEventListener('click', () => end({ fault: 'stopped' }));
  at('example').addEventListener('change', choose);
  at('link').addEventListener('click', link);
  at('save').addEventListener('click', save);
  at('open').addEventListener('click', () => at('file').click());
  at('file').addEventListener('change', async () => {
    await take(at('file').files[0], boxes.proof);
    at('file').value = '';
  });
  addEventListener('hashchange', takeFragment);
  addEventListener('keydown', event => {
    if (event.key === 'Escape') end({ fault: 'stopped' });
    if (event.key === 'Enter' && (event.ctrlKey || event.metaKey)) {
      event.preventDefault();
      run(['prove', ...names]);
    }
  });
  listenToDrops();
}

// A file is taken by the box that it is dropped on, and anywhere else as the proof.
function listenToDrops() {
  const boxOf = event => event.target.closest?.('[data-box]');
  const mark = event => {
    for (const box of document.querySelectorAll('.over')) box.classList.remove('over');
    if (event.type === 'dragover') boxOf(event)?.classList.add('over');
  };
  addEventListener('dragover', event => {
    if (!event.dataTransfer.types.includes('Files')) return;
    event.preventDefault();
    mark(event);
  });
  addEventListener('dragleave', mark);
  addEventListener('drop', event => {
    if (!event.dataTransfer.files.length) return;
    event.preventDefault();
    mark(event);
    take(event.dataTransfer.files[0], boxes[boxOf(event)?.dataset.box ?? 'proof']);
  });
}

function refuse() {
  at('unable').hidden = false;
  at('unable').textContent = 'This browser cannot run the program: it needs WebAssembly with '
    + 'memories of 64 bits (memory64), as Chromium has from version 133 and Firefox from 134. '
    + 'The texts can be read here all the same.';
  for (const button of document.querySelectorAll('[data-words]')) button.disabled = true;
}

for (const name of Object.keys(examples)) at('example').append(new Option(name, name));
listen();
if (!takeFragment()) choose();
if (isAble()) compiled().catch(refuse);
else refuse();
