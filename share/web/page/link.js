// The connection: a line goes to its one process of yt, and the objects of the reply come back, in order.
// A connection that is lost is opened again, after a longer wait each time.

/** A reply that is a fault, or a connection that was lost before the reply came (`reply.lost`). */
export class Fault extends Error {
  constructor(reply) {
    super(reply.words);
    this.reply = reply;
  }
}

/** An object of yt's JSON. Numbers beyond 2^53 keep all their digits, as BigInt. */
export function parseReply(text) {
  if (!/[0-9]{16}/.test(text)) return JSON.parse(text);
  const marked = text.replace(/"(?:[^"\\]|\\.)*"|-?[0-9]{16,}/g, m => m[0] === '"' ? m : `{"digits":"${m}"}`);
  return JSON.parse(marked, (_, v) => typeof v?.digits === 'string' ? BigInt(v.digits) : v);
}

export class Link {
  up = false;
  onchange = () => {};      // called when it is up, or lost
  onfault = () => {};       // called with a fault that no line asked for
  #socket = null;
  #queue = [];
  #tries = 0;
  #timer = 0;
  #name = '';

  /** Connects under this name, or connects again. */
  open(name) {
    this.#name = name;
    this.#close();
    const address = new URL('yt', location.href);
    address.protocol = address.protocol.replace('http', 'ws');
    address.hash = '';
    address.search = name ? 'as=' + encodeURIComponent(name) : '';
    const socket = this.#socket = new WebSocket(address);
    socket.onopen = () => { this.up = true; this.onchange(); };
    socket.onmessage = e => { if (socket === this.#socket) this.#take(e.data); };
    socket.onclose = () => { if (socket === this.#socket) this.#lost(); };
  }

  reopen() { this.open(this.#name); }

  /** Sends one line, and the lines that belong to it; resolves to the objects of its reply, or rejects with a Fault. */
  ask(line, rows) {
    if (!this.up) return Promise.reject(new Fault({words: 'not connected', hint: 'nothing was sent', unsent: true}));
    if (/[\n\r]/.test(line)) return Promise.reject(new Fault({words: 'a command is one line'}));
    return new Promise((resolve, reject) => {
      this.#queue.push({line, resolve, reject, reply: [], since: Date.now()});
      this.#socket.send(rows === undefined ? line : line + '\n' + rows);
    });
  }

  /** The number of seconds that yt has been at work on its present line. */
  get waited() { return this.#queue.length ? (Date.now() - this.#queue[0].since) / 1000 : 0; }

  #close() {
    clearTimeout(this.#timer);
    const socket = this.#socket;
    this.#socket = null;
    this.up = false;
    socket?.close();
    this.#refuse();
  }

  #lost() {
    this.up = false;
    const wait = Math.min(15000, 500 * 2 ** this.#tries++) * (0.8 + Math.random() * 0.4);
    this.#timer = setTimeout(() => this.reopen(), wait);
    this.#refuse();
    this.onchange();
  }

  #refuse() {
    for (const q of this.#queue.splice(0)) {
      q.reject(new Fault({words: 'the connection was lost before the reply came', lost: true}));
    }
  }

  #take(text) {
    let object;
    try {
      object = parseReply(text);
    } catch {
      object = {reply: 'fault', words: 'this is no reply of yt: ' + text.slice(0, 200)};
    }
    const q = this.#queue[0];
    if (!q) return this.onfault(object);
    this.#tries = 0;
    q.reply.push(object);
    if (object.more) return;
    this.#queue.shift();
    if (this.#queue[0]) this.#queue[0].since = Date.now();
    if (object.reply === 'fault') q.reject(new Fault(object)); else q.resolve(q.reply);
  }
}

export const link = new Link();
/** The first object of a reply. */
export const askOne = async (line, rows) => (await link.ask(line, rows))[0];
