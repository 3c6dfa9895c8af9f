// Follows the events of a guard. A browser gives a host six connections, so all tabs share a
// stream: this file is their shared worker, and a page without one follows by itself.
"use strict";

const SHOWN = 100; // orders
const STATE_PAUSE = 250; // milliseconds between two looks at the processes
const AGAIN = 1500; // before a lost connection is tried again
const SILENCE = 10000; // after which the server is gone, until it says so itself

class NoToken extends Error {}

/** A token as a header takes it: its bytes. */
const bytesOf = (token) => String.fromCharCode(...new TextEncoder().encode(token));

/** What the server answers to a path. */
async function ask(path, token, signal) {
  const headers = token ? { Authorization: `Bearer ${bytesOf(token)}` } : {};
  const answer = await fetch(path, { headers, signal, cache: "no-store" });
  if (answer.status === 401) throw new NoToken();
  if (!answer.ok) throw new Error((await answer.json()).error);
  return answer;
}

/** Has something looked at again soon, and never twice at once. */
function soon(pause, look, failed) {
  let waits = false;
  let runs = false;
  return async function again() {
    waits = true;
    if (runs) return;
    runs = true;
    while (waits) {
      waits = false;
      try {
        await look();
      } catch (error) {
        if (failed && !(error instanceof NoToken)) failed(error);
      }
      await new Promise((done) => setTimeout(done, pause));
    }
    runs = false;
  };
}

/** The stream of a token. Each listener is a function, which is told what comes. */
class Stream {
  constructor(token) {
    this.token = token;
    this.listeners = new Set();
    this.audit = "";
    this.next = 0;
    this.entries = []; // the last ones
    this.state = null;
    this.status = { kind: "begun" };
    this.heard = Date.now();
    this.silence = SILENCE;
    this.stateSoon = soon(STATE_PAUSE, () => this.look());
    this.timer = setInterval(() => this.listen(), 250);
    this.run();
  }

  /** Tells a new listener all that is known. */
  join(listener) {
    this.listeners.add(listener);
    listener({ kind: "anew" });
    if (this.state) listener({ kind: "state", state: this.state });
    if (this.entries.length) listener({ kind: "entries", entries: this.entries });
    listener(this.status);
  }

  leave(listener) {
    this.listeners.delete(listener);
    if (this.listeners.size) return;
    clearInterval(this.timer);
    this.asked?.abort();
  }

  tell(message) {
    for (const listener of this.listeners) listener(message);
  }

  say(status) {
    this.status = status;
    this.tell(status);
  }

  /** Gives up what says nothing. */
  listen() {
    if (Date.now() - this.heard < this.silence) return;
    if (this.status.kind === "live") this.say({ kind: "silent", since: this.heard });
    if (Date.now() - this.begun > this.silence) this.asked?.abort();
  }

  async run() {
    while (this.listeners.size || this.status.kind === "begun") {
      this.begun = Date.now();
      this.asked = new AbortController();
      try {
        await this.follow(this.asked.signal);
      } catch (error) {
        if (error instanceof NoToken) {
          clearInterval(this.timer);
          return this.say({ kind: "token" });
        }
      }
      if (this.status.kind !== "silent") this.say({ kind: "lost", since: this.heard });
      await new Promise((done) => setTimeout(done, AGAIN));
    }
  }

  async look(signal) {
    const state = await (await ask("v1/status", this.token, signal)).json();
    if (signal && (state.audit !== this.audit || state.entries < this.next)) {
      this.audit = state.audit;
      this.next = Math.max(0, state.entries - SHOWN);
      this.entries = [];
      this.tell({ kind: "anew" });
    }
    if (state.audit !== this.audit) return;
    this.state = state;
    this.tell({ kind: "state", state });
  }

  /** Tells each entry that comes, until the server is gone. */
  async follow(signal) {
    await this.look(signal);
    const answer = await ask(`v1/events?from=${this.next}`, this.token, signal);
    const reader = answer.body.pipeThrough(new TextDecoderStream()).getReader();
    let text = "";
    for (;;) {
      const { value, done } = await reader.read();
      if (done) return;
      this.heard = Date.now();
      const events = (text + value).split("\n\n");
      text = events.pop();
      if (!this.take(events.map(parsed))) return;
      this.say({ kind: "live", entries: this.next });
    }
  }

  /** Takes in events, and says whether they are of this audit. */
  take(events) {
    const entries = [];
    for (const { event, data } of events) {
      if (event === "audit") {
        if (data.audit !== this.audit) return false;
        this.silence = data.silence;
      } else if (data && data.at === this.next) {
        entries.push(data);
        this.next += 1;
      }
    }
    if (entries.length) {
      this.entries = [...this.entries, ...entries].slice(-SHOWN);
      this.tell({ kind: "entries", entries });
      this.stateSoon();
    }
    return true;
  }
}

/** The name and the data of an event. */
function parsed(text) {
  const of = (name) => text.split("\n").find((line) => line.startsWith(`${name}: `))
    ?.slice(name.length + 2);
  const data = of("data");
  return { event: of("event"), data: data && JSON.parse(data) };
}

const streams = new Map(); // by token

/** Has a listener told of the stream of a token; it answers how to leave. */
function follow(token, listener) {
  let stream = streams.get(token);
  if (!stream || !stream.listeners.size || stream.status.kind === "token") {
    stream = new Stream(token);
    streams.set(token, stream);
  }
  stream.join(listener);
  return () => stream.leave(listener);
}

if (typeof SharedWorkerGlobalScope !== "undefined") {
  onconnect = ({ ports: [port] }) => {
    const listener = (message) => port.postMessage(message);
    let leave = () => {};
    port.onmessage = ({ data }) => {
      leave();
      leave = data.bye ? () => {} : follow(data.token, listener);
    };
  };
}
