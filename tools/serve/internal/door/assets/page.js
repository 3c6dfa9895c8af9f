// Shows what a guard that many ask knows, as it changes.
"use strict";

const PICTURE_PAUSE = 2000; // milliseconds between two pictures

const at = (id) => document.getElementById(id);
let names = [];
let token = sessionStorage.getItem("token") || "";

/** An element with texts and elements in it. */
function make(tag, className, ...parts) {
  const it = document.createElement(tag);
  if (className) it.className = className;
  it.append(...parts);
  return it;
}

const named = (process) => names[process] || `process ${process}`;

const RULES = {
  NoTarget: () => "nobody is left there",
  NoGrant: (process) => `the actor has no grant for ${named(process)}`,
  Protected: (process) => `${named(process)} is protected`,
  TooManyDestroyed: (policy) => `too many would be destroyed, by policy ${policy}`,
  TooFewLeft: (policy) => `too few would be left, by policy ${policy}`,
};
const inWords = (rule) => (rule ? RULES[rule[0]](rule[1]) : "");

/** The words for an act: its name, and whom it is about. */
function actInWords(name, its) {
  const about = "value" in its ? `${its.key} ${its.value}`
    : "process" in its ? named(its.process)
    : "message" in its ? `message ${its.message}`
    : "team" in its ? `team ${its.team}` : "";
  return [name, its.kind || "", about].filter(Boolean).join(" ");
}

/** The cells for what came of an act. */
function replyInWords(reply) {
  if (typeof reply === "string") return [reply, ""];
  if (reply.verdict) {
    const { struck, rule } = reply.verdict;
    return [struck ? make("b", "", struck) : make("span", "none", "nothing"), inWords(rule)];
  }
  if ("ruled" in reply) {
    return [reply.ruled ? make("span", "none", "nothing") : "done", inWords(reply.ruled)];
  }
  if (reply.no) return [make("span", "none", "refused"), reply.no.join(" ")];
  return [Object.keys(reply)[0], ""];
}

/** Puts an entry on top of the last orders. */
function showEntry(entry) {
  const [name] = Object.keys(entry.act);
  const act = actInWords(name, entry.act[name]);
  const cells = [entry.at, entry.by, act, ...replyInWords(entry.reply)];
  at("orders-body").prepend(make("tr", "", ...cells.map((it) => make("td", "", it))));
  while (at("orders-body").rows.length > SHOWN) at("orders-body").lastChild.remove();
}

const SIGNS = { up: "●", down: "○", clogged: "◐", destroyed: "✕", gone: "■" };

/** The states of a process, as words. */
function statesOf(its) {
  const first = its.gone ? "gone" : its.up ? "up" : "down";
  return [first, ...["destroyed", "clogged"].filter((it) => its[it])];
}

const mark = (state, text) => make("span", `state ${state}`, `${SIGNS[state]} ${text}`);

function showState(state) {
  names = state.processes.map((it) => it.processid);
  const rows = state.processes.map((it) => make("tr", "", make("td", "", it.number),
    make("td", "", ...statesOf(it).map((word) => mark(word, word))),
    ...[it.processid, it.machineid, it.zoneid].map((text) => make("td", "", text))));
  at("processes").replaceChildren(...rows);
  const counted = Object.keys(SIGNS).map((word) => {
    const count = state.processes.filter((it) => statesOf(it).includes(word)).length;
    return make("li", "", mark(word, `${count} ${word}`));
  });
  at("counts").replaceChildren(...counted);
}

const GROUPS = {
  machineid: "machines", zoneid: "zones", data_hall: "data halls", dcid: "data centres",
};
const LOSSES = {
  RebootAndDelete: "Emptied (RebootAndDelete)", KillInstantly: "Killed for good (KillInstantly)",
};

/** What may be lost by one kind. */
function lossInWords(loss) {
  const more = loss.any === 0 ? "Some single process is too many." :
    `Any ${loss.any === 1 ? "1 process" : `${loss.any} processes together`} may be.`;
  const lines = loss.policies.filter((it) => it.too_many.length)
    .map((it) => `Too many by ${it.policy}: ${it.too_many.join(" ")}`);
  const groups = loss.groups.filter((it) => it.values)
    .map((it) => `Single ${GROUPS[it.key]} that may be: ${it.alone.join(" ") || "none"}`);
  const parts = [more, ...lines, ...groups].map((it) => make("p", "", it));
  return [make("h3", "", LOSSES[loss.kind]), ...parts];
}

async function showLosses() {
  const bears = await (await ask("v1/bears", token)).json();
  at("losses").replaceChildren(...bears.losses.flatMap(lossInWords));
}

/** A part of the picture: what of it lies in a rectangle, or only these elements. */
function part(picture, [x, y, width, height], elements) {
  const it = elements ? picture.cloneNode(false) : picture;
  it.setAttribute("viewBox", `${x} ${y} ${width} ${height}`);
  it.setAttribute("width", width);
  it.setAttribute("height", height);
  if (elements) it.append(...[...elements].map((one) => one.cloneNode(true)));
  return it;
}

const number = (element, name) => Number(element.getAttribute(name));

const PARTS = `
  svg { display: block; flex: none; }
  .legend, .names { position: sticky; left: 0; background: var(--paper); }
  .legend { overflow-x: auto; }
  .times { display: flex; width: max-content; }
  /* Of a narrow page the names of processes alone stay. */
  @media (max-width: 50rem) { .names { left: -165px; } }`;

/**
 * The picture in parts: its legend and the names of its rows stay where they are while its times
 * scroll.
 */
function partsOf(picture) {
  const rows = [...picture.querySelectorAll(".row rect")];
  const left = Math.min(...rows.map((it) => number(it, "x")));
  const right = Math.max(...rows.map((it) => number(it, "x") + number(it, "width"))) + 48;
  const top = number(picture.querySelector(".axis + text"), "y") - 12;
  const words = picture.querySelector(".order-in-words"); // The last orders stand above.
  const height = (words ? number(words, "y") - 25 : number(picture, "height")) - top;
  const texts = [...picture.querySelectorAll("text")].filter((it) => !it.closest(".legend"));
  const names = texts.filter((it) => number(it, "x") < left);
  const legends = picture.querySelectorAll(".legend");
  const legend = make("div", "legend", part(picture, [0, 0, 980, 44], legends));
  const still = make("div", "names", part(picture, [0, top, left, height], names));
  return [legend, make("div", "times", still, part(picture, [left, top, right - left, height]))];
}

async function showPicture() {
  const text = await (await ask("picture.svg", token)).text();
  const picture = new DOMParser().parseFromString(text, "image/svg+xml").documentElement;
  // The styles of the picture stay in it.
  const root = at("picture").shadowRoot || at("picture").attachShadow({ mode: "open" });
  const shown = at("picture");
  const atEnd = shown.scrollLeft + shown.clientWidth >= shown.scrollWidth - 4;
  root.replaceChildren(make("style", "", PARTS), ...partsOf(document.importNode(picture, true)));
  if (atEnd) at("picture").scrollLeft = at("picture").scrollWidth;
}

const lossesSoon = soon(PICTURE_PAUSE, showLosses, (error) => {
  at("losses").replaceChildren(make("p", "none", error.message));
});
const pictureSoon = soon(PICTURE_PAUSE, showPicture);

/** Shows the form for a token, or what is behind it. */
function enter(may) {
  at("door").hidden = may;
  at("main").hidden = !may;
  if (may) return;
  at("live").textContent = "a token is needed";
  at("live").className = "";
  at("wrong").textContent = token ? "The server doesn't know this token." : "";
  at("token").focus();
}

function sayLive(text, className) {
  at("live").textContent = text;
  at("live").className = className;
}

const since = (moment) => new Date(moment).toLocaleTimeString();

/** What is shown for each kind of message of the stream. */
const TOLD = {
  begun: () => {},
  token: () => enter(false),
  anew: () => at("orders-body").replaceChildren(),
  state({ state }) {
    enter(true);
    showState(state);
    lossesSoon();
    pictureSoon();
  },
  entries: ({ entries }) => entries.forEach(showEntry),
  live: ({ entries }) => sayLive(`live, ${entries} ${entries === 1 ? "entry" : "entries"}`, ""),
  silent: (its) => sayLive(`nothing was heard since ${since(its.since)}`, "lost"),
  lost: (its) => sayLive(`the connection is lost since ${since(its.since)}; trying again`, "lost"),
};
const told = (message) => TOLD[message.kind](message);

/** Has the page told what comes, by the stream of all tabs if there may be one. */
function connect() {
  let leave = () => {};
  const alone = () => {
    leave();
    leave = follow(token, told);
  };
  if (!window.SharedWorker) return alone;
  const worker = new SharedWorker("page-stream.js", "faultyard");
  const { port } = worker;
  let enter = () => port.postMessage({ token });
  worker.onerror = () => { // Its script didn't come, as while a proxy finds no server.
    port.onmessage = null;
    enter = alone;
    alone();
  };
  port.onmessage = ({ data }) => told(data);
  addEventListener("pagehide", () => port.postMessage({ bye: true }));
  addEventListener("pageshow", (event) => event.persisted && port.postMessage({ token }));
  return () => enter();
}

const enterBy = connect();

at("door").addEventListener("submit", (event) => {
  event.preventDefault();
  if (at("door").hidden) return; // It was sent already.
  at("door").hidden = true;
  token = at("token").value.trim();
  sessionStorage.setItem("token", token);
  enterBy();
});
enterBy();
