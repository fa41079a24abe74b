// The chat's page: a client of the Pusher Channels protocol, version 7, in plain JavaScript.
"use strict";

const ROOM = "presence-room", WEBHOOKS = "private-webhooks";
const LONGEST_PAUSE = 20, TYPING_SHOWN = 3000, TYPING_TOLD = 2000;
const SILENCE = 120; // seconds, until the server has said its own number

// What a close code means to who sits before the page, and whether the page connects again by itself.
const CLOSED = {
  4001: ["The server doesn't know this app's key.", false],
  4005: ["The server doesn't know the address that the page asked for.", false],
  4006: ["The page named no good version of the protocol.", false],
  4007: ["The server doesn't speak the page's version of the protocol.", false],
  4008: ["The page named no version of the protocol.", false],
  4009: ["You were signed out, here and in your other windows.", false],
  4100: ["This window fell too far behind, and the server let it go.", true],
  4200: ["The server asked for a new connection.", true],
  4201: ["The server heard nothing from this window for too long.", true],
  1000: ["The connection was ended.", true],
  1001: ["The other side went away.", true],
  1005: ["The connection was ended without a reason.", true],
  1006: ["The connection was lost, or there was none to be had.", true],
};

const the = (id) => document.getElementById(id);
let me = null; // id, name and token, from the back end
let settings = null; // the app's key and the server's port
let wire = null; // the WebSocket of now
let tries = 0; // connections in a row that didn't reach the room
let lastTold = 0; // when the page last told that someone types here
const people = new Map(); // names, by user id
const typing = new Map(); // timers, by user id

// --- the back end -----------------------------------------------------------------------------------------------------

async function ask(path, form) {
  const reply = await fetch(path, { method: "POST", body: new URLSearchParams({ ...form, ...(me && { token: me.token }) }) });
  if (!reply.ok) throw new Error(`${path} was answered with ${reply.status}`);
  return reply.json();
}

// --- the connection ---------------------------------------------------------------------------------------------------

function connect() {
  show(tries ? "Connecting again .." : "Connecting ..");
  the("again").hidden = true;
  const mine = new WebSocket(`ws://${location.hostname}:${settings.port}/app/${settings.key}?protocol=7`);
  wire = mine;
  let quiet = null, silence = SILENCE, why = null;
  const listen = () => {
    // after silence the page asks for a sign of life, and then gives the connection up
    clearTimeout(quiet);
    quiet = setTimeout(() => { say("pusher:ping", {}); quiet = setTimeout(() => mine.close(), 30000); }, silence * 1000);
  };
  mine.onmessage = (message) => {
    const frame = JSON.parse(message.data);
    if (frame.event === "pusher:connection_established") silence = read(frame.data).activity_timeout;
    listen();
    hear(frame, mine).catch((fault) => { why = `The page couldn't go on: ${fault.message}.`; mine.close(); });
  };
  mine.onclose = (end) => { clearTimeout(quiet); if (wire === mine) closed(end.code, why); };
  listen(); // from the start, so that a connection that never comes about is given up too
}

// Why is what the page itself ended the connection for, if it did.
function closed(code, why) {
  wire = null;
  people.clear();
  showPeople();
  const [words, comesBack] = CLOSED[code] || [`The connection ended with ${code}.`, code < 4000 || code >= 4100];
  the("again").hidden = comesBack;
  if (!comesBack) return show(words, "bad");
  // codes from 4200 to 4299 ask for a connection at once; else each pause is twice the one before, and a little by chance,
  // so that the windows of all people don't come back at the same moment
  const pause = code >= 4200 && code < 4300 && !tries ? 0 : Math.min(LONGEST_PAUSE, 2 ** tries) * (1 + Math.random() / 2);
  tries += 1;
  show(`${why || words} Connecting again in ${Math.ceil(pause)} s.`, "bad");
  setTimeout(() => { if (!wire) connect(); }, pause * 1000);
}

function say(event, data, channel) {
  if (wire && wire.readyState === WebSocket.OPEN) wire.send(JSON.stringify({ event, ...(channel && { channel }), data }));
}

// Data are JSON in a string in what the server and the back end say, and JSON itself, or anything, in what another page says.
function read(data) {
  if (typeof data !== "string") return data;
  try { return JSON.parse(data); } catch { return null; }
}

async function hear(frame, mine) {
  const data = read(frame.data);
  switch (frame.event) {
    case "pusher:connection_established": return come(data.socket_id, mine);
    case "pusher:ping": return say("pusher:pong", {});
    case "pusher:error": return show(`The server refused: ${data.message} (${data.code}).`, "bad");
    case "pusher_internal:subscription_succeeded": return frame.channel === ROOM && inside(data.presence);
    case "pusher_internal:member_added": people.set(data.user_id, data.user_info.name); return showPeople();
    case "pusher_internal:member_removed": stopTyping(data.user_id); people.delete(data.user_id); return showPeople();
    case "client-typing": return showTyping(frame.user_id);
    case "message": stopTyping(data.id); return showMessage(data);
    case "whisper": return showMessage(data, "whisper");
    case "webhook": return showLine("webhooks", JSON.stringify(data));
  }
}

// Signs the person in, and subscribes: the back end signs each of these for this socket id.
async function come(socket_id, mine) {
  const user = await ask("/user-auth", { socket_id });
  const signed = async (channel) => ({ channel, ...(await ask("/auth", { socket_id, channel_name: channel })) });
  const rooms = [await signed(ROOM), await signed(WEBHOOKS)];
  if (wire !== mine) return;
  say("pusher:signin", user);
  for (const room of rooms) say("pusher:subscribe", room);
}

function inside(presence) {
  tries = 0;
  people.clear();
  for (const id of presence.ids) people.set(id, presence.hash[id].name);
  showPeople();
  show(`You are here as ${me.name}.`, "good");
}

// --- what the page shows ----------------------------------------------------------------------------------------------

function show(words, kind = "") {
  the("status").textContent = words;
  the("status").className = kind;
}

function showLine(list, text, before) {
  const line = document.createElement("li");
  if (before) line.append(Object.assign(document.createElement("b"), { textContent: before }));
  line.append(text);
  the(list).append(line);
  the(list).scrollTop = the(list).scrollHeight;
  return line;
}

function showMessage(message, kind = "") {
  showLine("messages", message.text, kind ? `${message.name} (to you alone)` : message.name).className = kind;
}

function showPeople() {
  the("people").replaceChildren();
  for (const [id, name] of people) {
    const line = showLine("people", id === me.id ? `${name} (you)` : name);
    if (id === me.id) line.className = "me";
    else Object.assign(line, { title: `Write to ${name} alone`, onclick: () => whisper(id, name) });
  }
}

function showTyping(id) {
  clearTimeout(typing.get(id));
  typing.set(id, setTimeout(() => stopTyping(id), TYPING_SHOWN));
  tellTyping();
}

function stopTyping(id) {
  clearTimeout(typing.get(id));
  typing.delete(id);
  tellTyping();
}

function tellTyping() {
  const names = [...typing.keys()].filter((id) => people.has(id)).map((id) => people.get(id));
  the("typing").textContent = names.length ? `${names.join(" and ")} ${names.length > 1 ? "are" : "is"} typing ..` : "";
}

// --- what a person does -----------------------------------------------------------------------------------------------

async function whisper(to, name) {
  const text = prompt(`To ${name} alone:`);
  if (!text || !text.trim()) return;
  try {
    await ask("/whisper", { to, text });
    showLine("messages", text, `you (to ${name} alone)`).className = "whisper";
  } catch (fault) {
    show(`The message wasn't sent: ${fault.message}.`, "bad");
  }
}

the("entrance").onsubmit = async (event) => {
  event.preventDefault();
  const enter = the("entrance").querySelector("button");
  enter.disabled = true; // a second click would open a second connection
  try {
    settings = await (await fetch("/settings")).json();
    me = await ask("/enter", { text: the("name").value });
  } catch (fault) {
    enter.disabled = false;
    return show(`You weren't let in: ${fault.message}.`, "bad");
  }
  the("entrance").hidden = true;
  for (const id of ["room", "heard", "leave"]) the(id).hidden = false;
  the("text").focus();
  connect();
};

the("writing").onsubmit = async (event) => {
  event.preventDefault();
  const text = the("text").value;
  if (!text.trim()) return;
  try {
    await ask("/message", { text });
    the("text").value = "";
    lastTold = 0;
  } catch (fault) {
    show(`The message wasn't sent: ${fault.message}.`, "bad");
  }
};

the("text").oninput = () => {
  if (Date.now() - lastTold < TYPING_TOLD) return;
  lastTold = Date.now();
  say("client-typing", {}, ROOM);
};

the("again").onclick = () => { tries = 0; connect(); };
the("leave").onclick = () => ask("/sign-out", {}).catch((fault) => show(fault.message, "bad"));
