// The page: it draws what the server answers, and sends it what is pressed. Which moves there are, and what they lead to, the server says.
"use strict";

const part = id => document.getElementById(id);
const MEN = { k: "king", q: "queen", r: "rook", b: "bishop", n: "knight", p: "pawn" };
const NAGS = { 1: "!", 2: "?", 3: "!!", 4: "??", 5: "!?", 6: "?!", 10: "=", 13: "∞", 14: "+=", 15: "=+", 16: "±", 17: "∓", 18: "+−", 19: "−+" };
const MARKS = {
  W: "White opening", B: "Black opening", M: "middlegame", E: "endgame", N: "novelty", P: "pawn structure", T: "tactics", K: "king’s side",
  Q: "queen’s side", "!": "brilliancy", "?": "blunder", U: "user", 1: "custom 1", 2: "custom 2", 3: "custom 3", 4: "custom 4", 5: "custom 5", 6: "custom 6",
};
const LARGEST_FILE = 64 * 2 ** 20;

let key = sessionStorage.getItem("key");
let client = 0;
let info = { unsaved: "no" };
let over = false;
let root = nodeOf(null, null, "");
let at = root;
let seen = { moves: [], state: "", rows: [] };
let turned = false;
let chosen = null;
let opened = null;
let list = { first: 0, count: 0, all: 0, games: [] };

// ---- the server

async function ask(path, what = {}) {
  if (over) return null;
  return answered(await fetch(path, { method: "POST", headers: { "Content-Type": "application/json" }, body: JSON.stringify({ key, ...what }) }));
}

async function answered(response) {
  const answer = await response.json();
  if (answer.ended) return end(answer.ended);
  if (!response.ok) {
    note(answer.error, true);
    return null;
  }
  return answer;
}

// Says words of a command, and answers what was told, if nothing went wrong.
async function say(...words) {
  const answer = await ask("say", { words });
  if (!answer) return null;
  showFilters(answer.filters);
  if (answer.text.startsWith("error: ")) {
    note(answer.text.trim(), true);
    return null;
  }
  return answer.text;
}

function note(text, wrong = false) {
  part("note").textContent = text;
  part("note").classList.toggle("wrong", wrong);
}

function end(text) {
  over = true;
  part("ended").hidden = false;
  part("ended").textContent = text;
  document.body.classList.add("over");
  return null;
}

// ---- positions and lines

function nodeOf(parent, move, fen) {
  return { parent, san: move && move.san, squares: move && move.squares, fen, next: [], comments: [], nags: [], lead: [], ply: parent ? parent.ply + 1 : 0 };
}

function grow(parent, move) {
  const node = nodeOf(parent, move, move.fen);
  parent.next.push(node);
  return node;
}

// The nodes of a game, from its tokens.
function treeOf(game) {
  const first = nodeOf(null, null, game.start);
  const lines = [];
  let last = first, begins = true;
  for (const token of game.tokens) {
    if (token.kind === "move") {
      last = grow(last, token);
      begins = false;
    } else if (token.kind === "open") {
      lines.push(last);
      last = last.parent;
      begins = true;
    } else if (token.kind === "close") {
      last = lines.pop();
    } else if (token.kind === "nag") {
      last.nags.push(token.number);
    } else if (begins && last !== first) {
      last.lead[last.next.length] = token.text;
    } else {
      last.comments.push(token.text);
    }
  }
  return first;
}

async function go(node) {
  if (!node || !node.fen) return;
  at = node;
  chosen = null;
  seen = { moves: [], state: "", rows: seen.rows };
  drawBoard();
  drawLine();
  const answer = await ask("look", { fen: node.fen });
  if (!answer || at !== node) return;
  if (answer.error) return note(`This is no position: ${answer.error}.`, true);
  seen = answer;
  drawBoard();
  drawTree();
  drawState();
  list.first = 0;
  later(showGames);
}

let waiting = 0;
function later(what) {
  clearTimeout(waiting);
  waiting = setTimeout(what, 80);
}

function play(move) {
  part("promotion").hidden = true;
  note("");
  go(at.next.find(node => node.squares === move.squares) || grow(at, move));
}

const ways = {
  first: () => root,
  back: () => at.parent,
  forward: () => at.next[0],
  last: () => {
    let node = at;
    while (node.next[0] && node.next[0].fen) node = node.next[0];
    return node;
  },
};

// ---- the board

function menOf(fen) {
  const men = {};
  fen.split(" ")[0].split("/").forEach((row, k) => {
    let file = 0;
    for (const sign of row) {
      if (sign >= "1" && sign <= "8") file += Number(sign);
      else men["abcdefgh"[file++] + (8 - k)] = sign;
    }
  });
  return men;
}

function shape(sign) {
  const picture = document.createElementNS("http://www.w3.org/2000/svg", "svg");
  const use = document.createElementNS("http://www.w3.org/2000/svg", "use");
  picture.setAttribute("viewBox", "0 0 45 45");
  picture.setAttribute("class", "man " + (sign < "a" ? "white" : "black"));
  use.setAttribute("href", "#" + sign.toUpperCase());
  picture.append(use);
  return picture;
}

function nameOf(square, sign) {
  return sign ? `${square}, ${sign < "a" ? "white" : "black"} ${MEN[sign.toLowerCase()]}` : square;
}

function makeBoard() {
  for (let k = 0; k < 64; k++) {
    const square = document.createElement("button");
    square.type = "button";
    square.className = "square " + ((k + (k >> 3)) % 2 ? "dark" : "light");
    part("board").append(square);
  }
}

function drawBoard() {
  const men = menOf(at.fen);
  const targets = new Set(seen.moves.filter(move => chosen && move.squares.startsWith(chosen)).map(move => move.squares.slice(2, 4)));
  [...part("board").children].forEach((square, k) => {
    const place = turned ? 63 - k : k;
    const name = "abcdefgh"[place % 8] + (8 - (place >> 3));
    const sign = men[name];
    square.dataset.square = name;
    // The tab key goes to what can be pressed alone.
    square.tabIndex = targets.has(name) || seen.moves.some(move => move.squares.startsWith(name)) ? 0 : -1;
    square.setAttribute("aria-label", nameOf(name, sign) + (targets.has(name) ? ", target" : ""));
    square.setAttribute("aria-pressed", String(chosen === name));
    square.classList.toggle("target", targets.has(name));
    square.classList.toggle("moved", Boolean(at.squares) && (at.squares.startsWith(name) || at.squares.slice(2, 4) === name));
    square.replaceChildren(...(k % 8 === 0 ? [textOf("name rank", name[1])] : []), ...(k >= 56 ? [textOf("name file", name[0])] : []), ...(sign ? [shape(sign)] : []));
  });
}

function press(square) {
  const moves = chosen ? seen.moves.filter(move => move.squares.startsWith(chosen + square)) : [];
  if (moves.length) return choose(moves);
  chosen = square !== chosen && seen.moves.some(move => move.squares.startsWith(square)) ? square : null;
  part("promotion").hidden = true;
  drawBoard();
}

// Plays the one of these moves, or asks what the pawn becomes.
function choose(moves) {
  if (moves.length === 1) return play(moves[0]);
  part("promotion").replaceChildren(...moves.map(move => {
    const button = document.createElement("button");
    button.type = "button";
    button.textContent = MEN[move.squares[4]];
    button.onclick = () => play(move);
    return button;
  }));
  part("promotion").hidden = false;
  part("promotion").firstChild.focus();
}

let held = null;

function hold(event) {
  const square = event.target.closest(".square");
  if (!square || event.button !== 0 || !seen.moves.some(move => move.squares.startsWith(square.dataset.square))) return;
  held = { square, x: event.clientX, y: event.clientY, ghost: null };
}

function drag(event) {
  if (!held) return;
  if (!held.ghost) {
    if (Math.hypot(event.clientX - held.x, event.clientY - held.y) < 5) return;
    chosen = held.square.dataset.square;
    drawBoard();
    held.ghost = held.square.querySelector(".man").cloneNode(true);
    held.ghost.classList.add("ghost");
    held.ghost.style.width = held.square.clientWidth + "px";
    held.square.classList.add("held");
    document.body.append(held.ghost);
  }
  held.ghost.style.left = event.clientX + "px";
  held.ghost.style.top = event.clientY + "px";
}

function release(event) {
  if (held && held.ghost) {
    held.ghost.remove();
    held.square.classList.remove("held");
    const under = document.elementFromPoint(event.clientX, event.clientY);
    const target = under && under.closest(".square");
    const from = held.square.dataset.square;
    if (target && target !== held.square) press(target.dataset.square);
    else chosen = from === chosen ? null : chosen;
    drawBoard();
  }
  held = null;
}

function drawState() {
  const side = at.fen.split(" ")[1] === "w" ? "White" : "Black";
  const states = { mate: `Mate: ${side === "White" ? "Black" : "White"} has won`, stalemate: "Stalemate", check: `${side} is in check` };
  part("state").textContent = (at.san ? `${numberOf(at)} ${at.san}. ` : "") + (states[seen.state] || `${side} to move`);
  part("fen").value = at.fen;
}

// ---- the line

function numberOf(node) {
  const half = node.ply - 1 + (root.fen.split(" ")[1] === "b" ? 1 : 0);
  return Math.floor(half / 2) + 1 + (half % 2 ? "…" : ".");
}

function textOf(kind, text) {
  const span = document.createElement("span");
  span.className = kind;
  span.textContent = text;
  return span;
}

function moveOf(node, numbered) {
  const move = document.createElement(node.fen ? "button" : "span");
  move.className = "move" + (node === at ? " here" : "");
  if (node.fen) {
    move.type = "button";
    move.tabIndex = -1;
    move.onclick = () => go(node);
  }
  if (node === at) move.setAttribute("aria-current", "true");
  const number = numberOf(node);
  if (numbered || number.endsWith(".")) move.append(textOf("count", number));
  move.append(node.san + node.nags.map(nag => NAGS[nag] || " $" + nag).join(""));
  return move;
}

// The moves behind a node, with the variations of each.
function lineOf(from, into, numbered) {
  for (let node = from; node.next.length; node = node.next[0]) {
    const [main, ...others] = node.next;
    into.append(moveOf(main, numbered), " ");
    numbered = others.length > 0 || main.comments.length > 0;
    for (const comment of main.comments) into.append(textOf("comment", comment), " ");
    others.forEach((other, k) => {
      const variation = textOf("variation", "");
      if (node.lead[k + 1]) variation.append(textOf("comment", node.lead[k + 1]), " ");
      variation.append(moveOf(other, true), " ");
      for (const comment of other.comments) variation.append(textOf("comment", comment), " ");
      lineOf(other, variation, other.comments.length > 0);
      into.append(variation, " ");
    });
  }
}

function drawLine() {
  const moves = document.createDocumentFragment();
  for (const comment of root.comments) moves.append(textOf("comment", comment), " ");
  lineOf(root, moves, true);
  if (opened) moves.append(textOf("result", opened.result));
  part("moves").replaceChildren(moves);
  const here = part("moves").querySelector(".here");
  if (here) part("moves").scrollTop += here.getBoundingClientRect().top - part("moves").getBoundingClientRect().top - part("moves").clientHeight / 2;
}

// ---- the tree

function cell(text, kind = "") {
  const data = document.createElement("td");
  data.className = kind;
  data.textContent = text;
  return data;
}

function bar(row) {
  const data = document.createElement("td");
  const shares = document.createElement("div");
  const known = row.white + row.draws + row.black;
  data.className = "wide";
  shares.className = "shares";
  if (known) {
    const words = ["white", "draws", "black"].map(kind => `${Math.round(100 * row[kind] / known)} %`);
    shares.setAttribute("role", "img");
    shares.setAttribute("aria-label", `White wins ${words[0]}, draws ${words[1]}, Black wins ${words[2]}`);
    shares.title = shares.getAttribute("aria-label");
    ["white", "draws", "black"].forEach((kind, k) => {
      const share = textOf(kind, row[kind] >= known / 8 ? words[k] : "");
      share.style.flexGrow = row[kind];
      if (row[kind]) shares.append(share);
    });
  }
  data.append(shares);
  return data;
}

function lineOfTree(row, move) {
  const line = document.createElement("tr");
  const head = document.createElement("th");
  head.scope = "row";
  if (move) {
    const button = document.createElement("button");
    button.type = "button";
    button.textContent = row.move;
    button.onclick = () => play(move);
    head.append(button);
  } else {
    head.textContent = row.move;
  }
  const score = row.score === null ? "–" : (row.score / 10).toFixed(1) + " %";
  line.append(head, cell(row.games.toLocaleString("en"), "number"), bar(row), cell(score, "number"), cell(row.mover ?? "–", "number rating"), cell(row.year ?? "–", "number year"));
  return line;
}

function drawTree() {
  const rows = seen.rows.slice(0, -1);
  const [body] = part("tree").tBodies;
  body.replaceChildren(...rows.map(row => lineOfTree(row, seen.moves.find(move => move.san === row.move))));
  part("tree").tFoot.replaceChildren(...seen.rows.slice(-1).map(row => lineOfTree(row, null)));
}

// ---- the games

async function showGames() {
  const answer = await ask("games", { first: list.first, only: part("only").checked });
  if (!answer) return;
  list = answer;
  const [body] = part("games").tBodies;
  body.replaceChildren(...list.games.map(lineOfGame));
  part("filter").textContent = `${list.count.toLocaleString("en")} of ${list.all.toLocaleString("en")}`;
  part("page").textContent = list.count ? `${list.first + 1}–${list.first + list.games.length}` : "none";
  part("fewer").disabled = list.first === 0;
  part("further").disabled = list.first + list.games.length >= list.count;
}

function named(name, kind) {
  const data = cell(name, kind);
  data.title = name;
  return data;
}

function lineOfGame(game) {
  const line = document.createElement("tr");
  const number = cell("", "number");
  const button = document.createElement("button");
  button.type = "button";
  button.textContent = game.game;
  button.setAttribute("aria-label", `Open game ${game.game}: ${game.white} – ${game.black}`);
  number.append(button);
  line.classList.toggle("deleted", game.deleted);
  line.classList.toggle("here", Boolean(opened) && opened.game === game.game);
  const eco = cell(game.eco, "eco");
  if (game.marks) eco.append(" ", textOf("marks", game.marks));
  line.append(
    number, named(game.white, "player"), cell(game.white_rating, "number rating"), named(game.black, "player"), cell(game.black_rating, "number rating"),
    cell(game.result === "1/2-1/2" ? "½–½" : game.result.replace("-", "–")), eco, cell(game.date.replaceAll(".??", "").replace("????", "")), named(game.event, "event"));
  line.onclick = () => openGame(game.game, game.ply);
  return line;
}

async function openGame(number, ply) {
  const game = await ask("game", { game: number });
  if (!game) return;
  if (game.error) return note(game.error, true);
  const tags = Object.fromEntries([...game.tags].reverse());
  opened = { game: number, result: tags.Result, event: tags.Event, flags: tags.ScidFlags || "" };
  root = treeOf(game);
  showHead(tags);
  let node = root;
  while (node.ply < ply && node.next[0] && node.next[0].fen) node = node.next[0];
  go(node);
}

function showHead(tags) {
  const rating = side => tags[side + "Elo"] ? ` (${tags[side + "Elo"]})` : "";
  const head = part("game-head");
  const names = document.createElement("strong");
  names.textContent = `${tags.White}${rating("White")} – ${tags.Black}${rating("Black")} ${tags.Result}`;
  const where = [tags.Event, tags.Site, tags.Date, tags.Round].filter(text => text && text !== "?" && text !== "????.??.??");
  const actions = document.createElement("div");
  actions.className = "row";
  actions.append(button(opened.flags.includes("D") ? "Undelete" : "Delete", () => change(opened.flags.includes("D") ? "undelete" : "delete", String(opened.game))), markSelect(), button("Crosstable", showCross));
  head.replaceChildren(names, document.createElement("br"), where.join(" · ") + (tags.ECO ? ` · ${tags.ECO}` : ""), actions);
  head.hidden = false;
  part("close").hidden = false;
  part("line-title").textContent = `Game ${opened.game}`;
}

function button(text, pressed) {
  const made = document.createElement("button");
  made.type = "button";
  made.textContent = text;
  made.onclick = pressed;
  return made;
}

function markSelect() {
  const select = document.createElement("select");
  select.setAttribute("aria-label", "Set a mark or take it away");
  select.append(new Option("Mark …", ""), ...Object.entries(MARKS).map(([letter, name]) => new Option(`${opened.flags.includes(letter) ? "✓ " : ""}${letter} ${name}`, letter)));
  select.onchange = () => select.value && change("mark", String(opened.game), select.value, opened.flags.includes(select.value) ? "off" : "on");
  return select;
}

// Changes the game that is open, and shows it as it is then.
async function change(...words) {
  if (await say(...words)) note(words.join(" ") + ": done");
}

async function showCross() {
  const text = await say("cross", opened.event);
  if (text) tell(`Crosstable of ${opened.event}`, text);
}

function closeGame() {
  opened = null;
  part("game-head").hidden = true;
  part("close").hidden = true;
  part("line-title").textContent = "Moves";
  drawLine();
}

function tell(title, text) {
  part("said-title").textContent = title;
  part("said-text").textContent = text;
  part("said").showModal();
}

// ---- searches and filters

function span(form, name, least, most) {
  const from = form[name].value.trim(), to = form[name + "_to"].value.trim();
  return from || to ? [`${name}=${from || least}..${to || (name === "eco" ? ecoEnd(from) : most)}`] : [];
}

function ecoEnd(code) {
  return code.length === 3 ? code + "z4" : code;
}

function headerItems(form) {
  const items = ["player", "white", "black", "event", "site", "result", "deleted"].filter(name => form[name].value.trim());
  return [...items.map(name => `${name}=${form[name].value.trim()}`),
    ...span(form, "year", "1", "9999"), ...span(form, "welo", "1", "9999"), ...span(form, "belo", "1", "9999"), ...span(form, "eco", "A00", "E99z4")];
}

async function search(event) {
  event.preventDefault();
  const form = event.target.elements;
  const items = headerItems(form), op = form.op.value, mode = form.mode.value;
  if (!items.length && !mode) return note("Say what the games have, or which position.", true);
  if (items.length && mode && op === "or") return note("Other games can be added for one of the two at a time.", true);
  if (items.length && !await say("search", op, "header", ...items)) return;
  if (mode) {
    const words = ["search", items.length ? "and" : op, "position", mode, ...at.fen.split(" ").slice(0, 2)];
    if (!await say(...words, ...(form.vars.checked ? ["vars"] : []))) return;
    part("only").checked = mode === "exact" && !form.vars.checked && part("only").checked;
  }
  refresh();
}

async function filter(...words) {
  if (await say(...words)) refresh();
}

function refresh() {
  list.first = 0;
  note("");
  return showGames();
}

function showFilters(names) {
  if (!names) return;
  part("kept").replaceChildren(...names.map(name => {
    const line = document.createElement("li");
    line.append(textOf("name", name), button("Use", () => filter("use", name)), button("And", () => filter("and", name)), button("Or", () => filter("or", name)), button("Drop", () => say("drop", name)));
    return line;
  }));
}

// ---- the base

function showInfo(now) {
  info = now;
  part("counts").textContent = `${Number(info.games).toLocaleString("en")} games` + (info.deleted !== "0" ? `, ${info.deleted} deleted` : "");
  const unsaved = info.unsaved === "yes";
  part("unsaved").hidden = !unsaved;
  part("save").classList.toggle("main", unsaved);
  document.title = (unsaved ? "• " : "") + part("base").textContent;
}

async function sendFile(file) {
  if (!file) return;
  if (file.size > LARGEST_FILE) return note("A file of more than 64 MiB is not taken.", true);
  const command = file.name.toLowerCase().endsWith(".eco") ? "eco" : "import";
  note(`Reading ${file.name} …`);
  const answer = await answered(await fetch(`body?key=${key}&command=${command}`, { method: "POST", body: file }));
  if (answer) showTaken(file.name, answer);
}

function showTaken(name, answer) {
  note(`${name}: ${answer.text}`, answer.text.startsWith("error: "));
  if (answer.faults.length) tell(`${name}: ${answer.text}`, answer.faults.join("\n") + (answer.more ? `\n… and ${answer.more} more` : ""));
}

async function save() {
  const text = await say("save");
  if (text) note(text.trim());
  return text;
}

async function compact() {
  if (!confirm(`The ${info.deleted} games that are marked as deleted are taken out for good, and the base is saved.`)) return;
  const text = await say("compact");
  if (text) note(text.trim());
}

async function twins() {
  const depth = prompt("Games with the same names, date and result are twins where so many half-moves are the same:", "40");
  if (depth === null) return;
  const text = await say("twins", depth.trim());
  if (text) note(`${text.trim()}: so many games were marked as deleted`);
}

async function openings() {
  const answer = await ask("openings");
  if (answer) showTaken("Opening codes", answer);
}

async function stop() {
  if (info.unsaved === "yes") {
    if (confirm("Changes are unsaved. Save them, and end the board?")) {
      if (!await save()) return;
    } else if (!confirm("End the board, and lose what is unsaved?")) {
      return;
    }
  }
  await ask("stop");
  end("The board has ended. You can close this window.");
}

// ---- events

function follow() {
  const events = new EventSource(`events?key=${key}`);
  const on = (name, then) => events.addEventListener(name, event => then(JSON.parse(event.data)));
  on("info", showInfo);
  on("windows", here => {
    part("window").textContent = here.length > 1 ? `window ${client + 1} of ${here.length}` : "";
  });
  on("tree", tree => {
    if (tree.board.join(" ") !== at.fen.split(" ").slice(0, 2).join(" ")) return;
    seen.rows = tree.rows;
    drawTree();
  });
  on("changed", changed => {
    if (opened && changed.command === "compact") closeGame();
    else if (opened) reopen();
    later(showGames);
  });
  on("ended", text => {
    events.close();
    end(text);
  });
  events.onerror = () => {
    if (!over) note("The board does not answer.", true);
  };
  events.onopen = () => note("");
}

// The head of the game that is open as it is now; its moves stay.
async function reopen() {
  const game = await ask("game", { game: opened.game });
  if (!game || game.error || !opened) return;
  const tags = Object.fromEntries([...game.tags].reverse());
  opened.flags = tags.ScidFlags || "";
  showHead(tags);
}

function press_key(event) {
  if (event.target.closest("input, select, textarea, dialog") || event.ctrlKey || event.metaKey || event.altKey) return;
  const way = { ArrowLeft: "back", ArrowRight: "forward", Home: "first", End: "last" }[event.key];
  if (way) {
    event.preventDefault();
    go(ways[way]());
  } else if (event.key === "f") {
    part("turn").click();
  } else if (event.key === "Escape" && chosen) {
    press(chosen);
  }
}

function listen() {
  const board = part("board");
  board.addEventListener("click", event => event.target.closest(".square") && press(event.target.closest(".square").dataset.square));
  board.addEventListener("pointerdown", hold);
  document.addEventListener("pointermove", drag);
  document.addEventListener("pointerup", release);
  document.addEventListener("keydown", press_key);
  for (const way of Object.keys(ways)) part(way).onclick = () => go(ways[way]());
  part("turn").onclick = () => {
    turned = !turned;
    drawBoard();
  };
  part("type").onsubmit = event => {
    event.preventDefault();
    const text = part("san").value.trim();
    const move = seen.moves.find(it => it.san === text || it.san.replace(/[+#]/, "") === text || it.squares === text);
    if (!move) return note(`${text} is no legal move here.`, true);
    part("san").value = "";
    play(move);
  };
  part("set").onsubmit = event => {
    event.preventDefault();
    setUp(part("fen").value.trim());
  };
  part("initial").onclick = () => setUp(start);
  part("close").onclick = closeGame;
  part("search").onsubmit = search;
  part("keep").onsubmit = event => {
    event.preventDefault();
    say("keep", event.target.elements.name.value).then(text => text && event.target.reset());
  };
  part("all").onclick = () => filter("reset");
  part("negate").onclick = () => filter("negate");
  part("only").onchange = refresh;
  part("fewer").onclick = () => turnPage(-100);
  part("further").onclick = () => turnPage(100);
  part("save").onclick = save;
  part("compact").onclick = compact;
  part("twins").onclick = twins;
  part("openings").onclick = openings;
  part("stop").onclick = stop;
  part("file").onchange = event => sendFile(event.target.files[0]).then(() => { event.target.value = ""; });
  document.addEventListener("dragover", event => {
    event.preventDefault();
    part("drop").hidden = false;
  });
  document.addEventListener("dragleave", event => {
    if (!event.relatedTarget) part("drop").hidden = true;
  });
  document.addEventListener("drop", event => {
    event.preventDefault();
    part("drop").hidden = true;
    sendFile(event.dataTransfer.files[0]);
  });
  addEventListener("beforeunload", event => {
    if (info.unsaved === "yes" && !over) event.preventDefault();
  });
}

function turnPage(by) {
  list.first = Math.max(0, list.first + by);
  showGames();
}

async function setUp(fen) {
  const answer = await ask("look", { fen });
  if (!answer) return;
  if (answer.error) return note(`This is no position: ${answer.error}.`, true);
  opened = null;
  closeGame();
  root = nodeOf(null, null, fen);
  go(root);
}

let start = "";

async function begin() {
  const response = await fetch("join", { method: "POST", headers: { "Content-Type": "application/json" }, body: JSON.stringify({ key }) });
  const answer = await response.json();
  if (!response.ok) return end(answer.error);
  key = answer.key;
  client = answer.client;
  start = answer.start;
  sessionStorage.setItem("key", key);
  part("base").textContent = answer.base;
  part("export").href = `export?key=${key}`;
  showInfo(answer.info);
  showFilters(answer.filters);
  root = nodeOf(null, null, start);
  at = root;
  makeBoard();
  listen();
  if (answer.ended) return end(answer.ended);
  follow();
  go(root);
}

begin();
