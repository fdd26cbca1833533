// The console: the changes of a site as a picture, and undos, restores and aliases by a click.

import { changesOf, deploy, Lost, moveAlias, placeOfSites, Refused, restore, undo } from "./host.js";
import { draw } from "./picture.js";
import { cellInWords, reasonInWords, wordsOf } from "./words.js";

const at = (id) => document.getElementById(id);
const list = at("changes"), lines = at("lines"), said = at("said");
// How many rows are shown at first, and with each click more.
const ROWS = 100;
const place = placeOfSites();
// The site that is shown, its changes with the newest first, and a clash that was met.
const shown = { site: "", changes: [], rows: ROWS, clash: null };

function made(name, words, kind) {
  const one = document.createElement(name);
  if (words) one.textContent = words;
  if (kind) one.className = kind;
  return one;
}

function button(words, label, act) {
  const one = made("button", words);
  one.setAttribute("aria-label", label);
  one.addEventListener("click", act);
  return one;
}

function say(words, isWrong = false) {
  said.textContent = words;
  said.className = isWrong ? "wrong" : "";
}

// Asks a question, and returns whether it was answered by yes; for an alias its name, or null.
function asked(title, words, yes, wantsName = false) {
  const question = at("question"), name = at("alias");
  at("asked").textContent = title;
  at("told").textContent = words;
  at("yes").textContent = yes;
  at("named").hidden = !wantsName;
  name.value = "";
  name.required = wantsName;
  question.returnValue = "";
  question.showModal();
  (wantsName ? name : at("no")).focus();
  return new Promise((answer) => {
    question.addEventListener("close", () => answer(question.returnValue === "yes" ? name.value || true : null), { once: true });
  });
}

function answerYes() {
  if (at("named").hidden || at("alias").reportValidity()) at("question").close("yes");
}

// What each undo took back, and what is in the way of an undo, as pairs for the picture.
function pairs() {
  const undos = shown.changes.filter((change) => change.kind === "undo");
  const found = undos.map((change) => ({ kind: "undo", later: change.entry, earlier: change.of }));
  return shown.clash ? [...found, { kind: "clash", later: shown.clash.change, earlier: shown.clash.of }] : found;
}

const redraw = () => draw(lines, list, pairs());

function rowOf(change) {
  const by = shown.changes.find((other) => other.kind === "undo" && other.of === change.entry);
  const state = change.kind === "undo" ? "undo" : change.live ? "live" : "undone";
  const row = made("li", "", state), what = made("div", "", "what");
  row.id = `change-${change.entry}`;
  row.tabIndex = -1;
  Object.assign(row.dataset, { entry: change.entry, state });
  what.append(made("b", wordsOf(change)), made("span", change.kind === "undo" ? "" : change.live ? "in effect" : `taken back by change ${by?.entry}`, "state"));
  const acts = made("div", "", "acts");
  if (change.live) acts.append(button("Take back", `Take back change ${change.entry}`, () => takeBack(change)));
  row.append(made("span", String(change.entry), "number"), what, acts);
  if (change.kind === "open") seen.observe(row);
  if (shown.clash?.change === change.entry) addClash(row);
  return row;
}

function addClash(row) {
  const { change, of, cell } = shown.clash;
  row.classList.add("in-the-way");
  row.append(made("p", `Change ${change} is in the way of taking back change ${of}: it touches ${cellInWords(cell)}, which change ${of} changed. Take back ${change} first.`, "why"));
}

// What a deploy serves and can be used for is asked for once its row comes into view.
const seen = new IntersectionObserver((found) => {
  for (const { isIntersecting, target } of found) {
    if (!isIntersecting) continue;
    seen.unobserve(target);
    addDeploy(target, Number(target.dataset.entry));
  }
}, { rootMargin: "200px" });

async function addDeploy(row, number) {
  const { state, lacks } = await deploy(number).catch(() => ({ state: "gone" }));
  const acts = row.querySelector(".acts"), word = row.querySelector(".state");
  if (state === "kept") {
    const link = made("a", "Look at it");
    link.href = `${await place}/d/${shown.site}/${number}/`;
    link.setAttribute("aria-label", `Look at deploy ${number}`);
    acts.prepend(link, button("Serve again", `Serve deploy ${number} again`, () => serve(number, true)), button("Alias …", `Let an alias name deploy ${number}`, () => name(number)));
    word.textContent += ", kept";
  } else if (state === "open") {
    word.textContent += lacks ? `, lacks ${lacks} file${lacks === 1 ? "" : "s"}` : ", not published yet";
    if (!lacks) acts.prepend(button("Publish", `Publish deploy ${number}`, () => serve(number, false)));
  }
  redraw();
}

// Does something that changes the site, and shows the list anew with what it made.
async function change(act, words) {
  const buttons = [...document.querySelectorAll("button")];
  for (const one of buttons) one.disabled = true;
  try {
    const { entry } = await act();
    await load(entry);
    say(words(entry));
  } catch (fault) {
    await tell(fault);
  } finally {
    for (const one of buttons) one.disabled = false;
  }
}

async function tell(fault) {
  if (fault instanceof Lost) {
    await load().catch(() => {});
    say("No reply came, so this may have been done or not. The list is as the host tells it now.", true);
  } else if (fault instanceof Refused) {
    say(reasonInWords(fault), true);
  } else {
    throw fault;
  }
}

async function takeBack({ entry, kind }) {
  const words = wordsOf({ entry, kind });
  const more = "What later changes did stays. If one of them touches the same, nothing is done, and you see which one is in the way.";
  if (!await asked(`Take back change ${entry}?`, `It ${words}. ${more}`, "Take it back")) return;
  await change(async () => {
    try {
      return await undo(shown.site, entry);
    } catch (fault) {
      if (fault.reason === "Clash") await showClash({ ...fault.told, of: entry });
      throw fault;
    }
  }, (made) => `Change ${made} took back change ${entry}.`);
  if (shown.clash?.of === entry) say(`Change ${entry} was not taken back: change ${shown.clash.change} is in the way.`, true);
}

async function showClash(clash) {
  await load();
  shown.clash = clash;
  shown.rows = Math.max(shown.rows, shown.changes.findIndex((other) => other.entry === clash.of) + 1);
  fill(clash.change);
}

async function serve(number, isKept) {
  const title = isKept ? `Serve deploy ${number} again?` : `Publish deploy ${number}?`;
  const more = isKept ? "The site then has exactly the files of that deploy." : "The site then has what that deploy lists.";
  if (!await asked(title, `${more} This is a change of its own, which can be taken back.`, isKept ? "Serve it" : "Publish it")) return;
  await change(() => restore(shown.site, number), (made) => `Deploy ${number} is served, by change ${made}.`);
}

async function name(number) {
  const alias = await asked(`Which alias shall name deploy ${number}?`, "An alias that names another deploy is moved. Moving it can be taken back.", "Let it name this", true);
  if (!alias) return;
  await change(() => moveAlias(shown.site, alias, number), (made) => `The alias ${alias} names deploy ${number}, by change ${made}.`);
}

// Puts the rows into the list, and the focus on one of them.
function fill(focused) {
  list.replaceChildren(...shown.changes.slice(0, shown.rows).map(rowOf));
  at("older").hidden = shown.changes.length <= shown.rows;
  redraw();
  const row = focused && at(`change-${focused}`);
  row?.focus({ preventScroll: true });
  row?.scrollIntoView({ block: "center" });
}

async function load(focused) {
  const changes = await changesOf(shown.site);
  shown.changes = changes.reverse();
  shown.clash = null;
  fill(focused);
}

async function show(site) {
  Object.assign(shown, { site, rows: ROWS, clash: null });
  document.title = `Changes of ${site}`;
  at("site").value = site;
  try {
    await load();
    say(shown.changes.length ? "" : `The site ${site} has no changes.`);
    const link = at("served").querySelector("a");
    link.href = `${await place}/s/${site}/`;
    link.textContent = `/s/${site}/`;
    at("served").hidden = !shown.changes.length;
    remember(site);
  } catch (fault) {
    list.replaceChildren();
    lines.replaceChildren();
    say(fault instanceof Refused ? reasonInWords(fault) : "The host doesn't answer.", true);
  }
}

// The host doesn't list its sites, so the page offers those that were shown here before.
function remember(site) {
  const known = [site, ...remembered().filter((other) => other !== site)].slice(0, 20);
  localStorage.setItem("sites", JSON.stringify(known));
  at("known").replaceChildren(...known.map((one) => Object.assign(made("option"), { value: one })));
}

function remembered() {
  try {
    return JSON.parse(localStorage.getItem("sites")) ?? [];
  } catch {
    return [];
  }
}

// The arrows go from a row's first button or link to that of the next row.
function step(event) {
  const by = { ArrowDown: 1, ArrowUp: -1 }[event.key], row = event.target.closest("#changes > li");
  if (!by || !row) return;
  event.preventDefault();
  const next = by > 0 ? row.nextElementSibling : row.previousElementSibling;
  (next?.querySelector("a, button") ?? next)?.focus();
}

at("choice").addEventListener("submit", (event) => {
  event.preventDefault();
  const hash = `#${at("site").value}`;
  if (location.hash === hash) show(at("site").value);
  else location.hash = hash;
});
at("no").addEventListener("click", () => at("question").close());
at("yes").addEventListener("click", answerYes);
at("alias").addEventListener("keydown", (event) => event.key === "Enter" && (event.preventDefault(), answerYes()));
at("older").querySelector("button").addEventListener("click", () => {
  const first = shown.changes[shown.rows]?.entry;
  shown.rows += ROWS;
  fill(first);
});
list.addEventListener("keydown", step);
new ResizeObserver(redraw).observe(list);
const shownByAddress = () => {
  const [site] = [location.hash.slice(1), ...remembered()].filter((one) => /^[a-z0-9-]{1,63}$/.test(one));
  if (site) show(site);
  else at("site").focus();
};
addEventListener("hashchange", () => /^#[a-z0-9-]{1,63}$/.test(location.hash) && show(location.hash.slice(1)));
shownByAddress();
