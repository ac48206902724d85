// A till over the hub, in JavaScript: node till.js http://127.0.0.1:8730 TOKEN till.json [SALES [PAUSE]]
//
// It makes SALES sales (2) at a shelf price, asks again PAUSE seconds (2) after a request without an answer, and cuts its connection amid the
// second sale. What it asks stands in till.json, on its own disk, before it is asked: where it was ended amid a sale it asks that one again
// first. Before the first sale of a day it looks whether the chain has all of its sales: over an older copy it sells nothing.
"use strict";
const fs = require("fs");
const folderOf = require("path").dirname;

const [hub, token, path, sales = "2", pause = "2"] = process.argv.slice(2);
const { request } = require(hub.startsWith("https:") ? "https" : "http");
const isNew = !fs.existsSync(path);
// Its last sale, whether that one is open, and the greatest serial whose record stands.
const kept = { sale: { serial: 0 }, open: false, taken: 0, ...(isNew ? {} : JSON.parse(fs.readFileSync(path, "utf8"))) };

// Writes what it keeps, whole or not at all.
function keep(changes) {
  Object.assign(kept, changes);
  const file = fs.openSync(`${path}.new`, "w");
  fs.writeSync(file, JSON.stringify(kept));
  fs.fsyncSync(file);
  fs.closeSync(file);
  fs.renameSync(`${path}.new`, path);
  const folder = fs.openSync(folderOf(path), "r");
  fs.fsyncSync(folder);
  fs.closeSync(folder);
}

// What an answer says, or null where it isn't the hub's: then nothing is known.
function read(status, text, wanted) {
  try {
    const told = JSON.parse(text);
    if (String(told.type).startsWith("urn:verifactu:") || (status < 300 && wanted in told)) return [status, told];
  } catch { /* no JSON */ }
  if (status < 500) console.error(`something between till and hub answers ${status}: ${text.slice(0, 80)}`); // for a person
  return null;
}

// Status and answer, or null where there was none.
function askOnce(method, to, body, isCut) {
  return new Promise((resolve) => {
    const headers = { Authorization: `Bearer ${token}`, "Content-Type": "application/json" };
    const asked = request(hub + to, { method, headers, timeout: 40000, agent: false }, (answer) => {
      let text = "";
      answer.on("data", (data) => { text += data; });
      answer.on("end", () => resolve(answer.complete ? read(answer.statusCode, text, body ? "record" : "serial") : null));
      answer.on("error", () => resolve(null));
    });
    asked.on("timeout", () => asked.destroy());
    asked.on("error", () => resolve(null));
    asked.on("close", () => resolve(null)); // after an answer was told this does nothing
    asked.end(body, () => { if (isCut) asked.destroy(); });
  });
}

// Asks the same until there is an answer that says something certain.
async function ask(method, to, body, isCut) {
  let answer = await askOnce(method, to, body, isCut);
  while (answer === null || answer[0] === 429 || answer[0] >= 500) {
    await new Promise((resolve) => setTimeout(resolve, 1000 * Number(pause)));
    answer = await askOnce(method, to, body, false);
  }
  return answer;
}

// Before the first sale of a day: a chain that lacks a sale of this till is an older copy, over which nothing may be sold. A till that is new,
// or lost its disk, goes on with the serial that the chain has.
async function check() {
  const [status, told] = await ask("GET", "/v1/last");
  if (status !== 200) throw new Error(`${told.title}: ${told.detail}`);
  if (told.serial < kept.taken) throw new Error(`the chain is an older copy: it has serial ${told.serial}, and ${kept.taken} was sold. Nothing is sold`);
  if (isNew && kept.sale.serial === 0) keep({ sale: { serial: told.serial }, taken: told.serial });
}

// Asks until there is an answer, the same under the same serial, and prints the ticket.
async function settle(sale, isCut = false) {
  keep({ sale, open: true });
  const [status, told] = await ask("POST", "/v1/sales", JSON.stringify(sale), isCut);
  if (status > 201) {
    if ([400, 409, 413].includes(status)) keep({ open: false }); // it isn't registered; else it stays open, for an earlier try may have been
    throw new Error(`${told.title}: ${told.detail}`);
  }
  keep({ open: false, taken: sale.serial });
  const total = sale.lines.reduce((sum, line) => sum + line.total, 0);
  if (told.record.total !== total) throw new Error(`serial ${sale.serial} was given to two sales: ${JSON.stringify(told.record)}`);
  console.log(`${told.answer} ${told.num} ${told.ticket.date} ${told.ticket.total}\n${told.ticket.link}`);
}

(async () => {
  let day = new Date().toDateString();
  await check();
  if (kept.open) await settle(kept.sale);
  for (let made = 0; made < Number(sales); made++) {
    if (day !== new Date().toDateString()) {
      await check();
      day = new Date().toDateString();
    }
    const lines = [{ class: "21", total: made % 2 ? 250 : 1000 }];
    await settle({ serial: kept.sale.serial + 1, series: "A", kind: "F2", lines }, made === 1);
  }
})().catch((fault) => {
  console.error(fault.message);
  process.exitCode = 1;
});
