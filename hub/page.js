"use strict";
// The owner's page: it asks /v1/state every five seconds while it is looked at, and the sums where records came. It only reads, and adds up
// nothing but base, tax and surcharge of the sums that the program gives.

const EVERY = 5000; // milliseconds from one look to the next
const SUMS_EVERY = 30000; // milliseconds from one look at the sums to the next, at least
const GONE_AFTER = 35000; // milliseconds until the hub counts as gone
const PAGE = 50; // refused records that are shown at once
const LATE = 600000; // milliseconds without a word of the agency after which what waits is marked

const STATES = {
  pending: "pendiente", correcto: "aceptado", "con-errores": "aceptado con errores", vet: "rechazado", held: "rechazado: ya consta",
  "not-held": "rechazado: no consta", gone: "rechazado: consta anulada",
};
const REFUSED = ["vet", "held", "not-held", "gone"];
const WHAT_TO_DO = {
  vet: "Busque el código en la lista de errores de la Agencia. Si lo que se entregó es correcto, subsane el registro en la caja; si está mal, expida una factura rectificativa.",
  "con-errores": "Busque el código en la lista de errores de la Agencia. Si lo que se entregó es correcto, subsane el registro en la caja; si está mal, expida una factura rectificativa.",
  held: "La Agencia ya tiene esta factura. Avise a su técnico antes de hacer nada con ella.",
  "not-held": "La Agencia no tiene la factura que se corrige o se anula. Avise a su técnico.",
  gone: "La Agencia tiene esta factura como anulada. Avise a su técnico.",
};
const WHAT_TO_DO_WITH_A_CANCELLATION = "Busque el código en la lista de errores de la Agencia. La factura no está anulada: vuelva a anularla en la caja.";

const part = (id) => document.getElementById(id);
const euros = (cents) => new Intl.NumberFormat("es-ES", { style: "currency", currency: "EUR", useGrouping: "always" }).format(cents / 100);
const count = (number) => new Intl.NumberFormat("es-ES", { useGrouping: "always" }).format(number);
const day = (text) => text.split("-").reverse().join("/");
const hour = (moment) => new Intl.DateTimeFormat("es-ES", { dateStyle: "short", timeStyle: "medium", timeZone: "Europe/Madrid" }).format(moment);
const dayOf = (moment) => new Intl.DateTimeFormat("sv-SE", { timeZone: "Europe/Madrid" }).format(moment);

let now = new Date(); // the hub's clock, at its last answer
let seen = null; // when the hub answered last, by this machine's clock
let mark = ""; // the counts, the day and the month that the sums were asked for
let summed = 0; // when the sums were asked
let timer = null;
let isLooking = false;
let firstRefused = 1; // the first of the refused records that is shown
let lastToday = ""; // the day that the day's field showed by itself

function element(name, text, className) {
  const made = document.createElement(name);
  made.textContent = text;
  if (className) made.className = className;
  return made;
}

function cell(label, text, className) {
  const made = element("td", text, className);
  made.dataset.label = label;
  return made;
}

function show(id, isShown) {
  part(id).hidden = !isShown;
}

async function ask(path) {
  const stop = new AbortController();
  const late = setTimeout(() => stop.abort(), GONE_AFTER);
  try {
    const answer = await fetch(new URL(path, location.origin + location.pathname), { signal: stop.signal, cache: "no-store" });
    if (answer.headers.get("Date")) now = new Date(answer.headers.get("Date"));
    if (!answer.ok) {
      const { detail } = await answer.json().catch(() => ({}));
      throw Object.assign(new Error("status"), { status: answer.status, detail });
    }
    return await answer.json();
  } finally {
    clearTimeout(late);
  }
}

function stateText(row) {
  return STATES[row.state] + (row.code === undefined ? "" : ` (código ${row.code})`);
}

// A record's state, and where a newer one of these rows cancels its invoice, that.
function agencyText(row, rows) {
  const isOf = (other) => other.num === row.num && other.record === "anulacion" && other.place > row.place && !REFUSED.includes(other.state);
  const cancellation = row.record === "anulacion" ? undefined : rows.find(isOf);
  if (!cancellation) return stateText(row);
  return cancellation.state === "pending" ? "anulación pendiente" : "anulada";
}

function kindOf(row) {
  return row.record === "anulacion" ? "anulación" : row.kind;
}

function whatToDo(row) {
  return row.record === "anulacion" && row.state === "vet" ? WHAT_TO_DO_WITH_A_CANCELLATION : WHAT_TO_DO[row.state];
}

function showWaiting(state) {
  const waiting = state.records - state.noted;
  part("waiting").textContent = count(waiting);
  const at = state.noted_at ? new Date(state.noted_at) : null;
  let text = at ? `Última respuesta de la Agencia: ${hour(at)}.` : "Sin respuesta de la Agencia desde que arrancó el servicio.";
  if (state.oldest_waiting) text += ` Primera factura pendiente: ${state.oldest_waiting.num}, del ${day(state.oldest_waiting.date)}.`;
  part("noted").textContent = waiting || at ? text : "Nada que enviar.";
  part("waiting-card").classList.toggle("late", waiting > 0 && (!at || now - at > LATE));
}

function task(row) {
  const item = document.createElement("li");
  const first = document.createElement("p");
  const total = row.total === undefined ? "" : `, ${euros(row.total)}`;
  first.append(element("strong", row.num), ` del ${day(row.date)} (${kindOf(row)}${total}), registro ${count(row.place)}: ${stateText(row)}.`);
  item.append(first, element("p", whatToDo(row), "note"));
  return item;
}

function showRefused(rows, all) {
  show("refused-part", all > 0);
  show("refused-pages", all > PAGE);
  part("refused-which").textContent = `${count(firstRefused)} a ${count(firstRefused + rows.length - 1)} de ${count(all)}`;
  part("refused-before").disabled = firstRefused === 1;
  part("refused-after").disabled = firstRefused + PAGE > all;
  part("refused").replaceChildren(...rows.map(task));
}

// Names what was refused of a day or a month beside its sums.
function showRefusedOf(id, sums) {
  const named = sums.refused.map((row) => `${row.num} (${euros(row.total)})`).join(", ");
  const more = sums.refused_count - sums.refused.length;
  show(id, sums.refused_count > 0);
  part(id).textContent = `Rechazado, no se suma: ${named}${more > 0 ? ` y ${count(more)} más` : ""}.`;
}

async function turnPage(by) {
  firstRefused = Math.max(1, firstRefused + by);
  try {
    await lookAtState();
  } catch (problem) {
    showGone(problem);
  }
}

// Those of the newest records that were accepted with errors, and that no newer record of their invoice answers.
function showErrors(rows) {
  const open = rows.filter((row) => row.state === "con-errores" && !rows.some((other) => other.num === row.num && other.place > row.place));
  show("errors-part", open.length > 0);
  part("errors").replaceChildren(...open.map(task));
}

function showNewest(rows) {
  show("none", rows.length === 0);
  show("newest-table", rows.length > 0);
  part("newest").replaceChildren(...rows.map((row) => {
    const line = document.createElement("tr");
    const amount = (cents) => (cents === undefined ? "–" : euros(cents));
    line.append(
      cell("Registro", count(row.place)), cell("Factura", row.num), cell("Fecha", day(row.date)), cell("Tipo", kindOf(row)),
      cell("Cuota", amount(row.cuota), "amount"), cell("Total", amount(row.total), "amount"),
      cell("Agencia", agencyText(row, rows), REFUSED.includes(row.state) ? "bad" : row.state === "con-errores" ? "warn" : ""));
    return line;
  }));
}

function showState(state) {
  part("issuer").textContent = state.issuer;
  document.title = `Facturas ${state.issuer}`;
  show("trial", state.practice);
  part("records").textContent = count(state.records);
  part("starts").textContent = state.starts > 1 ? `El programa se ha arrancado ${count(state.starts)} veces.` : "";
  showWaiting(state);
  showRefused(state.refused, state.refused_count);
  showErrors(state.newest);
  showNewest(state.newest);
}

function total(sums) {
  return euros(sums.base + sums.tax + sums.surcharge);
}

function sumCells(sums) {
  return [cell("Líneas", count(sums.lines), "amount"), cell("Base", euros(sums.base), "amount"), cell("Cuota", euros(sums.tax), "amount"),
    cell("Recargo", euros(sums.surcharge), "amount"), cell("Total", total(sums), "amount")];
}

function showMonth(sums) {
  part("sums").replaceChildren(...sums.classes.map((row) => {
    const line = document.createElement("tr");
    line.append(cell("Clase", row.class), ...sumCells(row));
    return line;
  }));
  const line = document.createElement("tr");
  const head = element("th", "Total");
  head.scope = "row";
  line.append(head, ...sumCells(sums));
  part("all-sums").replaceChildren(line);
  showRefusedOf("month-refused", sums);
}

function showDay(sums) {
  const pairs = [["Base", euros(sums.base)], ["Cuota", euros(sums.tax)], ["Recargo", euros(sums.surcharge)], ["Líneas", count(sums.lines)]];
  part("day-total").textContent = total(sums);
  part("day-sums").replaceChildren(...pairs.flatMap(([name, text]) => [element("dt", name), element("dd", text)]));
  showRefusedOf("day-refused", sums);
}

// Asks the sums of a field's day or month, and shows them if the field still says the same. Whether that went well.
async function lookAtPeriod(id, path, form, words, showSums) {
  const field = part(id);
  const wanted = field.value;
  const fault = (text) => {
    show(`${id}-fault`, text !== "");
    part(`${id}-fault`).textContent = text;
  };
  if (!form.test(wanted)) {
    fault(words.form);
    return true;
  }
  try {
    const sums = await ask(`${path}/${wanted}`);
    if (field.value === wanted) {
      fault("");
      showSums(sums);
    }
    return true;
  } catch (problem) {
    if (field.value === wanted) fault(problem.status === 400 ? words.none : "No se han podido leer las sumas.");
    return problem.status === 400;
  }
}

function lookAtDay() {
  const words = { form: "Escriba el día como 2025-01-31.", none: "No hay datos de ese día." };
  return lookAtPeriod("day", "v1/days", /^\d{4}-\d{2}-\d{2}$/, words, showDay);
}

function lookAtMonth() {
  const words = { form: "Escriba el mes como 2025-01.", none: "No hay datos de ese mes." };
  return lookAtPeriod("month", "v1/months", /^\d{4}-\d{2}$/, words, showMonth);
}

// A row a day of the month, one asked after the other, while they are looked at: in a long chain each takes seconds.
async function lookAtDays() {
  const month = part("month").value;
  part("days").replaceChildren();
  part("days-note").textContent = "";
  if (!part("days-part").open || !/^\d{4}-\d{2}$/.test(month)) return;
  const days = new Date(Date.UTC(Number(month.slice(0, 4)), Number(month.slice(5)), 0)).getUTCDate();
  const isWanted = () => part("days-part").open && part("month").value === month;
  try {
    for (let number = 1; number <= days; number += 1) {
      const date = `${month}-${String(number).padStart(2, "0")}`;
      if (date > dayOf(now)) break;
      part("days-note").textContent = `Leyendo el ${day(date)}…`;
      const sums = await ask(`v1/days/${date}`);
      if (!isWanted()) return;
      const line = document.createElement("tr");
      line.append(cell("Día", day(date)), ...sumCells(sums),
        cell("Rechazados", sums.refused_count ? count(sums.refused_count) : "–", sums.refused_count ? "bad" : ""));
      part("days").append(line);
    }
    part("days-note").textContent = `Leído: ${hour(now)}. Para leerlo otra vez, cierre y abra esta lista.`;
  } catch {
    if (isWanted()) part("days-note").textContent = "No se han podido leer las sumas.";
  }
}

// Today's day and month stand in the fields until others are chosen.
function chooseToday() {
  const today = dayOf(now);
  if (part("day").value === lastToday) part("day").value = today;
  if (!part("month").value && lastToday === "") part("month").value = today.slice(0, 7);
  lastToday = today;
}

async function lookAtSums(state) {
  chooseToday();
  const wanted = [state.records, state.noted, state.refused_count, lastToday].join(" ");
  if (mark === wanted || Date.now() - summed < SUMS_EVERY) return;
  summed = Date.now();
  const isDayRead = await lookAtDay();
  if (await lookAtMonth() && isDayRead) mark = wanted;
}

function showGone(problem) {
  let text = "El servicio no contesta.";
  if (problem.status === 503) text = "El programa de facturas no contesta: las cajas no pueden vender ahora.";
  if (problem.status === 503 && problem.detail) text += ` Motivo, en inglés: ${problem.detail}.`;
  if (problem.status === 401 || problem.status === 403) text = "La contraseña ya no vale. Vuelva a cargar la página.";
  part("gone").textContent = text + (seen ? ` Lo que se ve es de ${hour(seen)}.` : "");
  show("gone", true);
  document.body.classList.add("stale");
}

async function lookAtState() {
  const state = await ask(`v1/state?refused=${firstRefused}`);
  if (state.refused.length === 0 && firstRefused > 1) {
    firstRefused = 1; // there are fewer than before
    return lookAtState();
  }
  seen = new Date();
  showState(state);
  show("gone", false);
  document.body.classList.remove("stale");
  part("clock").textContent = `Actualizado: ${hour(now)}`;
  return state;
}

async function look() {
  timer = null;
  isLooking = true;
  try {
    await lookAtSums(await lookAtState());
  } catch (problem) {
    showGone(problem);
  }
  isLooking = false;
  if (document.visibilityState === "visible") timer = setTimeout(look, EVERY);
}

document.addEventListener("visibilitychange", () => {
  if (document.visibilityState === "visible" && timer === null && !isLooking) look();
});
part("day").addEventListener("change", lookAtDay);
part("month").addEventListener("change", () => {
  lookAtMonth();
  lookAtDays();
});
part("days-part").addEventListener("toggle", lookAtDays);
part("refused-before").addEventListener("click", () => turnPage(-PAGE));
part("refused-after").addEventListener("click", () => turnPage(PAGE));
look();
