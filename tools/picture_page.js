"use strict";

// The data come from picture_data.py: lots (tenths of a MW), cents, quarters counted from 0 through the day. What held at
// a place of the journal is the last state that is not behind it.
const DATA = JSON.parse(document.getElementById("data").textContent);
const [DAY, HOURS] = DATA.day;
const LAST = DATA.entries.length;
const WIDTH = 1100;

const view = { place: LAST, hour: 1, quarter: 1, contract: "", zone: "", along: "delivery" };

// Small helpers

const byId = (id) => document.getElementById(id);
const mw = (lots) => (lots / 10).toFixed(1);
const euro = (cents) => (cents / 100).toFixed(2);
const total = (numbers) => numbers.reduce((sum, number) => sum + number, 0);
const most = (numbers, least) => numbers.reduce((high, number) => Math.max(high, number), least);
const unique = (values) => [...new Set(values)];
const counted = (count, one, many = `${one}s`) => `${count} ${count === 1 ? one : many}`;
const chosenQuarter = () => 4 * (view.hour - 1) + view.quarter - 1;

function stateAt(states, place, fits = () => true) {
  return states.findLast((state) => state[0] <= place && fits(state));
}

/** Adds an SVG element; `title` is what is told where the mouse rests on it. */
function draw(parent, name, attributes, text = "", title = "") {
  const element = document.createElementNS("http://www.w3.org/2000/svg", name);
  for (const [key, value] of Object.entries(attributes)) {
    element.setAttribute(key, value);
  }
  element.textContent = text;
  if (title) {
    draw(element, "title", {}, title);
  }
  parent.append(element);
  return element;
}

/** Empties an SVG and gives it a size. */
function sheet(id, height, width = WIDTH) {
  const svg = byId(id);
  svg.replaceChildren();
  svg.setAttribute("viewBox", `0 0 ${width} ${height}`);
  return svg;
}

function fillTable(id, heads, rows) {
  const isNumber = (head) => /MW|#/.test(head);
  const table = byId(id);
  table.replaceChildren();
  const headRow = table.createTHead().insertRow();
  for (const head of heads) {
    const cell = document.createElement("th");
    cell.textContent = head;
    cell.className = isNumber(head) ? "number" : "";
    headRow.append(cell);
  }
  const body = table.createTBody();
  for (const row of rows) {
    const line = body.insertRow();
    row.forEach((value, at) => {
      const cell = line.insertCell();
      cell.textContent = value;
      cell.className = isNumber(heads[at]) ? "number" : "";
    });
  }
  return body;
}

function fillSelect(id, options, chosen) {
  byId(id).replaceChildren(...options.map(([value, text]) => new Option(text, value, false, value === chosen)));
}

// Axes

function step(range, count) {
  const rough = range / count;
  const power = 10 ** Math.floor(Math.log10(rough));
  return [1, 2, 5, 10].find((factor) => factor * power >= rough) * power;
}

/** A scale from values to places, and ticks at round values within. */
function scale(low, high, from, to, count) {
  const apart = step(high - low || 1, count);
  const ticks = [];
  for (let number = Math.ceil(low / apart); number * apart <= high + apart / 1e6; number += 1) {
    ticks.push(number * apart);
  }
  const digits = Math.max(0, -Math.floor(Math.log10(apart)));
  const at = (value) => from + ((value - low) / (high - low || 1)) * (to - from);
  return { at, ticks, told: (value) => value.toFixed(digits), shift: 0 };
}

const FRAME = { left: 78, right: WIDTH - 24, top: 18, bottom: 300 };

function drawAxes(svg, x, y, xName, yName) {
  for (const tick of y.ticks) {
    const at = y.at(tick);
    draw(svg, "line", { class: "grid", x1: FRAME.left, x2: FRAME.right, y1: at, y2: at });
    draw(svg, "text", { class: "tick", x: FRAME.left - 8, y: at + 4, "text-anchor": "end" }, y.told(tick));
  }
  for (const tick of x.ticks) {
    const at = x.at(tick);
    draw(svg, "line", { class: "grid", x1: at, x2: at, y1: FRAME.top, y2: FRAME.bottom });
    draw(svg, "text", { class: "tick", x: at + x.shift, y: FRAME.bottom + 18, "text-anchor": "middle" }, x.told(tick));
  }
  const { left, right, top, bottom } = FRAME;
  draw(svg, "path", { class: "axis", fill: "none", d: `M${left} ${top}V${bottom}H${right}` });
  draw(svg, "text", { x: (left + right) / 2, y: bottom + 40, "text-anchor": "middle" }, xName);
  const middle = (top + bottom) / 2;
  draw(svg, "text", { x: 16, y: middle, "text-anchor": "middle", transform: `rotate(-90 16 ${middle})` }, yName);
}

// The map

function borderAt(border, quarter) {
  const [from, to, states] = border;
  const state = stateAt(states, view.place, (row) => row[1] <= quarter && quarter <= row[2]) || [0, 0, 0, 0, 0, 0, 0, 0];
  const [, , , forward, backward, traded, granted, halted] = state;
  const flow = traded + granted;
  const isBack = flow < 0 || (flow === 0 && backward > forward);
  return {
    ends: [from, to],
    forward,
    backward,
    granted,
    flow,
    halted: halted === 1,
    start: isBack ? to : from,
    end: isBack ? from : to,
    carried: Math.abs(flow),
    offered: isBack ? backward : forward,
  };
}

function phaseAt(hour) {
  const gate = stateAt(DATA.phases, view.place, (row) => row[1] === hour);
  return gate ? gate[2] : "open";
}

/** How much of a thing a label in a box would hide, by the thing's weight. */
const hides = (box, thing) => thing.weight * overlap(box, thing);

const overlap = (one, other) =>
  Math.max(0, Math.min(one.right, other.right) - Math.max(one.left, other.left)) *
  Math.max(0, Math.min(one.bottom, other.bottom) - Math.max(one.top, other.top));

const boxAt = (x, y, width, height) => ({
  left: x - width / 2,
  right: x + width / 2,
  top: y - height / 2,
  bottom: y + height / 2,
});

/** Places along a line and beside it, the middle first. */
function* spots(line, width, height, thick) {
  const [dx, dy] = [line.x2 - line.x1, line.y2 - line.y1];
  const length = Math.hypot(dx, dy);
  const [nx, ny] = [-dy / length, dx / length];
  for (const part of [0.5, 0.42, 0.58, 0.34, 0.66, 0.26, 0.74, 0.18, 0.82]) {
    for (const side of [1, -1]) {
      const away = thick / 2 + 3 + (Math.abs(nx) * width + Math.abs(ny) * height) / 2;
      yield [line.x1 + part * dx + side * away * nx, line.y1 + part * dy + side * away * ny];
    }
  }
}

/** Where a label can stand, each place with how much of what is there already it would hide. */
function settlings({ text, line, thick }, taken) {
  const [width, height] = [text.getComputedTextLength() + 6, 16];
  return [...spots(line, width, height, thick)].map(([x, y]) => {
    const box = boxAt(x, y, width, height);
    const isOutside = box.left < 0 || box.right > DATA.map[0] || box.top < 0 || box.bottom > DATA.map[1];
    return { x, y, box, hidden: (isOutside ? 1e6 : 0) + total(taken.map((thing) => hides(box, thing))) };
  });
}

/** Moves each label to where it hides least, those with the fewest free places first. */
function settleLabels(labels, taken) {
  for (const label of labels) {
    label.settlings = settlings(label, taken);
  }
  const free = (label) => label.settlings.filter((place) => place.hidden === 0).length;
  const settled = [];
  for (const label of labels.sort((one, other) => free(one) - free(other))) {
    const cost = (place) => place.hidden + total(settled.map((thing) => hides(place.box, thing)));
    const best = label.settlings.reduce((least, next) => (cost(next) < cost(least) ? next : least));
    label.text.setAttribute("x", best.x);
    label.text.setAttribute("y", best.y + 4);
    settled.push({ weight: 4, ...best.box });
  }
}

function lineBetween(start, end) {
  const place = (name) => DATA.zones.find((zone) => zone[0] === name);
  const [, x1, y1] = place(start);
  const [, x2, y2] = place(end);
  return { x1, y1, x2, y2 };
}

/** Points on a line, as small boxes, so that labels keep off it. */
function pointsOf(border) {
  const line = lineBetween(border.start, border.end);
  const weight = border.carried || border.halted ? 1 : 0.2;
  const count = Math.ceil(Math.hypot(line.x2 - line.x1, line.y2 - line.y1) / 12);
  return Array.from({ length: count }, (_, number) => {
    const part = (number + 0.5) / count;
    return { weight, ...boxAt(line.x1 + part * (line.x2 - line.x1), line.y1 + part * (line.y2 - line.y1), 6, 6) };
  });
}

function drawHead(svg, line, size) {
  const angle = (Math.atan2(line.y2 - line.y1, line.x2 - line.x1) * 180) / Math.PI;
  const [x, y] = [line.x1 + 0.6 * (line.x2 - line.x1), line.y1 + 0.6 * (line.y2 - line.y1)];
  const shape = `M${-size} ${-size}L${size} 0L${-size} ${size}Z`;
  draw(svg, "path", { class: "head", d: shape, transform: `translate(${x} ${y}) rotate(${angle})` });
}

const MOST_OFFERED = most(
  DATA.borders.flatMap(([, , states]) => states.map((state) => Math.max(state[3], state[4]))),
  1,
);

function toldBorder(border) {
  const [from, to] = border.ends;
  const grants = border.granted ? `, of it granted ${mw(Math.abs(border.granted))}` : "";
  return (
    `${border.start} to ${border.end}: ${mw(border.carried)} MW flow${grants}. Offered ${from} to ${to} ` +
    `${mw(border.forward)} MW, ${to} to ${from} ${mw(border.backward)} MW${border.halted ? ". Halted" : ""}`
  );
}

/** Draws a border, and answers how thick it is. */
function drawBorder(svg, border) {
  const line = lineBetween(border.start, border.end);
  const group = draw(svg, "g", {}, "", toldBorder(border));
  const thick = border.offered ? 4 + 14 * Math.sqrt(border.offered / MOST_OFFERED) : 2;
  if (border.offered) {
    draw(group, "line", { class: "offered", "stroke-width": thick, ...line });
  }
  draw(group, "line", { class: "border", ...line });
  if (border.carried) {
    const full = Math.max(2, (thick * border.carried) / border.offered);
    draw(group, "line", { class: "flow", "stroke-width": full, ...line });
    drawHead(group, line, 5 + full / 2);
  }
  if (border.halted) {
    draw(group, "line", { class: "halted", ...line });
  }
  return thick;
}

function drawNodes(svg, taken) {
  for (const [zone, x, y, width] of DATA.zones) {
    const height = DATA.map[2];
    const group = draw(svg, "g", { class: "node" });
    draw(group, "rect", { x: x - width / 2, y: y - height / 2, width, height, rx: 5 });
    draw(group, "text", { x, y: y + 5 }, zone);
    taken.push({ weight: 4, ...boxAt(x, y, width + 4, height + 4) });
  }
}

function drawLabel(svg, border) {
  const text = border.halted && !border.carried ? "halted" : `${mw(border.carried)} of ${mw(border.offered)}`;
  return draw(svg, "text", { class: border.halted ? "label stop" : "label" }, text, toldBorder(border));
}

function drawMap() {
  const svg = sheet("map", DATA.map[1], DATA.map[0]);
  const borders = DATA.borders.map((border) => borderAt(border, chosenQuarter()));
  const told = borders.filter((border) => border.carried || border.halted);
  const thick = new Map(borders.map((border) => [border, drawBorder(svg, border)]));
  const taken = [];
  drawNodes(svg, taken);
  taken.push(...borders.flatMap(pointsOf));
  const labels = told.map((border) => ({
    text: drawLabel(svg, border),
    line: lineBetween(border.start, border.end),
    thick: thick.get(border),
  }));
  settleLabels(labels, taken);
  drawMapTexts(borders);
}

function drawMapTexts(borders) {
  const carrying = borders.filter((border) => border.carried).length;
  const phase = phaseAt(view.hour);
  byId("quarter-text").textContent =
    `Hour ${view.hour} is ${phase} here. In quarter ${view.quarter} something flows over ${carrying} of ` +
    `${counted(borders.length, "border")}.`;
  fillTable(
    "borders",
    ["Border", "Flows to", "Flow, MW", "Of it granted, MW", "Offered forward, MW", "Offered back, MW", "Halted"],
    borders.map((border) => [
      border.ends.join(" \u2013 "),
      border.carried ? border.end : "",
      mw(border.carried),
      mw(Math.abs(border.granted)),
      mw(border.forward),
      mw(border.backward),
      border.halted ? "halted" : "",
    ]),
  );
}

// The order book

/** The open orders of the contract at the place as the market's lines have them: the best price first, then the earlier moment. */
function bookAt() {
  const orders = [];
  for (const [name, contract, zone, side, kind, caller, states] of DATA.orders) {
    const state = stateAt(states, view.place);
    if (contract === view.contract && state && state[3] > 0 && (!view.zone || zone === view.zone)) {
      const [, price, shows, left, moment] = state;
      orders.push({ name, zone, side, kind, caller, price, shows, left, moment });
    }
  }
  const better = (one, other) => (one.side === "sell" ? one.price - other.price : other.price - one.price);
  return orders.sort(
    (one, other) => one.side.localeCompare(other.side) || better(one, other) || one.moment - other.moment,
  );
}

/** A step for each price of one side: the price, and what is shown there or better. */
function stepsOf(orders) {
  const steps = [];
  let sum = 0;
  for (const order of orders) {
    sum += order.shows;
    if (steps.length && steps.at(-1).price === order.price) {
      steps.at(-1).sum = sum;
    } else {
      steps.push({ price: order.price, sum });
    }
  }
  return steps;
}

function drawSteps(svg, side, steps, x, y) {
  if (!steps.length) {
    return;
  }
  const end = side === "sell" ? FRAME.right : FRAME.left;
  let path = `M${x.at(steps[0].price / 100)} ${FRAME.bottom}`;
  for (const { price, sum } of steps) {
    path += `H${x.at(price / 100)}V${y.at(sum / 10)}`;
  }
  path += `H${end}`;
  draw(svg, "path", { class: `area ${side}`, d: `${path}V${FRAME.bottom}Z` });
  draw(svg, "path", { class: `curve ${side}`, d: path });
}

function drawBook() {
  const orders = bookAt();
  const place = view.zone ? ` in ${view.zone}` : "";
  byId("book-text").textContent = orders.length
    ? `${orders.length} open${place} after entry ${view.place}. Orders of different zones trade where capacity lets them.`
    : `Nothing of ${view.contract} is open${place} after entry ${view.place}.`;
  drawDepth(orders);
  fillTable(
    "book",
    ["Side", "Price, EUR/MWh", "Shows, MW", "Left, MW", "Zone", "Caller", "Order", "Kind"],
    orders.map((order) => [
      order.side, euro(order.price), mw(order.shows), mw(order.left), order.zone, order.caller, order.name, order.kind,
    ]),
  );
}

function drawDepth(orders) {
  const svg = sheet("depth", orders.length ? 350 : 10);
  if (!orders.length) {
    return;
  }
  const prices = orders.map((order) => order.price / 100);
  const [low, high] = [Math.min(...prices), Math.max(...prices)];
  const margin = Math.max(1, (high - low) * 0.12);
  const sides = ["buy", "sell"].map((side) => [side, stepsOf(orders.filter((order) => order.side === side))]);
  const deepest = most(sides.map(([, steps]) => (steps.length ? steps.at(-1).sum / 10 : 0)), 0);
  const x = scale(low - margin, high + margin, FRAME.left, FRAME.right, 9);
  const y = scale(0, deepest * 1.1, FRAME.bottom, FRAME.top, 5);
  drawAxes(svg, x, y, "Price, EUR/MWh", "Shown, MW");
  for (const [side, steps] of sides) {
    drawSteps(svg, side, steps, x, y);
  }
}

// Prices of trades

function toldTrade(trade) {
  const [entry, contract, , , taker, maker, seller, buyer, lots, cents, route] = trade;
  return `Entry ${entry}: ${contract}, ${mw(lots)} MW at ${euro(cents)} EUR/MWh, ${taker} with ${maker}, ${seller} to ${buyer}` +
    (route ? ` over ${route}` : "");
}

function drawPrices() {
  const trades = DATA.trades;
  const svg = sheet("prices", trades.length ? 350 : 10);
  const energy = total(trades.map((trade) => (trade[8] * (trade[3] - trade[2])) / 40));
  byId("trades-text").textContent = trades.length
    ? `${counted(trades.length, "trade")}, ${energy.toFixed(1)} MWh. Those behind the place in the journal are pale.`
    : "Nothing was traded.";
  if (!trades.length) {
    return;
  }
  const prices = trades.map((trade) => trade[9] / 100);
  const [low, high] = [Math.min(...prices), Math.max(...prices)];
  const margin = Math.max(1, (high - low) * 0.1);
  const y = scale(low - margin, high + margin, FRAME.bottom, FRAME.top, 8);
  const x = view.along === "delivery" ? hourScale(trades) : scale(0, LAST, FRAME.left, FRAME.right, 12);
  const xName = view.along === "delivery" ? "Hour of delivery" : "Entry of the journal";
  drawAxes(svg, x, y, xName, "Price, EUR/MWh");
  const largest = most(trades.map((trade) => trade[8]), 1);
  for (const trade of trades) {
    drawTrade(svg, trade, x, y, Math.sqrt(trade[8] / largest));
  }
  byId("prices-legend").textContent =
    (view.along === "delivery" ? "A bar covers the time of delivery; the thicker, the more MW. " : "The larger, the more MW. ") +
    "Orders are blue, blocks orange.";
}

/** The hours in which something was traded. The name of each stands in the middle of its time. */
function hourScale(trades) {
  const first = Math.min(...trades.map((trade) => Math.floor(trade[2] / 4)));
  const last = Math.max(...trades.map((trade) => Math.ceil(trade[3] / 4)));
  const at = (quarter) => FRAME.left + ((quarter / 4 - first) / (last - first)) * (FRAME.right - FRAME.left);
  const ticks = Array.from({ length: last - first }, (_, number) => 4 * (first + number));
  const shift = (FRAME.right - FRAME.left) / (last - first) / 2;
  return { at, ticks, told: (quarter) => `h${quarter / 4 + 1}`, shift };
}

function drawTrade(svg, trade, x, y, size) {
  const at = y.at(trade[9] / 100);
  const name = `trade${trade[1].includes(" ") ? " block" : ""}${trade[0] > view.place ? " later" : ""}`;
  if (view.along === "delivery") {
    const ends = { x1: x.at(trade[2]) + 1, x2: x.at(trade[3]) - 1, y1: at, y2: at };
    draw(svg, "line", { class: name, "stroke-width": 3 + 5 * size, ...ends }, "", toldTrade(trade));
  } else {
    draw(svg, "circle", { class: name, cx: x.at(trade[0]), cy: at, r: 3 + 9 * size }, "", toldTrade(trade));
  }
}

// Net positions

/** Runs of equal net positions within an hour: the first quarter, how many, and the lots. */
function runsOf(nets) {
  const runs = [];
  for (const [quarter, net] of [...nets].sort((one, other) => one[0] - other[0])) {
    const run = runs.at(-1);
    if (run && run.net === net && run.first + run.count === quarter && Math.floor(run.first / 4) === Math.floor(quarter / 4)) {
      run.count += 1;
    } else {
      runs.push({ first: quarter, count: 1, net });
    }
  }
  return runs;
}

function drawPositions() {
  const zones = DATA.zones.map(([zone]) => zone).filter((zone) => DATA.positions.some((row) => row[1] === zone));
  const [left, right, top, row] = [130, WIDTH - 110, 26, 24];
  const svg = sheet("positions", zones.length ? top + row * zones.length + 26 : 10);
  byId("positions-text").textContent = zones.length
    ? "After the last entry: sold less bought, in MW. A click on a quarter picks it on the map."
    : "No zone has sold or bought anything.";
  if (!zones.length) {
    return;
  }
  const quarters = DATA.positions.map((position) => position[0]);
  const first = Math.floor(Math.min(...quarters) / 4) * 4;
  const last = Math.ceil((Math.max(...quarters) + 1) / 4) * 4;
  const wide = (right - left) / (last - first);
  const box = { at: (quarter) => left + (quarter - first) * wide, wide, row };
  drawHours(svg, first, last, box, top, top + row * zones.length, right);
  zones.forEach((zone, number) => drawZone(svg, zone, top + row * number, box, right));
  if (first <= chosenQuarter() && chosenQuarter() < last) {
    const place = { x: box.at(chosenQuarter()), y: top, width: wide, height: row * zones.length };
    draw(svg, "rect", { class: "chosen", ...place });
  }
  byId("positions-legend").textContent =
    "Orange with a plus: sold more than bought. Blue with a minus: bought more than sold. The fuller the colour, the more MW. " +
    "At the right the sum over the day, in MWh.";
}

function drawHours(svg, first, last, box, top, bottom, right) {
  for (let quarter = first; quarter < last; quarter += 4) {
    const at = box.at(quarter);
    draw(svg, "line", { class: "grid", x1: at, x2: at, y1: top, y2: bottom });
    const name = `h${quarter / 4 + 1}`;
    draw(svg, "text", { class: "tick", x: at + 2 * box.wide, y: top - 9, "text-anchor": "middle" }, name);
  }
  draw(svg, "line", { class: "grid", x1: right, x2: right, y1: top, y2: bottom });
  draw(svg, "text", { class: "tick", x: WIDTH - 4, y: top - 9, "text-anchor": "end" }, "Day, MWh");
  const under = "Hour of delivery, in quarters; cells in MW";
  draw(svg, "text", { x: (box.at(first) + right) / 2, y: bottom + 20, "text-anchor": "middle" }, under);
}

const signed = (lots) => (lots > 0 ? "+" : "") + mw(lots);

const MOST_NET = most(DATA.positions.map(([, , sold, bought]) => Math.abs(sold - bought)), 1);

function drawZone(svg, zone, top, box, right) {
  const nets = new Map(
    DATA.positions.filter((row) => row[1] === zone).map(([quarter, , sold, bought]) => [quarter, sold - bought]),
  );
  draw(svg, "line", { class: "grid", x1: box.at(0), x2: right, y1: top, y2: top });
  draw(svg, "text", { x: 122, y: top + 17, "text-anchor": "end" }, zone);
  for (const run of runsOf(nets)) {
    drawRun(svg, zone, run, top, box);
  }
  const sum = total([...nets.values()]) / 4;
  draw(svg, "text", { class: "tick", x: WIDTH - 4, y: top + 17, "text-anchor": "end" }, signed(sum));
}

function drawRun(svg, zone, run, top, box) {
  const [x, width] = [box.at(run.first), box.wide * run.count];
  const side = run.net < 0 ? "buy" : "sell";
  const strength = run.net ? 0.15 + (0.5 * Math.abs(run.net)) / MOST_NET : 0;
  for (let quarter = run.first; quarter < run.first + run.count; quarter += 1) {
    const place = { x: box.at(quarter), y: top + 1, width: box.wide, height: box.row - 2 };
    const told = `${zone}, h${Math.floor(quarter / 4) + 1}q${(quarter % 4) + 1}: ${signed(run.net)} MW`;
    const cell = draw(svg, "rect", { class: `cell ${side}`, "fill-opacity": strength, ...place }, "", told);
    cell.addEventListener("click", () => choose({ hour: Math.floor(quarter / 4) + 1, quarter: (quarter % 4) + 1 }));
  }
  const text = signed(run.net);
  if (8 * text.length <= width) {
    draw(svg, "text", { class: "value", x: x + width / 2, y: top + 16, "text-anchor": "middle" }, text);
  }
}

// The journal

function fillJournal() {
  const body = fillTable("journal", ["#", "Caller", "Command", "Answer"], []);
  for (const [number, caller, asked, kind, answer] of DATA.entries) {
    const line = body.insertRow();
    line.dataset.number = number;
    for (const [text, name] of [[number, "number"], [caller, ""], [asked, "asked"], [answer, kind]]) {
      const cell = line.insertCell();
      cell.textContent = text;
      cell.className = name;
    }
    line.addEventListener("click", () => choose({ place: number }));
  }
}

function filterJournal() {
  const wanted = byId("filter").value.toLowerCase();
  const [caller, answer] = [byId("caller").value, byId("answer").value];
  let shown = 0;
  DATA.entries.forEach((entry, at) => {
    const text = entry.join(" ").toLowerCase();
    const fits = text.includes(wanted) && (!caller || entry[1] === caller) && (!answer || entry[3] === answer);
    byId("journal").tBodies[0].rows[at].hidden = !fits;
    shown += fits;
  });
  byId("journal-text").textContent = `${shown} of ${counted(LAST, "entry", "entries")}. A click on one goes to its place.`;
}

function markEntry() {
  for (const line of byId("journal").tBodies[0].rows) {
    line.classList.toggle("here", Number(line.dataset.number) === view.place);
  }
}

function tellPlace() {
  const [number, caller, asked, kind] = DATA.entries[view.place - 1] || [0, "", "", ""];
  byId("place").value = view.place;
  byId("place-text").textContent = number
    ? `After entry ${number} of ${LAST}: ${caller} ${asked} (${kind})`
    : "Before the first entry";
}

// What is picked

/** What is drawn anew where one of these was picked. */
const DRAWN = [
  [tellPlace, ["place"]],
  [drawMap, ["place", "hour", "quarter"]],
  [drawBook, ["place", "contract", "zone"]],
  [drawPrices, ["place", "along"]],
  [drawPositions, ["hour", "quarter"]],
  [markEntry, ["place"]],
];

function choose(picked) {
  Object.assign(view, picked);
  for (const id of ["hour", "quarter", "contract", "zone", "along"]) {
    byId(id).value = view[id];
  }
  for (const [drawn, picks] of DRAWN) {
    if (picks.some((pick) => pick in picked)) {
      drawn();
    }
  }
}

/** The contract with the most open orders at the end, or else with the most orders. */
function firstContract() {
  const counts = new Map();
  for (const [, contract, , , , , states] of DATA.orders) {
    counts.set(contract, (counts.get(contract) || 0) + 1 + (states.at(-1)[3] > 0 ? 1000 : 0));
  }
  return [...counts].reduce((best, next) => (next[1] > best[1] ? next : best), ["h1", 0])[0];
}

/** The quarter in which the borders carry the most, or in which something was traded or offered. */
function firstQuarter() {
  const flows = new Map();
  for (const [quarter, , traded, granted] of DATA.exchanges) {
    flows.set(quarter, (flows.get(quarter) || 0) + Math.abs(traded + granted));
  }
  const [busiest] = [...flows].reduce((best, next) => (next[1] > best[1] ? next : best), [null, 0]);
  const offers = DATA.borders.flatMap(([, , states]) => states.map((state) => state[1]));
  return busiest ?? DATA.positions[0]?.[0] ?? offers[0] ?? 0;
}

/** What the address says behind `#`, as `#hour=11&place=90`. */
function fromAddress() {
  const picked = {};
  for (const [name, value] of new URLSearchParams(location.hash.slice(1))) {
    if (name in view) {
      picked[name] = typeof view[name] === "number" ? Number(value) : value;
    }
  }
  return picked;
}

function fillPicks() {
  const numbers = (count) => Array.from({ length: count }, (_, number) => [number + 1, `${number + 1}`]);
  fillSelect("hour", numbers(HOURS), 1);
  fillSelect("quarter", numbers(4), 1);
  const contracts = unique(DATA.orders.map((order) => order[1]));
  fillSelect("contract", (contracts.length ? contracts : ["h1"]).map((name) => [name, name]), "");
  fillSelect("zone", [["", "all zones"], ...DATA.zones.map(([zone]) => [zone, zone])], "");
  fillSelect("caller", [["", "any"], ...DATA.callers.map(([name, role]) => [name, `${name}, ${role}`])], "");
  byId("place").max = LAST;
}

function listen() {
  for (const id of ["place", "hour", "quarter"]) {
    byId(id).addEventListener("input", (event) => choose({ [id]: Number(event.target.value) }));
  }
  for (const id of ["contract", "zone", "along"]) {
    byId(id).addEventListener("input", (event) => choose({ [id]: event.target.value }));
  }
  for (const id of ["filter", "caller", "answer"]) {
    byId(id).addEventListener("input", filterJournal);
  }
  byId("back").addEventListener("click", () => choose({ place: Math.max(0, view.place - 1) }));
  byId("on").addEventListener("click", () => choose({ place: Math.min(LAST, view.place + 1) }));
  window.addEventListener("hashchange", () => choose(fromAddress()));
}

function begin() {
  const refused = DATA.entries.filter((entry) => entry[3] === "refused").length;
  byId("day").textContent = DAY;
  document.title = `sidc: ${DAY}`;
  byId("summary").textContent =
    `${HOURS} hours, ${counted(DATA.zones.length, "zone")}, ${counted(DATA.borders.length, "border")}, ` +
    `${counted(DATA.callers.length, "caller")}; ${counted(LAST, "entry", "entries")}, ${refused} of them refused; ` +
    `${counted(DATA.trades.length, "trade")}.`;
  fillPicks();
  fillJournal();
  filterJournal();
  listen();
  const quarter = firstQuarter();
  const first = { hour: Math.floor(quarter / 4) + 1, quarter: (quarter % 4) + 1, contract: firstContract() };
  choose({ ...view, ...first, ...fromAddress() });
}

begin();
