// What a live service does, each second.
import { ask, element, drawn, plain } from "./api.js";

const EVERY = 1_000;

export class ServicePanel {
  hint = "Click a node to see it, an edge to fail it.";

  constructor(page, panel) {
    this.page = page;
    this.tiles = element("div", { class: "tiles", id: "tiles" });
    this.lost = element("p", { class: "lost", id: "lost", role: "alert", hidden: true });
    this.stale = element(
      "p",
      { class: "row", id: "stale", hidden: true },
      element("span", { class: "quiet" }, "The picture is of an earlier change."),
      element("button", { class: "small", type: "button", onclick: () => page.again() }, "Read again"),
    );
    this.curves = element("div", { class: "block" });
    this.changes = element("table", { id: "changes" });
    panel.append(
      this.lost,
      this.tiles,
      this.stale,
      this.curves,
      element("div", {}, element("h3", {}, "The last changes"), element("div", { class: "scroll", tabindex: 0, role: "region", "aria-label": "The last changes" }, this.changes)),
    );
    this.look();
  }

  async look() {
    try {
      this.show(await ask("service"));
    } catch (error) {
      this.showLost(error.message);
    }
    setTimeout(() => this.look(), EVERY);
  }

  showLost(text) {
    this.lost.hidden = text === null;
    // What is shown of it is of the time before.
    for (const part of [this.tiles, this.curves]) part.classList.toggle("old", text !== null);
    if (text !== null && this.lost.textContent !== text) this.lost.textContent = text;
    // It is seen whatever else is looked at.
    const tab = document.getElementById("tab-service");
    if (!tab || tab.classList.contains("bad") === (text !== null)) return;
    tab.classList.toggle("bad", text !== null);
    tab.textContent = text === null ? "Service" : "Service: lost";
  }

  show({ lost, lost_seconds: seconds, rows, changes }) {
    this.showLost(lost === null ? null : `The service is lost since ${plain(seconds)} s: ${lost}. It is looked for each second.`);
    const last = rows[rows.length - 1] ?? {};
    const rate = (value) => (value === null || value === undefined ? "–" : value < 10 ? value.toFixed(1) : plain(Math.round(value)));
    const shown = [
      [plain(last.count), "changes"],
      [plain(last.generation), "generation"],
      [plain(last.lacks), "it lags by"],
      [rate(last.edits_a_second), "edits a second"],
      [rate(last.routes_a_second), "routes a second"],
      [plain(last.queue), "in the queue"],
      [plain(last.clients), "connections"],
      [time(last.build_us), "last build"],
      [time(last.commit_median_us), "a commit, median"],
    ];
    this.tiles.replaceChildren(...shown.map(([value, label]) => element("div", {}, element("b", {}, value), element("span", {}, label))));
    this.stale.hidden = !(last.generation > this.page.network.count);
    this.curves.replaceChildren(
      element("h3", {}, "Edits a second, two minutes"),
      curve(rows.map((row) => row.edits_a_second)),
      element("h3", {}, "Routes a second"),
      curve(rows.map((row) => row.routes_a_second)),
    );
    this.changes.replaceChildren(
      element("tr", {}, ...["At", "Session", "Ticket", "Outcome"].map((text) => element("th", {}, text))),
      ...changes.map((change) =>
        element(
          "tr",
          {},
          element("td", {}, new Date(1_000 * change.at).toLocaleTimeString("en-GB")),
          element("td", {}, change.session),
          element("td", {}, change.first === change.last ? plain(change.last) : `${plain(change.first)} to ${plain(change.last)}`),
          element("td", {}, change.text + (change.count === null ? "" : ` as ${plain(change.count)}`)),
        ),
      ),
    );
  }
}

/** A time of so many microseconds. */
function time(micros) {
  if (micros === null || micros === undefined) return "–";
  return micros < 1_000 ? `${plain(micros)} µs` : micros < 10_000 ? `${(micros / 1_000).toFixed(1)} ms` : `${plain(Math.round(micros / 1_000))} ms`;
}

/** A curve of the last seconds, the newest at the right. */
function curve(values) {
  const wide = 330, high = 54, span = 119;
  const most = Math.max(1, ...values.map((value) => value ?? 0));
  let path = "", isDown = false;
  values.forEach((value, place) => {
    if (value === null || value === undefined) return (isDown = false);
    const x = wide - ((values.length - 1 - place) * wide) / span, y = high - 4 - ((high - 18) * value) / most;
    path += `${isDown ? "L" : "M"}${x.toFixed(1)} ${y.toFixed(1)}`;
    isDown = true;
  });
  return drawn(
    "svg",
    { class: "chart low", viewBox: `0 0 ${wide} ${high}`, role: "img", "aria-label": `most ${plain(Math.round(most))}` },
    drawn("line", { x1: 0, x2: wide, y1: high - 4, y2: high - 4 }),
    drawn("path", { d: path || "M0 0" }),
    drawn("text", { x: 0, y: 10 }, `most: ${plain(Math.round(most))}`),
  );
}
