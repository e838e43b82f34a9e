// How large tables are, and how long ways are: measured for each choice of landmarks, and compared.
import { ask, element, drawn, plain } from "./api.js";

const SHOWN = {
  table_mean: "Table, mean",
  table_greatest: "Table, greatest",
  full_table: "Table with a port for each node",
  entries_mean: "Entries, mean",
  directory_mean: "Members, mean",
  stretch_mean: "Stretch, mean",
  stretch_p95: "Stretch of 95 in 100",
  stretch_greatest: "Stretch, greatest",
  exact_share: "Ways that are shortest",
  unreachable: "Pairs that no way joins",
};

export class TablesPanel {
  hint = "Move the slider to compare choices of landmarks. A click on a node shows it.";

  constructor(page, panel) {
    this.page = page;
    this.panel = panel;
    this.found = new Map();
    this.turn = 0;
  }

  enter() {
    return this.renew();
  }

  async renew() {
    const { page } = this;
    const turn = ++this.turn;
    if (this.age !== page.network.age) this.found.clear();
    this.age = page.network.age;
    const choice = page.choice;
    const wanted = () => turn === this.turn && choice === page.choice;
    if (!this.found.has(choice)) this.panel.replaceChildren(element("p", { class: "quiet" }, "Tables are built, and 1,000 packets sent."), this.compared());
    const told = await ask("figures", page.under(), { ...page.telling(), wanted });
    if (told === null) return;
    this.found.set(choice, Object.fromEntries(told.rows.map(([name, value, unit]) => [name, { value, unit }])));
    this.show(told, this.found.get(choice));
  }

  show(told, rows) {
    const unit = (row) => ({ times: "", share: "" })[row.unit] ?? ` ${row.unit}`;
    this.panel.replaceChildren(
      element("div", { class: "block" }, element("h3", {}, "Nodes by the bytes of their tables"), chart(told.bytes, (end) => plain(Math.round(end)))),
      element("div", { class: "block" }, element("h3", {}, "1,000 drawn pairs by their stretch; at most 3 is proved"), chart(told.stretch, (end) => end.toFixed(1))),
      this.compared(),
      element(
        "dl",
        {},
        ...Object.entries(SHOWN)
          .filter(([name]) => rows[name])
          .flatMap(([name, text]) => [element("dt", {}, text), element("dd", {}, spaced(rows[name].value) + unit(rows[name]))]),
      ),
    );
  }

  compared() {
    if (!this.found.size) return "";
    const head = ["Landmarks", "", "Table, mean", "greatest", "Stretch, mean", "greatest"];
    return element(
      "table",
      { id: "compared" },
      element("tr", {}, ...head.map((text, place) => element("th", { class: place ? "number" : "" }, text))),
      ...this.page.network.choices
        .filter((choice) => this.found.has(choice))
        .map((choice) => {
          const rows = this.found.get(choice);
          const names = ["landmarks", "table_mean", "table_greatest", "stretch_mean", "stretch_greatest"];
          const values = names.map((name) => (name === "table_mean" ? plain(Math.round(rows[name].value)) : spaced(rows[name].value)));
          return element(
            "tr",
            { class: choice === this.page.choice ? "on" : "" },
            element("td", {}, choice),
            ...values.map((value) => element("td", { class: "number" }, value)),
          );
        }),
    );
  }
}

const spaced = (value) => (/^[0-9]+$/.test(value) ? plain(Number(value)) : value);

/** Bars over what they count, with the ends of the axis below. */
function chart({ counts, ends }, told) {
  const wide = 330, high = 132, low = 16, top = 14;
  const most = Math.max(1, ...counts);
  const step = wide / counts.length;
  const tall = (count) => (count === 0 ? 0 : Math.max(1.5, ((high - low - top) * count) / most));
  const bars = counts.map((count, place) =>
    drawn(
      "rect",
      { x: place * step + 0.5, y: high - low - tall(count), width: step - 1, height: tall(count) },
      drawn("title", {}, `${told(ends[place])} to ${told(ends[place + 1])}: ${plain(count)}`),
    ),
  );
  const text = (x, anchor, said, y = high - 3) => drawn("text", { x, y, "text-anchor": anchor }, said);
  const middle = Math.floor(counts.length / 2);
  return drawn(
    "svg",
    { class: "chart", viewBox: `0 0 ${wide} ${high}`, role: "img", "aria-label": `${plain(counts.reduce((a, b) => a + b, 0))} counted, from ${told(ends[0])} to ${told(ends[counts.length])}` },
    ...bars,
    drawn("line", { x1: 0, x2: wide, y1: high - low, y2: high - low }),
    text(0, "start", told(ends[0])),
    text(wide / 2, "middle", told(ends[middle])),
    text(wide, "end", told(ends[counts.length])),
    text(0, "start", `most: ${plain(most)}`, 10),
  );
}
