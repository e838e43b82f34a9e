// Changes: two nodes, and what becomes of the edge between them. Each is sent under a ticket.
import { ask, element, plain } from "./api.js";
import { shortened } from "./picture.js";
import { suggest } from "./names.js";

const MOST_SHOWN = 50;

export class EditPanel {
  constructor(page, panel) {
    this.page = page;
    this.ends = [];
    const input = (id) => element("input", { id, type: "text", autocomplete: "off", spellcheck: "false", onchange: () => this.typed() });
    this.inputs = [input("edit-a"), input("edit-b")];
    const field = (label, made) => element("div", { class: "field" }, element("label", { for: made.id }, label), made);
    this.weight = element("input", { id: "edit-weight", type: "number", min: 1, max: 1_000_000, step: 1, value: 1 });
    const button = (kind, text) => element("button", { id: `edit-${kind}`, type: "button", onclick: () => this.send(kind) }, text);
    this.buttons = { add: button("add", "Add"), set: button("set", "Set"), cut: button("cut", "Cut") };
    this.outcomes = element("table", { id: "outcomes" });
    this.there = element("p", { class: "quiet", id: "edit-there" });
    panel.append(
      element("div", { class: "row" }, field("Edge", this.inputs[0]), field("–", this.inputs[1])),
      this.there,
      element("div", { class: "row" }, field("Weight", this.weight), ...Object.values(this.buttons)),
      element("div", {}, element("h3", {}, "What was sent"), this.outcomes),
    );
    this.inputs.forEach((made) => suggest(page, made));
    this.rows = [];
    this.showEnds();
  }

  get hint() {
    return this.ends.length === 1 ? "Click the other end of the edge." : "Click two nodes, or an edge, to change what is between them.";
  }

  enter() {
    this.page.picture.mark({ chosen: null, cluster: new Set(), holders: new Set() });
    this.showEnds();
  }

  leave() {
    this.page.picture.mark({ ends: [] });
  }

  renew() {
    this.ends = this.ends.filter((node) => node < this.page.network.nodes);
    this.showEnds();
  }

  async node(node) {
    this.ends = this.ends.length === 1 && this.ends[0] !== node ? [...this.ends, node] : [node];
    this.showEnds();
  }

  edge(a, b) {
    this.ends = [a, b];
    this.showEnds();
  }

  typed() {
    const found = this.inputs.map((input) => this.page.nodeOf(input.value));
    const unknown = this.inputs.find((input, place) => input.value && found[place] === null);
    if (unknown) return this.page.tell(`no node named ${unknown.value}`, true);
    this.ends = found.filter((node) => node !== null);
    this.showEnds(false);
  }

  /** The weight of the edge between both ends; null where there is none that is shown. */
  get held() {
    const [a, b] = this.ends, edges = this.page.picture.edges;
    for (let i = 0; i < edges.length; i += 3)
      if ((edges[i] === a && edges[i + 1] === b) || (edges[i] === b && edges[i + 1] === a)) return edges[i + 2];
    return null;
  }

  showEnds(isWriting = true) {
    if (isWriting) this.inputs.forEach((input, place) => (input.value = place in this.ends ? this.page.nameOf(this.ends[place]) : ""));
    const isPair = this.ends.length === 2;
    const held = isPair ? this.held : null;
    if (held !== null) this.weight.value = held;
    this.there.textContent = !isPair ? "Choose both ends." : held === null ? "There is no edge between them here." : `There is an edge of weight ${plain(held)}.`;
    for (const button of Object.values(this.buttons)) button.disabled = !isPair;
    for (const [kind, button] of Object.entries(this.buttons)) button.classList.toggle("main", isPair && kind === (held === null ? "add" : "set"));
    if (this.page.tab === "edit") this.page.picture.mark({ ends: this.ends });
    this.page.showHint();
  }

  send(kind) {
    const [a, b] = this.ends;
    const weight = Number(this.weight.value);
    this.page.attempt(async () => {
      for (const button of Object.values(this.buttons)) button.disabled = true;
      try {
        const told = await ask("edit", { kind, a, b, weight }, this.page.telling());
        this.rows = [{ kind, a, b, weight, ...told }, ...this.rows].slice(0, MOST_SHOWN);
        this.showOutcomes();
        if (told.made) await this.page.reload();
      } finally {
        this.showEnds();
      }
    });
  }

  showOutcomes() {
    const name = (node) => element("bdi", {}, shortened(this.page.nameOf(node)));
    this.outcomes.replaceChildren(
      element("tr", {}, ...["Change", "Session", "Ticket", "Outcome"].map((text) => element("th", {}, text))),
      ...this.rows.map((row) =>
        element(
          "tr",
          {},
          element("td", {}, `${row.kind} `, name(row.a), " – ", name(row.b), row.kind === "cut" ? "" : ` ${plain(row.weight)}`),
          element("td", {}, row.session),
          element("td", {}, plain(row.ticket)),
          element("td", {}, row.text + (row.count === null ? "" : ` as ${plain(row.count)}`)),
        ),
      ),
    );
  }
}
