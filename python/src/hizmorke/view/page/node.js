// A node: its ports, its table, its cluster, and whose clusters it is in.
import { ask, element, plain } from "./api.js";
import { shortened } from "./picture.js";

const MOST_NAMED = 60, MOST_PORTS = 300;

export class NodePanel {
  hint = "Click a node to see its table and its cluster, an edge to fail it.";

  constructor(page, panel) {
    this.page = page;
    this.panel = panel;
    this.chosen = this.awaited = null;
    panel.append(element("p", { class: "quiet" }, "No node is chosen. Click one, or find it by its name."));
  }

  enter() {
    this.page.picture.mark({ way: [], shortest: [], packet: null, ends: [], anew: new Set(), cut: new Set() });
    return this.renew();
  }

  async renew() {
    if (this.chosen !== null && this.chosen < this.page.network.nodes) await this.node(this.chosen);
  }

  leave() {
    this.page.picture.mark({ chosen: null, cluster: new Set(), holders: new Set() });
  }

  async node(node) {
    this.chosen = node;
    if (this.page.tab !== "node") return this.page.select("node");
    this.page.picture.mark({ chosen: node });
    await this.page.bring([node]);
    const wanted = () => this.chosen === node && this.page.tab === "node";
    const { progress } = this.page.telling();
    const waiting = (...words) => {
      if (wanted() && this.awaited !== node) this.showAwaited(node);
      progress(...words);
    };
    const told = await ask("node", this.page.under({ node }), { progress: waiting, wanted });
    this.awaited = null;
    if (told === null || this.page.tab !== "node") return;
    this.page.picture.mark({ cluster: new Set(told.cluster), holders: new Set(told.holders) });
    this.show(told);
  }

  /** Tables take long where the network is large; which node is chosen is seen before. */
  showAwaited(node) {
    this.awaited = node;
    this.panel.replaceChildren(
      element("h2", {}, element("bdi", { id: "node-name" }, this.page.nameOf(node))),
      element("p", { class: "quiet" }, "What it keeps is shown once the tables are there."),
    );
  }

  show(told) {
    const { page } = this;
    const name = page.nameOf(told.node);
    const rows = [
      ["Node", plain(told.node) + (told.is_landmark ? ", a landmark" : "")],
      ["Nearest landmark", told.is_landmark ? "itself" : told.to_landmark === null ? "none reaches it" : `${plain(told.to_landmark)} away`],
      ["Table", `${plain(told.entries)} entries, ${plain(told.members)} members` + (told.bytes === null ? "" : `, ${plain(told.bytes)} bytes`)],
    ];
    const link = (node) => element("button", { class: "link", type: "button", onclick: () => page.clickNode(node) }, element("bdi", {}, shortened(page.nameOf(node))));
    const named = (nodes) => [
      ...nodes.slice(0, MOST_NAMED).map(link),
      nodes.length > MOST_NAMED ? element("span", { class: "quiet" }, `and ${plain(nodes.length - MOST_NAMED)} more`) : null,
    ];
    const others = (nodes) => nodes.filter((node) => node !== told.node);
    const cluster = others(told.cluster), holders = others(told.holders);
    this.panel.replaceChildren(
      element("h2", {}, element("bdi", { id: "node-name" }, name)),
      element("dl", {}, ...rows.flatMap(([term, text]) => [element("dt", {}, term), element("dd", {}, text)])),
      element(
        "div",
        { class: "row" },
        element("button", { type: "button", onclick: () => this.send(told.node, null) }, "Send from here"),
        element("button", { type: "button", onclick: () => this.send(null, told.node) }, "Send to here"),
      ),
      element(
        "div",
        {},
        element("h3", {}, `Ports: ${plain(told.ports.length)}`),
        element(
          "div",
          { class: "scroll", tabindex: 0, role: "region", "aria-label": "Ports" },
          element(
            "table",
            {},
            element("tr", {}, element("th", { class: "number" }, "Port"), element("th", {}, "Neighbour"), element("th", { class: "number" }, "Weight"), element("th", {})),
            ...told.ports.slice(0, MOST_PORTS).map(([node, weight], port) =>
              element(
                "tr",
                {},
                element("td", { class: "number" }, port),
                element("td", {}, link(node)),
                element("td", { class: "number" }, plain(weight)),
                element("td", { class: "number" }, element("button", { class: "small", type: "button", onclick: () => page.fail(told.node, node) }, "Fail")),
              ),
            ),
          ),
        ),
      ),
      element(
        "div",
        {},
        element("h3", {}, told.is_landmark ? "Its tree has every node that it reaches" : `Its cluster: itself and ${plain(cluster.length)}, nearer to it than to a landmark`),
        element("div", { class: "many" }, ...named(cluster)),
      ),
      element(
        "div",
        {},
        element("h3", {}, told.is_landmark ? "Every node that reaches it has an entry for it" : `In the clusters of ${plain(holders.length)}`),
        element("div", { class: "many" }, ...named(holders)),
      ),
    );
  }

  send(from, to) {
    this.page.select("packet");
    this.page.attempt(() => this.page.panels.packet.set(from, to));
  }
}
