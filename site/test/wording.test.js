import assert from "node:assert/strict";
import test from "node:test";
import { faultLines, formatOf, tidied } from "../reading.js";
import { inPage } from "../wording.js";

const DATED = "#/home/u/lab.py\n# GMT Tue Jul 14 08:12:31 2026\n#\n0 1 4 5\n1 2 6\n";

test("the format is that of the lines, without comments", () => {
  assert.equal(formatOf(DATED), "adjlist");
  assert.equal(formatOf("# my ring\n1 2\n2 3\n"), "adjlist");
  assert.equal(formatOf("# weighted\na b 4\nb c 2 # far\n"), "edgelist");
  assert.equal(formatOf("#x\n# GMT now\n0 1 2\n1 2 3\n"), "adjlist");
  assert.equal(formatOf(""), "adjlist");
});

test("edges of NetworkX and of a table become lines of a list", () => {
  assert.equal(tidied("0 1 {}\n1 2 {}\n"), "0 1\n1 2\n");
  assert.equal(tidied("0 1 {'weight': 4}\n1 2 {}\n"), "0 1 4\n1 2 1\n");
  assert.equal(tidied("a,b,3\nb, c, 4\n"), "a b 3\nb  c  4\n");
  assert.equal(tidied(DATED), DATED);
});

test("the first lines that can't be read", () => {
  assert.deepEqual(faultLines("a b 1\nb c x\nc d 0\nd e 2\ne \u00e9 3\n", "edgelist", 5), [2, 3, 5]);
  assert.deepEqual(faultLines("a b 1\nb c x\nc d 0\n", "edgelist", 1), [2]);
});

test("a sentence is said in the page's words, with a button", () => {
  assert.deepEqual(inPage("4 words; a line of an edge list is NODE NODE WEIGHT (is it an adjacency list? try --format adjlist)"),
    { said: "4 words; a line of an edge list is NODE NODE WEIGHT", action: { name: "Read it as an adjacency list", set: { format: "adjlist" } } });
  assert.deepEqual(inPage("--root: no node 'Houston' in topology").action.set, { root: "" });
  assert.equal(/python3|topology /.test(inPage("this looks like GML; 'python3 -m bentzolu convert topology' makes an edge list of it").said), false);
});
