// Sentences of the program in the words of the page: its fields in place of options, and a button in place of a command.

const FORMAT_NAMES = { adjlist: "an adjacency list", edgelist: "a weighted edge list" };

// A sentence as the page says it: { said, action }, where an action is { name, set } with what it sets, or null.
export function inPage(sentence) {
  const hint = / ?\(is it (?:an adjacency list|an edge list)\? try --format (adjlist|edgelist)\)/.exec(sentence);
  if (hint) {
    return { said: sentence.replace(hint[0], ""), action: { name: `Read it as ${FORMAT_NAMES[hint[1]]}`, set: { format: hint[1] } } };
  }
  const root = /^--root: no node '(.*?)' in topology(.*)$/.exec(sentence);
  if (root) return { said: `Root: this network has no node '${root[1]}'`, action: { name: "Use the first node", set: { root: "" } } };
  const converted = /^this looks like (.*?); 'python3 -m bentzolu convert \S+( .*?)?' makes an edge list of it/.exec(sentence);
  if (converted) return { said: `This looks like ${converted[1]}. This page reads adjacency lists and weighted edge lists; the Python package converts others (bentzolu convert)`, action: null };
  const option = /^--(kind|numbering|capacity|restamps|format|landmarks|stretch): /.exec(sentence);
  if (option) return { said: option[1][0].toUpperCase() + option[1].slice(1) + ": " + sentence.slice(option[0].length), action: null };
  return { said: sentence.replace(/ in topology\b/, " in this network"), action: null };
}
