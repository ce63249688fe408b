// From the form's values to words and a line for a shell. Nothing here knows what an octet is.
"use strict";

const LONGEST_LINE = 4000;
const { fields: FIELDS, flags: FLAGS, inputs: INPUTS, subcommands: SUBCOMMANDS, names: NAMES, earlier: EARLIER } =
  JSON.parse(document.getElementById("table").textContent);

// Splits a line into words, as a shell does with quotes and backslashes.
function split(line) {
  const found = line.match(/(?:'[^']*'|"(?:[^"\\]|\\[^])*"|\\[^]|[^ \t\n])+/g) ?? [];
  return found.map((word) => word.replace(/'([^']*)'|"((?:[^"\\]|\\[^])*)"|\\([^])/g,
    (_, single, double, one) => single ?? double?.replace(/\\(["\\$`])/g, "$1") ?? one));
}

// Quotes a word for a shell, if that is needed.
function quoted(word) {
  return /^[\w.,:=+\/@%-]+$/.test(word) ? word : `'${word.replaceAll("'", "'\\''")}'`;
}

// Whether a field belongs to the kind that is chosen.
function belongs(name, values) {
  return FIELDS[name].kinds?.includes(values.kind) ?? true;
}

// The names of the fields of a subcommand.
function fieldsOf(subcommand) {
  return SUBCOMMANDS[subcommand].words.join(" ").match(/\$\w+/g)?.map((it) => it.slice(1)) ?? [];
}

// The words that stand for one item of a subcommand's words.
function wordsOfItem(item, values) {
  const [, option, name, many] = item.match(/^(?:(\S+) )?\$(\w+)(\.\.)?$/) ?? [];
  if (!name) return [item];
  const value = belongs(name, values) ? values[name] : "";
  if (many) return split(value);
  if (!option) return [value];
  return value === "" ? [] : [option, value];
}

// The words that the form's values stand for, without the program's name.
function wordsOf(values) {
  const { words, flags } = SUBCOMMANDS[values.do];
  const chosen = flags.filter((it) => values[it] === "1");
  return [...words.flatMap((it) => wordsOfItem(it, values)), ...chosen.map((it) => `--${it}`)];
}

// The line that does the same in a shell.
function lineOf({ words, text, file }) {
  const run = ["scard", ...words.map(quoted)].join(" ");
  if (file) return `${run} <${quoted(file.name)}`;
  if (text === "") return run;
  return text.length > LONGEST_LINE ? `${run} <input.txt` : `printf %s ${quoted(text)} | ${run}`;
}

// The form's values in an address. One without a subcommand means what it meant to an earlier page.
function valuesOf(address) {
  const values = Object.fromEntries(new URLSearchParams(address));
  if (!("kind" in values) || "do" in values) return "do" in values ? values : null;
  const form = values.each === "1" ? "lines" : "hex";
  return { do: "show", form, notes: "1", explain: "1", ...values, ...EARLIER[values.kind] };
}

// The address of the form's values: those that its subcommand takes.
function addressOf(values, text) {
  const names = fieldsOf(values.do).filter((it) => belongs(it, values) && values[it] !== "");
  const flags = SUBCOMMANDS[values.do].flags.filter((it) => values[it] === "1");
  const found = [["do", values.do], ...[...names, ...flags].map((it) => [it, values[it]]), ["text", text]];
  return new URLSearchParams(found).toString();
}
