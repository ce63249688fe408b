// The answers to the page's examples, and long texts, for the tests with a browser and without.

// The exit status of each example, and how its text begins, in their order.
export const SAID = [[0, "convention direct\nTD1 80  # offers T=0\n"], [1, "refused at 8: BadLrc  # "],
  [0, "objects 5\n6F 10 constructed  # "], [1, "case 1\nheader 00A40400  # "], [0, '{"version":1,"kind":"response",'],
  [0, "00200200A486\n006002040066\n0000010001\n"], [0, "scard-exchange 1\natr 3B808131204555\n"],
  [0, "terminal: ok 13 lines\ncard: ok 13 lines\n"], [0, "<svg xmlns="],
  [1, "block 3 terminal: sequence number, due "]];

// The most lines of a text that the page shows.
export const SHOWN_LINES = 2000;

const [KIB_64, MIB] = [65536, 1048576];

// Repeats a text, in whole copies, to at most this many characters.
const filled = (text, count) => text.repeat(Math.ceil(count / text.length)).slice(0, count - (count % text.length));

const session = "command 00A4040000\nt 00000500A4040000A5\nasked 00A4040000\nreply 9000\nc 000002900092\nanswer 9000\n"
  + "command 00A4040000\nt 00400500A4040000E5\nasked 00A4040000\nreply 9000\nc 0040029000D2\nanswer 9000\n";
const header = "scard-exchange 1\natr 3B808131204555\n";

const kib = (what, values) => [`64 KiB of text, ${what}`, { do: "show", notes: "1", ...values }];
const strip = (what, values) => [`256 octets with a strip, ${what}`, { do: "show", notes: "1", ...values }];
const mib = (what, text) => [`1 MiB, ${what}`, { do: "show", notes: "1", kind: "tlv", text }];

// Long texts, and the longest that have pictures: the values of the form.
export const TEXTS = [
  kib("empty objects", { kind: "tlv", text: filled("5000", KIB_64) }),
  kib("one object", { kind: "tlv", text: `5A827FFC${"41".repeat(32764)}` }),
  kib("empty blocks of a chain", { kind: "chain", text: `${filled("0020002000600060", KIB_64 - 8)}00000000` }),
  kib("a command", { kind: "command", text: `00D6000000${"7FF8"}${"41".repeat(0x7FF8)}` }),
  kib("a list", { kind: "dol", text: filled("9F0206", KIB_64) }),
  kib("lines of responses", { kind: "response", form: "lines", text: filled("9000\n", KIB_64) }),
  kib("lines of answers to reset", { kind: "atr", form: "lines", text: filled("3B808131204555\n", KIB_64) }),
  kib("an exchange", { do: "replay", text: header + filled(session, KIB_64) }),
  mib("empty objects", filled("5000", 2 * MIB)),
  mib("one object", `5A830FFFFB${"41".repeat(MIB - 5)}`),
  mib("objects of three octets", filled("5A0101", 2 * MIB)),
  strip("empty objects", { kind: "tlv", text: "5000".repeat(128) }),
  strip("a command", { kind: "command", text: `00D60000FB${"41".repeat(0xFB)}` }),
  strip("an answer to reset and more", { kind: "atr", text: `3B00${"41".repeat(254)}` }),
  ["4 KiB, an exchange with a ladder", { do: "replay", text: header + filled(session, KIB_64 / 16 - header.length) }],
];
