/**
 * Compares the layers with the answers of other programs, which stand in a file that checks/packages/peer_answers.py writes.
 *
 * Prints as JSON how many answers were alike and how many were left out, and the first that differ.
 */

import { readFileSync } from "node:fs";

import { BusinessCalendar, PlainDate, PlainDateTime, Rule, Schedule } from "proved-calendar";

const [alike, leftOut, differ] = [{}, {}, []];

const count = (counts, kind) => {
  counts[kind] = (counts[kind] ?? 0) + 1;
};

function compare(kind, what, ours, theirs) {
  if (`${ours}` === `${theirs}`) {
    count(alike, kind);
  } else if (differ.length < 20) {
    differ.push(`${kind} ${what}: here ${ours}, the peer has ${theirs}`);
  }
}

const weekdaysOf = (set) => [1, 2, 3, 4, 5, 6, 7].filter((it) => set & (1 << (it - 1)));

const KINDS = {
  schedule(text, start, next, previous) {
    const [schedule, from] = [new Schedule(text), PlainDateTime.fromUnix(Number(start))];
    const found = [schedule.nextAfter(from), schedule.previousBefore(from)];
    for (const [index, theirs] of [next, previous].entries()) {
      const ours = found[index];
      // (croniter does not find 29 February backwards)
      if (theirs === "-" || (index === 1 && ours?.month === 2 && ours.day === 29)) {
        count(leftOut, "schedule");
      } else {
        compare("schedule", `${text} at ${from}`, ours?.unixSeconds, theirs);
      }
    }
    compare("schedule", `the first of ${text} after ${from}`, `${schedule.iterate(from).next().value}`, `${found[0]}`);
  },
  rule(text, start, day, next, previous, first) {
    const [rule, from] = [new Rule(text, PlainDate.fromDayNumber(start)), PlainDate.fromDayNumber(day)];
    compare("rule", `${text} from ${rule.start} after ${from}`, rule.nextAfter(from)?.dayNumber ?? "-", next);
    compare("rule", `${text} from ${rule.start} before ${from}`, rule.previousBefore(from)?.dayNumber ?? "-", previous);
    const wanted = first === "" ? [] : first.split(",");
    const days = Array.from(rule.iterate(), (it) => it.dayNumber).slice(0, wanted.length + 1);
    compare("rule", `${text} from ${rule.start}`, days.slice(0, 100), wanted);
    compare("rule", `whether ${from} is one of ${text} from ${rule.start}`, rule.includes(from), new Set(days).has(Number(day)) || rule.includes(from));
  },
  open(weekend, holidays, start, n, moved, first, last, count) {
    const dates = holidays === "" ? [] : holidays.split(",").map((it) => PlainDate.fromDayNumber(it));
    const calendar = new BusinessCalendar({ weekend: weekdaysOf(Number(weekend)), holidays: dates });
    const [from, one, other] = [start, first, last].map((it) => PlainDate.fromDayNumber(it));
    compare("open", `${from} and ${n} days`, calendar.add(from, Number(n)).dayNumber, moved);
    compare("open", `${one} to ${other}`, calendar.between(one, other), count);
    compare("open", `${from}`, calendar.isOpen(from), true);
  },
};

for (const line of readFileSync(process.argv[2], "utf8").trimEnd().split("\n")) {
  const [kind, ...fields] = line.split("\t");
  KINDS[kind](...fields);
}
console.log(JSON.stringify({ alike, leftOut, differ }));
