"""tables.py [--write]: prints what bench/measure.py measures as the tables of docs/BENCH.md; --write puts them there, between its two marks.
Assumes that the document has the two marks once each. Where the programs are emulated no time is measured: a row whose two counts are nearly those
of the document keeps the time that it has there, and another one has none."""
import os
import statistics
import sys

import frames
import measure

DOCUMENT = os.path.join(measure.ROOT, "docs", "BENCH.md")
START, END = "<!-- the tables, by bench/run --write -->\n", "<!-- the end of the tables -->\n"
NAMES = {"view_copy": "view, copied", measure.FLOOR: "byte sum", measure.MOVE: "move of the tail", "day_build": "day, build", "day_append": "day, append", "day_find": "day, find"}
NAMES.update(send="cable, send", block="cable, block", receive="cable, receive", to_437="recode into 437", to_1252="recode into 1252", judge_both="judge, both sets")
HEADS = ("The calls on a set:", "The calls on a day file:", "The calls of the serial cable:", "Recoding:")
NO_TIME = "-"
NEAR = 0.01  # of a count


def table(head, found):
    return ["| %s |" % " | ".join(map(str, row)) for row in [head, ["---"] * len(head), *found]] + [""]


def made_on():
    emulated = "emulated. The counts are exact all the same. A time was measured on an x86-64 machine, by programs whose counts were within 1 % of these; -: not measured"
    how = emulated if measure.EMULATED else "not emulated"
    return ["Made on a machine of the kind %s; the programs are x86-64 code and were %s." % (measure.MACHINE, how), ""]


def document():
    """The document before its tables, the tables, and what stands after them."""
    with open(DOCUMENT) as file:
        before, rest = file.read().split(START)
    tables, after = rest.split(END)
    return before, tables, after


def told_times():
    """The rows of the document that have a time: by load and call the two counts, and the time."""
    rows = [[cell.strip() for cell in line.strip("| ").split("|")] for line in document()[1].split("\n") if line.startswith("|")]
    return {(row[0], row[1]): (int(row[2]), int(row[3]), row[5]) for row in rows if len(row) == 6 and row[2].isdigit()}


def told_time(told, row, proved, second):
    """The time that the document has for a row, if its counts are nearly these: the C library copies by other code on other processors."""
    was_proved, was_second, time = told.get(row, (0, 0, NO_TIME))
    near = abs(proved - was_proved) <= NEAR * was_proved and abs(second - was_second) <= NEAR * was_second
    return time if near else NO_TIME


def spread(ratios):
    low, middle, high = statistics.quantiles(ratios, n=4, method="inclusive")
    return "%.2f (%.2f to %.2f)" % (middle, low, high)


def load_table(counts, times):
    found, told = [], told_times()
    for load, calls in counts.items():
        for call, inputs in calls.items():
            total = [sum(numbers) for numbers in zip(*inputs)]
            row = (load, NAMES.get(call, call))
            time = told_time(told, row, total[1], total[2]) if measure.EMULATED else spread(times[load][call])
            found.append((*row, total[1], total[2], "%.2f" % measure.ratio(inputs), time))
    return table(("Load", "Call", "Proved, instructions", "Second, instructions", "Ratio", "Ratio of times: median (quartiles)"), found)


def refused_table(refused):
    """A row for each number: the ratio of each call that answers it, the worst one of a call in bold."""
    calls = {call: {count.no: measure.ratio([count]) for count in inputs} for call, inputs in refused.items() if call not in measure.NO_PROGRAM}
    found = []
    for no in sorted({no for ratios in calls.values() for no in ratios}):
        cells = [("**%.2f**" if ratios[no] == max(ratios.values()) else "%.2f") % ratios[no] if no in ratios else "" for ratios in calls.values()]
        found.append([no, *cells])
    return table(("Number", *(NAMES.get(call, call) for call in calls)), found)


def stack_table(stacks, library, bounds):
    found, symbols = [], frames.exported()
    for call, bound in bounds.items():
        most, path = stacks[call], library.largest(symbols["gdt_" + call]).bytes
        deepest = "%s: %s" % (most.case, most.answer[:24])
        found.append((NAMES.get(call, call), most.made, most.longest, most.bytes, path, int(bound[measure.STACK]), deepest))
    return table(("Call", "Times called", "Longest case, bytes", "Stack, bytes", "Largest path, bytes", "At most", "One of the deepest cases, and its answer"), found)


def growth_table(sets, bounds):
    """What judging takes for each further line."""
    head = "Judging takes for each further line, from 16 lines to 32 and so on, this many instructions (the most at most %.2f times the least):" % bounds["judge"][measure.GROWTH]
    steps = ["%d to %d" % step for step in zip(measure.LINES, measure.LINES[1:])]
    return [head, ""] + table(("Load", *steps), [(load, *("%.1f" % each for each in measure.growth(sets, load))) for load in measure.GROWING])


def entry_lines(sets, bounds):
    """What a view takes for each further entry of a sheet."""
    what = "A view takes {:.1f} instructions for each further entry of a sheet, from {:,} entries to {:,} (at most {:.0f})."
    return [what.format(measure.entry(sets), *measure.ENTRIES, bounds["view"][measure.ENTRY]), ""]


def moving_table(sets, bounds):
    """What a correction takes over judging the set and moving its tail."""
    head = "A correction over judging its set and moving the tail, which is all lines after the corrected one (at most %.2f):" % bounds["correct"][measure.MOVING]
    found = [(load, way, correct, floor, "%.2f" % (correct / floor)) for load, way, correct, floor in measure.moving(sets)]
    return [head, ""] + table(("Load", "The line becomes", "Correct, instructions", "Judge and move, instructions", "Ratio"), found)


def day_lines(days, bounds):
    """What a day call is held to beside the second program's instructions."""
    building = "Building the index on day64 takes %.2f times the instructions of judging each of the 64 sets by itself (at most %.2f);"
    finding = "a lookup takes for each of 2,048 entries %.2f times what it takes for each of 256 (at most %.2f)."
    return [
        building % (measure.judging(days), bounds["day_build"][measure.JUDGING]),
        finding % (measure.linear(days), bounds["day_find"][measure.LINEAR]),
        "",
    ]


def recode_lines(recodes, bounds):
    """What recoding is held to beside the second program's instructions."""
    out = []
    for call in measure.INTO:
        held, shown = [" and ".join("%.2f on %s" % (ratio, load) for load, ratio in measure.recoding(recodes, call, loads).items()) for loads in (measure.JUDGED, measure.UMLAUTS)]
        out.append("`gdt_%s` takes %s times the instructions of judging the same set (at most %.2f), %s." % (call, held, bounds[call][measure.JUDGING], shown))
    return [*out, ""]


def main(words):
    if words not in ([], ["--write"]):
        print(__doc__, file=sys.stderr)
        return 2
    loads, bounds = measure.build(), measure.bounds()
    counts, stacks = measure.counts(loads, measure.BY_TRAP), measure.stacks()
    if not measure.EMULATED and counts != measure.counts(loads, measure.BY_BLOCKS):
        print("counting by blocks does not give the counts of the trap flag: tests/counts would not hold what is written here", file=sys.stderr)
        return 1
    times = {program: {} for program in loads} if measure.EMULATED else measure.times(loads)
    lines = made_on()
    for program, what in zip(measure.PROGRAMS, HEADS):
        lines += [what, ""] + load_table(counts[program], times[program])
        lines += ["Ratios for each refusal number by itself (at most %.2f for 1 and %.2f for the others):" % measure.number_bounds(), ""] + refused_table(counts[program][measure.REFUSED])
    sets, of_sets = counts[measure.SETS], bounds[measure.SETS]
    lines += growth_table(sets, of_sets) + entry_lines(sets, of_sets) + moving_table(sets, of_sets)
    lines += day_lines(counts[measure.DAYS], bounds[measure.DAYS]) + recode_lines(counts[measure.RECODES], bounds[measure.RECODES])
    all_bounds = {call: bound for calls in bounds.values() for call, bound in calls.items()}
    lines += ["Stack over the stored streams of cases, and on the largest path through the code:", ""] + stack_table(stacks, frames.Library(measure.archives()), all_bounds)
    text = "".join(line + "\n" for line in lines)
    print(text, end="")
    if words:
        before, _, after = document()
        with open(DOCUMENT, "w") as file:
            file.write(before + START + text + END + after)
    return 0


sys.exit(main(sys.argv[1:]))
