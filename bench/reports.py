"""The reports, a part of the model in model.py: lines of a world at the end of its run."""


def report(asked, trace, world, first="opennf report 1"):
    answers = {command: answer for _, command, answer in of_kind(world, "answered")}
    packets = [*out_lines(world), *done_lines(asked, world)]
    lives = [f"live {name} {len(instance.records)}" for name, instance in instances_of(asked, world)]
    lines = [
        first,
        *head_lines(asked, trace),
        *([] if asked.is_summary else packets),
        *(f"answer {command} {answer}" for command, answer in sorted(answers.items())),
        *(lives if asked.is_summary else record_lines(asked, world)),
        *tally_lines(asked, world),
        "end",
    ]
    return text_of(lines)


def strong_report(asked, trace, world):
    lines = [
        "opennf strong 1",
        *head_lines(asked, trace),
        *out_lines(world),
        *(f"event {number} {asked.names[member]}" for _, number, member in of_kind(world, "queued")),
        *done_lines(asked, world),
        *record_lines(asked, world),
        *tally_lines(asked, world),
        "end",
    ]
    return text_of(lines)


def head_lines(asked, trace):
    return [
        f"function {asked.function.name} instances {len(asked.names)} window {asked.window}",
        f"trace packets {len(trace.packets)} skipped {trace.skipped} {'cut' if trace.cut else 'whole'}",
    ]


def out_lines(world):
    outs = {number: output for _, number, _, output in of_kind(world, "processed")}
    return [f"out {number} {output}" for number, output in sorted(outs.items())]


def done_lines(asked, world):
    return [f"done {number} {asked.names[instance]}" for _, number, instance, _ in of_kind(world, "processed")]


def instances_of(asked, world):
    return list(zip(asked.names, world.nodes[2:]))


def record_lines(asked, world):
    """The records that are live and those that stand by, each by units and then as the instances stand."""
    lines = []
    for kind, of in ("state", lambda instance: instance.records), ("standby", lambda instance: instance.standby):
        kept = [
            (unit, place, f"{kind} {asked.function.print_unit(unit)} {name} {asked.function.print_record(record)}")
            for place, (name, instance) in enumerate(instances_of(asked, world))
            for unit, record in of(instance).items()
        ]
        lines += [line for *_, line in sorted(kept)]
    return lines


def tally_lines(asked, world):
    return [f"tally {name} {' '.join(map(str, instance.tally))}" for name, instance in instances_of(asked, world)]


def text_of(lines):
    return "".join(line + "\n" for line in lines).encode()


def of_kind(world, kind):
    return [note for note in world.log if note[0] == kind]
