"""What the program does with its words and its input, by docs/program.md and docs/requests.md."""

import re

from . import devices, draft, lines, log, notes, numbers, objects, packets, profiles, reading, stats
from .numbers import Fault


class Unknown(Exception):
    """Nothing is said here of such words or of such a profile."""


def program(words, given):
    """The exit status, standard output and standard error."""
    if len(words) == 2 and words[0] in ("encode", "decode"):
        return convert(words[0], words[1], given)
    if words == ["scan"]:
        events, bad_token = reading.spelled(given)
        return 0 if bad_token is None else 1, draft.draft(events, bad_token).encode(), b""
    tasks = {"show": show, "check": check, "build": build, "run": run}
    if words[:1] in (["json"], ["log"]):
        words, choice = flags(words)
        told = {"json": objects.json, "log": log.log}[words[0]]
        tasks[words[0]] = lambda profile, matter: telling(told(profile, matter, choice))
    if words[:1] == ["stats"]:
        try:
            words, work = stats_flags(words)
        except Fault as fault:
            return 2, b"", b"pmb: stats: %s\n" % str(fault).encode()
        tasks["stats"] = work
    if words == [words[0], "--sample"] and words[0] in tasks:
        return tasks[words[0]](profiles.SAMPLE, given)
    if len(words) == 1 and words[0] in tasks:
        text, matter = front(given)
        if len(text) > 1048576:
            return 2, b"", b"pmb: profile too long\n"
        if text in profiles.FAULTS:
            return 2, b"", b"pmb: profile: %s\n" % profiles.FAULTS[text].encode()
        if text not in profiles.KNOWN:
            raise Unknown
        return tasks[words[0]](profiles.KNOWN[text], matter)
    raise Unknown


def front(given):
    """The profile at the front, and what stands after the first line %%."""
    border = re.search(rb"^%%\r?\n", given, re.MULTILINE)
    return (given[: border.start()], given[border.end():]) if border else (given, b"")


def answered(answers, is_bad):
    """The status and the output."""
    output = "".join(answer + "\n" for answer in answers).encode()
    return 1 if is_bad else 0, output, b""


def read(profile, given):
    """The outcomes of a capture: transactions, and lines for what is refused."""
    events, bad_token = reading.spelled(given)
    outcomes = list(reading.reading(profile, events, bad_token is None))
    if bad_token is not None:
        outcomes.append("# bad token at byte %d" % bad_token)
    return outcomes


def show(profile, given):
    context = notes.Context(profile)
    answers, is_bad = [], False
    for outcome in read(profile, given):
        if isinstance(outcome, str):
            answers.append(outcome)
            is_bad = True
        else:
            answers.append(lines.line_of(outcome) + " # " + notes.note(context, outcome))
            context.observe(outcome)
    return answered(answers, is_bad)


def flags(words):
    """The words without the flags of `json` and `log`, and what these say."""
    choice, kept, left = objects.Choice(), words[:1], list(words[1:])
    if words[0] == "log":
        choice = choice._replace(digits=4)
    while left:
        flag = left.pop(0)
        if flag == "--late":
            choice = choice._replace(late=True)
        elif flag == "--fixed-vout-mode":
            choice = choice._replace(fixed=True)
        elif flag == "--keep-going":
            choice = choice._replace(keep_going=True)
        elif flag == "--digits":
            choice = choice._replace(digits=int(left.pop(0)))
        elif flag == "--device":
            choice = choice._replace(devices=choice.devices + (int(left.pop(0), 16),))
        else:
            kept.append(flag)
    return kept, choice


def telling(told):
    """Of a text, and how many refusals and bad words it tells."""
    text, bad = told
    return 1 if bad else 0, text.encode(), b""


def stats_flags(words):
    """The words without the flags of `stats`, and what it does then."""
    kept, left = words[:1], list(words[1:])
    choice, is_json, fail_on = objects.Choice(), False, None
    digits, devices = None, []
    while left:
        flag = left.pop(0)
        if flag == "--late":
            choice = choice._replace(late=True)
        elif flag == "--fixed-vout-mode":
            choice = choice._replace(fixed=True)
        elif flag == "--keep-going":
            choice = choice._replace(keep_going=True)
        elif flag == "--json":
            is_json = True
        elif flag == "--digits":
            digits = left.pop(0)
        elif flag == "--device":
            devices.append(left.pop(0))
        elif flag == "--fail-on":
            fail_on = left.pop(0).split(",")
        else:
            kept.append(flag)
    check_flags(choice, digits, devices, fail_on)
    digits = (6 if is_json else 4) if digits is None else int(digits)
    choice = choice._replace(digits=digits, devices=tuple(int(one, 16) for one in devices))

    def work(profile, matter):
        text, is_bad = stats.stats(profile, matter, choice, is_json, fail_on)
        return 1 if is_bad else 0, text.encode(), b""

    return kept, work


def check_flags(choice, digits, devices, fail_on):
    """The first fault of flags that ask for nothing."""
    if choice.fixed and not choice.late:
        raise Fault("NeedsLate")
    if digits is not None and not (re.fullmatch("[0-9]+", digits) and int(digits) <= 12):
        raise Fault("BadDigits")
    if not all(re.fullmatch("[0-7][0-9a-fA-F]", one) for one in devices):
        raise Fault("BadAddress")
    if not set(fail_on or []) <= set(stats.WORDS):
        raise Fault("BadFailOn")


def check(profile, given):
    outcomes = read(profile, given)
    refusals = [outcome for outcome in outcomes if isinstance(outcome, str)]
    count = "packets %d refusals %d" % (len(outcomes) - len(refusals), len(refusals))
    return answered(refusals + [count], refusals)


def fault_line(number, fault):
    return "# line %d: %s" % (number, fault)


def build(profile, given):
    answers, is_bad = [], False
    for number, line in lines.numbered_lines(given):
        try:
            transaction = lines.parsed(lines.parse_transaction, line)
            if transaction is None:
                continue
            fault = packets.check(profile, transaction)
            if fault:
                raise Fault(fault)
            events = packets.events_of(profile, transaction)
            answers.append(packets.events_text(events).rstrip("\n"))
        except Fault as fault:
            answers.append(fault_line(number, fault))
            is_bad = True
    return answered(answers, is_bad)


def run(profile, given):
    context = notes.Context(profile)
    bench = devices.Bench(profile, context)
    answers, is_bad = [], False
    for number, line in lines.numbered_lines(given):
        try:
            request = lines.parsed(lines.parse_request, line)
            if request is None:
                continue
            transaction, result = bench.make(request)
            events = packets.events_of(profile, transaction)
            answers.append(packets.events_text(events).rstrip("\n"))
            answers.append("# " + result)
            context.observe(transaction)
            is_bad = is_bad or isinstance(transaction, packets.Refused)
        except Fault as fault:
            answers.append(fault_line(number, fault))
            is_bad = True
    return answered(answers, is_bad)


def convert(task, word, given):
    """`encode` and `decode`."""
    try:
        form = numbers.format_of(word)
    except Fault as fault:
        return 2, b"", b"pmb: format: %s\n" % str(fault).encode()
    answers, is_bad = [], False
    given_lines = given.split(b"\n")
    last = given_lines.pop()
    whole = [(line, line[:-1] if line.endswith(b"\r") else line) for line in given_lines]
    if last:
        whole.append((last, last))
    for with_cr, line in whole:
        try:
            if len(with_cr) > 256:
                raise Fault("TooLong")
            answers.append(converted(task, form, line))
        except Fault as fault:
            answers.append("! %s" % fault)
            is_bad = True
    return answered(answers, is_bad)


def converted(task, form, line):
    if task == "encode":
        return "%04x" % numbers.encode(form, numbers.parse(line))
    if not re.fullmatch(rb"[0-9a-fA-F]{4}", line):
        raise Fault("BadCode")
    return numbers.text(numbers.decode(form, int(line, 16)))
