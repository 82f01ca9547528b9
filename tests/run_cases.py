#!/usr/bin/env python3
"""Makes tests/cases_of_runs/cases.txt: images and run files, and what `etm retired` must print.

Usage: run_cases.py MODEL_DIR

MODEL_DIR is as for tests/packet_cases.py. The events come from the model, which makes lists of them that a run accepts, over
images that it makes too; all else is made here, with a fixed seed: how the lines are spelled, settings, several streams, weaves,
and what is wrong in the files that are refused. For those an event is put into a list that is refused there for a reason chosen
before, or a line of text that has a fault. So it is with files `etm 1`, and then with files `etm 2`, whose streams have settings of
their own. The answers come from the model alone.

The file has the form of that of tests/path_cases.py. Most lines of a run file stand in lines `run`, each of which ends with LF;
those of which a reader of the file would not see all stand in lines `input`, in hex, as do lines that are repeated.
"""
import collections
import itertools
import pathlib
import random
import re
import sys

import path_cases
from reference_model import PROFILE, answer, loaded
from speculation_cases import show

OUT = pathlib.Path(__file__).resolve().parent / "cases_of_runs" / "cases.txt"
WORDS = ["retired", "IMAGE"]
GOOD, WRONG_TEXTS, REFUSED = 200, 100, 96
OWN_GOOD, OWN_WRONG_TEXTS, OWN_REFUSED = 80, 60, 33  # whose streams have settings of their own
MOST_LINES = 160
PLACES = 3  # so many different lines at least are at fault by each reason
DEFAULTS = {"depth": 16, "vmid": 1, "cid": 4, "stack": 15}
ODD = 0x54000010  # BC.EQ

HEAD = """\
# Made by tests/run_cases.py, which says what the lines of a block are; tests/run_stored_cases.py runs them.
"""

Stream = collections.namedtuple("Stream", "id events own", defaults=[{}])  # own: its own settings, by their names
Draft = collections.namedtuple("Draft", "image settings stack streams weaves version", defaults=[1])


def numbers_of(draft, own):
    """The numbers of the settings of a draft, but for a stream's own ones, by their names."""
    sizes = draft.settings
    return {**dict(zip(DEFAULTS, (sizes.depth, sizes.vmid_bytes, sizes.cid_bytes, draft.stack))), **own}


def settings_of(model, draft, stream):
    """The settings of a stream, without the depth of its return stack."""
    numbers = numbers_of(draft, stream.own)
    return model.base.Settings(*(numbers[name] for name in ("depth", "vmid", "cid")))


# ---- lines -----------------------------------------------------------------

def digits(rng, number, most):
    """A number in hex, of at most so many digits: mostly as short as may be."""
    kind = rng.randrange(12)
    if kind == 0:
        return f"{number:0{most}x}"
    return f"{number:X}" if kind == 1 else f"{number:x}"


def count(rng, number):
    return f"{number:010}" if rng.random() < 0.05 else str(number)


def context_words(rng, context):
    state = "ns" if context.ns else "s"
    return [f"el{context.el}", state, digits(rng, context.vmid, 8), digits(rng, context.cid, 8)]


NAMES = {"NotTaken": "not"}


def words_of(rng, event, times=1):
    """The words of an event, which comes so many times."""
    words = [NAMES.get(event.name, event.name.lower())]
    if event.name == "Exc":
        words.append(count(rng, event.kind))
    if event.addr is not None:
        words.append(digits(rng, event.addr, 16))
    if event.ctx is not None:
        words += context_words(rng, event.ctx)
    if event.name in ("Retire", "Cancel"):
        words.append(count(rng, event.n))
    if event.name == "Step" and (times > 1 or rng.random() < 0.1):
        words.append(count(rng, times))
    return words


def event_lines(rng, events):
    """The lines of a stream's events. Steps one after the other stand in one line, mostly."""
    for name, group in itertools.groupby(events, key=lambda event: event.name):
        group = list(group)
        while group:
            times = len(group) if name == "Step" and rng.random() < 0.7 else 1
            yield words_of(rng, group[0], times)
            group = group[times:]


def setting_lines(rng, draft):
    """The settings in any order; one that has its default is mostly left out."""
    given = numbers_of(draft, {})
    names = [name for name in DEFAULTS if given[name] != DEFAULTS[name] or rng.random() < 0.2]
    return [[name, count(rng, given[name])] for name in rng.sample(names, len(names))]


def lines_of(rng, draft):
    """The lines of a run file, each as its words."""
    lines = [["etm", f"{draft.version}"], *setting_lines(rng, draft)]
    for stream in draft.streams:
        spelled = f"{stream.id:02x}" if rng.random() < 0.8 else f"{stream.id:02X}"
        own = [word for name, number in stream.own.items() for word in (name, count(rng, number))]
        lines += [["stream", spelled, *own], *event_lines(rng, stream.events)]
    return lines + [["weave", *words] for words in draft.weaves]


COMMENTS = [b"# what the core does", b"\t#step 4", b"# \xc3\xa4\xe2\x82\xac", b"", b"", b" \t", b"#"]


def joined(blank, words):
    return blank.join(word if isinstance(word, bytes) else word.encode() for word in words)


def text_of(rng, lines):
    """The text of lines: mostly plain, or with blanks, comments and carriage returns."""
    if rng.random() < 0.6:
        return b"".join(joined(b" ", words) + b"\n" for words in lines)
    ending, text = rng.choice([b"\n", b"\n", b"\r\n"]), b""
    for words in lines:
        while rng.random() < 0.1:
            text += rng.choice(COMMENTS) + ending
        blank = rng.choice([b" ", b" ", b"  ", b"\t", b" \t "])
        text += rng.choice([b"", b"", b"  ", b"\t"]) + joined(blank, words) + rng.choice([b"", b"", b" "]) + ending
    return text[:-len(ending)] if rng.random() < 0.3 else text


# ---- run files that are good ------------------------------------------------

def shown_lines(model, draft):
    """How many lines the retired path of a draft has, less those of contexts."""
    return sum(len(model.runs.retired(draft.image, settings_of(model, draft, stream), stream.events)) for stream in draft.streams)


def events_for(rng, model, image, settings, length):
    """Events that a run accepts. A retire or cancel of nothing has no line."""
    events = model.randoms.random_events(rng, image, settings, length)
    return [event for event in events if event.name not in ("Retire", "Cancel") or event.n]


def weaves_for(rng, ids):
    def word():
        return f"{rng.choice(ids):02x}:{count(rng, rng.choice([1, 7, rng.randrange(1, 30), 1 << 20]))}"
    return [[word() for _ in range(rng.choice([1, 1, 2, 5]))] for _ in range(rng.choice([0, 0, 0, 1, 2, 4]))]


def draft_of(rng, model, settings=None):
    """A run file that is accepted, and whose retired path is not too long."""
    while True:
        image = model.randoms.random_image(rng, PROFILE)
        sizes = settings or model.randoms.random_settings(rng, "base")  # whose depths a file `etm 1` may have
        ids = rng.sample(range(1, 112), rng.choice([1, 1, 1, 2, 3]))
        length = rng.choice([4, 10, 25, 25, 60, 120]) // len(ids)
        streams = [Stream(i, events_for(rng, model, image, sizes, length) if rng.random() < 0.95 else []) for i in ids]
        draft = Draft(image, sizes, rng.choice([15, 15, 0, rng.randrange(16)]), streams, weaves_for(rng, ids))
        if shown_lines(model, draft) <= MOST_LINES // 2:
            return draft


def own_settings(rng, model):
    """Some settings of a stream, in any order."""
    sizes = model.randoms.random_settings(rng, PROFILE)
    given = dict(zip(DEFAULTS, (sizes.depth, sizes.vmid_bytes, sizes.cid_bytes, rng.randrange(16))))
    return {name: given[name] for name in rng.sample(list(given), rng.choice([0, 1, 1, 2, 3, 4]))}


def own_draft_of(rng, model, settings=None):
    """The same of a file whose streams have settings of their own."""
    while True:
        sizes = settings or model.randoms.random_settings(rng, PROFILE)
        ids = rng.sample(range(1, 112), rng.choice([1, 2, 2, 3, 4]))
        draft = Draft(model.randoms.random_image(rng, PROFILE), sizes, rng.randrange(16), [], weaves_for(rng, ids), 2)
        for number in ids:
            stream = Stream(number, [], own_settings(rng, model))
            length = rng.choice([0, 4, 10, 25, 60, 120]) // len(ids)
            events = events_for(rng, model, draft.image, settings_of(model, draft, stream), length)
            draft.streams.append(stream._replace(events=events))
        if shown_lines(model, draft) <= MOST_LINES // 2 and any(stream.own for stream in draft.streams):
            return draft


def image_of(rng, image):
    """The lines of an image's text."""
    parts = {}
    for address in sorted(image.words):
        start = next((start for start, words in parts.items() if start + 4 * len(words) == address), None)
        parts.setdefault(address if start is None else start, []).append(image.words[address])
    return path_cases.image_lines(rng, parts)


# ---- events that are refused ------------------------------------------------

def wrong_events(rng, model, image, settings, state):
    """Events that may be refused, single ones and such behind one that is not."""
    event, contexts = model.runs.Ev, model.randoms.random_ctxs(rng, settings)
    place, held = rng.choice(sorted(image.words)), state.unretired() if state.on else 0
    nowhere = rng.choice([place + 0x100000 & (1 << 64) - 4, 0x5550])
    odd = [address for address in image.words if image.class_at(address).kind is model.image.Kind.ODD]
    context = rng.choice(contexts)
    any_step = [event("Step"), event("Taken"), event("NotTaken"), event("To", place), event("Eret", place, context)]
    for addr in (place, place + rng.randrange(1, 4)):
        yield from ([event("On", addr, context)], [event("To", addr)], [event("Eret", addr, context)],
                    [event("Exc", addr, context, kind=rng.randrange(32))])
    yield from ([wrong] for wrong in any_step)
    for addr in [nowhere, *odd]:
        yield from ([event("Exc", addr, context, kind=14), wrong] for wrong in any_step)
    for n in (held + 1, held + rng.randrange(2, 40), 65535):
        yield from ([event("Retire", n=n)], [event("Cancel", n=n)])
    yield from ([event(name)] for name in ("Flip", "Sync", "Overflow", "Off"))
    yield [event("Context", ctx=context)]


def refusal(model, image, settings, state, events):
    """The reason for which one of the events is refused, or None."""
    state = state.copy()
    for event in events:
        fault = model.runs.run_check(image, settings, state, event)
        if fault is not None:
            return fault.name
        model.runs.run_apply(image, settings, state, event)
    return None


def with_refused(rng, model, draft, name):
    """The draft with an event that is refused for this reason at some place of a stream, or None where none was found."""
    chosen = rng.randrange(len(draft.streams))
    stream = draft.streams[chosen]
    events, settings = stream.events, settings_of(model, draft, stream)
    for place in rng.sample(range(len(events) + 1), len(events) + 1):
        state = model.runs.run_after(draft.image, settings, events[:place])
        found = [wrong for wrong in wrong_events(rng, model, draft.image, settings, state)
                 if refusal(model, draft.image, settings, state, wrong) == name]
        if found:
            streams = list(draft.streams)
            streams[chosen] = stream._replace(events=[*events[:place], *rng.choice(found), *events[place:]])
            return draft._replace(streams=streams)
    return None


REFUSALS = ["NotOn", "AlreadyOn", "WrongKind", "NoCode", "Odd", "Unaligned", "TooDeep", "RetireTooMany", "CancelTooMany",
            "NoBranchToFlip", "ContextPlace"]


def refused_draft(rng, model, name, draft_of=draft_of):
    """A draft with an event that is refused for this reason."""
    while True:
        settings = model.base.Settings(rng.choice([1, 1, 2, 4]), 1, 4) if name == "TooDeep" else None
        draft = draft_of(rng, model, settings)
        if name == "Odd":
            draft.image.words[max(draft.image.words) + 0x40 & (1 << 64) - 4] = ODD
        found = with_refused(rng, model, draft, name)
        if found is not None:
            return found


# ---- lines of text that have a fault -----------------------------------------

PLACE, CONTEXT = "1000", "el0 ns 0 0"
NO_FORM = [
    "bogus", "Step", "step x", "step 1 2", "step -1", "step +1", "step 0x1", "step 00000000001", "taken 1", "not 1", "to",
    "to 1000 el0", "to 10000000000000000", "to 0x1000", "on", f"on {PLACE}", f"on {PLACE} el4 ns 0 0",
    f"on {PLACE} EL0 ns 0 0", f"on {PLACE} el0 n 0 0", f"on {PLACE} el0 ns 0", f"on {PLACE} {CONTEXT} 0",
    f"on {PLACE} el0 ns 000000000 0", f"on {PLACE} el0 ns 0 123456789", f"on x {CONTEXT}", f"eret {PLACE}",
    f"eret {PLACE} el0 s 0 g", f"exc 14 {PLACE}", f"exc {PLACE} {CONTEXT}", f"exc e {PLACE} {CONTEXT}",
    f"exc 00000000014 {PLACE} {CONTEXT}", "context", "context el0 ns 0", f"context {CONTEXT} 0", "retire", "retire 1 1",
    "retire -1", "retire 00000000001", "cancel", "cancel x", "flip 1", "sync 1", "overflow 1", "off 1", "@1000", "etm 1",
    "weave", "weave 01", "weave 1:1", "weave 001:1", "weave 01:", "weave :1", "weave 01:1:1", "weave 01:00000000001",
    "weave 01 :1", "weave 01;1", "stream", "stream 1", "stream 001", "stream 0x", "stream 01 depth 4", "depth", "depth 4 4",
    "depth x", "vmid -1", "cid 00000000004", "stack 0x1"]
NO_NUMBER = {
    "setting": ["depth 4097", "depth 9999999999", "vmid 3", "vmid 5", "vmid 257", "cid 1", "cid 2", "cid 8", "stack 16",
                "stack 4294967296"],
    "event": ["step 0", "step 65536", "step 9999999999", "retire 0", "retire 65536", "cancel 0", "cancel 65536",
              "cancel 4294967297",
              f"exc 32 {PLACE} {CONTEXT}", f"exc 256 {PLACE} {CONTEXT}", f"on {PLACE} el0 ns 10000000 0",
              f"on {PLACE} el0 s ffffffff 0", f"eret {PLACE} el0 s ffffffff 0", f"exc 1 {PLACE} el3 s ffffffff 0",
              "context el2 s ffffffff 0"],
    "weave": ["{id}:0", "{id}:1048577", "{id}:1 {id}:9999999999", "{id}:0 {id}:1"],
}
NO_STREAM = ["{other}:1", "{id}:1 {other}:0", "{id}:0 {other}:1", "00:1", "70:1", "ff:1"]
NOT_UTF8 = [[b"# \xff"], [b"step", b"\xc3"], [b"# \xed\xa0\x80"], [b"\xc0\x80"], [b"taken", b"# \xf8"]]
NO_WORDS = [["taken", "#"], [b"st\x00ep"], [b"taken\x0c"], [b"taken\xc2\xa0"], [b"\xef\xbb\xbfstep"], ["\u0435tm", "1"]]
HEADERS = [
    [], [["etm", "3"]], [["etm", "01"]], [["etm"]], [["etm", "1", "1"]], [["ETM", "1"]], [["etm", "1:"]], [["#etm", "1"]],
    [["1", "etm"]], [["etm1"]]]


def place_for(rng, lines, kind):
    """Where a line of a kind may stand among the lines: a setting, a stream, an event, a weave, or a line behind all streams."""
    first = next((k for k, words in enumerate(lines) if words[0] == "stream"), len(lines))
    end = next((k for k, words in enumerate(lines) if words[0] == "weave"), len(lines))
    within = {"setting": range(1, first + 1), "stream": range(first, end + 1), "event": range(first + 1, end + 1), "end of streams": [end],
              "weave": range(end, len(lines) + 1), "any": range(1, len(lines) + 1)}[kind]
    return rng.choice(within)


def wrong_lines(rng, draft):
    """Lines that have a fault, with the place where they have it, for each of the ways in which a text may have one."""
    ids = [stream.id for stream in draft.streams]
    names = {"id": f"{rng.choice(ids):02x}", "other": f"{rng.choice([i for i in range(1, 112) if i not in ids]):02X}"}
    name = rng.choice(list(DEFAULTS))

    def weave(word):
        return ["weave", *word.format(**names).split()]
    # of no form, or out of place
    yield "any", [rng.choice(NO_FORM).split()]
    yield "any", [rng.choice(NOT_UTF8 + NO_WORDS)]
    yield "setting", [[name, "4" if name in ("vmid", "cid") else "3"], [name, rng.choice(["4", "5000"])]]
    yield "event", [[name, str(DEFAULTS[name])]]
    yield "setting", [rng.choice([["step"], ["flip"], ["on", PLACE, *CONTEXT.split()]])]
    yield "weave", [weave("{id}:1"), rng.choice([["step"], ["sync"], ["stream", names["other"]], ["depth", "4"]])]
    # IDs
    yield "stream", [["stream", rng.choice(["00", "70", "7f", "7F", "ff", "80"])]]
    yield "weave", [weave(rng.choice(NO_STREAM))]
    yield "stream", [["stream", names["id"]]]
    yield "stream", [["stream", names["other"]], ["stream", names["other"].lower()]]
    # numbers out of their ranges
    for kind, wrong in NO_NUMBER.items():
        line = rng.choice(wrong)
        yield kind, [weave(line) if kind == "weave" else line.split()]


def wrong_text(rng, model, number):
    """The image and the lines of a run file whose text has a fault; some have a second one, or a refused event before it."""
    settings = model.base.Settings(16, rng.choice([0, 1, 2]), rng.choice([0, 4]))
    draft = refused_draft(rng, model, rng.choice(REFUSALS)) if number % 8 == 0 else draft_of(rng, model, settings)
    lines = lines_of(rng, draft)
    for choice in [number, rng.randrange(1000)][:rng.choice([1, 1, 1, 2])]:
        ways = list(wrong_lines(rng, draft))
        kind, wrong = ways[choice % len(ways)]
        place = place_for(rng, lines, kind)
        lines[place:place] = wrong
    if number % 10 == 9:
        lines[:1] = HEADERS[number // 10 % len(HEADERS)]
    return draft.image, lines


# ---- lines of text that have a fault where streams have settings of their own ----

OF_NO_FORM = [
    "{other} depth", "{other} depth 1 vmid", "{other} 1", "{other} depth 1 2", "{other} foo 1", "{other} Depth 1", "{other} depth x",
    "{other} depth -1", "{other} stack 0x1", "{other} cid 00000000004", "{other} depth 1 depth 1", "{other} stack 1 cid 4 stack 1",
    "{other} depth 20000 foo 1", "{other} vmid 3 vmid 3", "{id} depth", "{id} stack 1 foo 1", "70 depth 1 depth 1", "00 cid",
    "depth 1 {other}", "1 depth 1", "{other} depth=1", "{other} depth 1,"]
OF_NO_ID = ["70 vmid 3", "00 depth 16385", "ff stack 16 cid 4", "7f depth 1 vmid 1 cid 4 stack 15"]
OF_AN_ID_TWICE = ["{id} depth 1", "{id} depth 16385", "{id} cid 1 vmid 4", "{id} stack 15 depth 99999"]
OF_NO_NUMBER = [
    "{other} depth 16385", "{other} depth 4294967296", "{other} depth 9999999999", "{other} vmid 3", "{other} cid 1", "{other} stack 16",
    "{other} vmid 4 cid 2", "{other} stack 0 depth 16385", "{other} depth 16384 vmid 8 cid 4 stack 15"]
# a stream, and an event whose context does not fit the stream's sizes
OF_NO_CONTEXT = [
    ["{other} vmid 0", f"on {PLACE} el0 s 1 0"], ["{other} cid 0 depth 1", f"on {PLACE} el0 s 0 1"],
    ["{other} vmid 1", f"exc 1 {PLACE} el3 ns 100 0"], ["{other} stack 3 vmid 2", "context el2 s 10000 0"],
    ["{other} vmid 2 cid 0", f"on {PLACE} el0 s ffff 0", f"eret {PLACE} el1 s 0 ffffffff"]]


def wrong_streams(rng, draft):
    """The same as of `wrong_lines`: lines of streams, of which one has a fault."""
    ids = [stream.id for stream in draft.streams]
    names = {"id": f"{rng.choice(ids):02x}", "other": f"{rng.choice([i for i in range(1, 112) if i not in ids]):02X}"}
    for lines in (OF_NO_FORM, OF_NO_ID, OF_AN_ID_TWICE, OF_NO_NUMBER):
        yield "end of streams" if lines is OF_AN_ID_TWICE else "stream", [["stream", *rng.choice(lines).format(**names).split()]]
    first, *events = rng.choice(OF_NO_CONTEXT)
    yield "end of streams", [["stream", *first.format(**names).split()], *(line.split() for line in events)]
    yield "setting", [["depth", rng.choice(["16385", "99999"])]]
    yield "event", [[*rng.choice([["depth", "1"], ["stack", "3"]])]]
    yield "header", [["etm", "1"]]


def own_wrong_text(rng, model, number):
    """The image and the lines of a run file `etm 2` whose text has a fault, some after a refused event."""
    settings = model.base.Settings(rng.choice([0, 1, 16, 16384]), 4, 4)
    if number % 8 == 0:
        draft = refused_draft(rng, model, rng.choice(REFUSALS), own_draft_of)
    else:
        draft = own_draft_of(rng, model, settings)
    lines, ways = lines_of(rng, draft), list(wrong_streams(rng, draft))
    kind, wrong = ways[number % len(ways)]
    place = 0 if kind == "header" else place_for(rng, lines, kind)
    lines[place:place + (kind == "header")] = wrong
    return draft.image, lines


# ---- cases -----------------------------------------------------------------

def full_window(rng, model, what):
    """A loop that is executed until as many steps are held as may be; then the run file goes on by `what`."""
    image = model.image.Image({0x1000 + 4 * k: path_cases.NOP for k in range(16)} | {0x1040: 0x17FFFFF0}, PROFILE)
    front, loop = b"etm 1\ndepth 4096\nstream 01\non 1000 el0 ns 0 0\n", b"step 16\ntaken\n"
    assert 65535 % 17 == 0
    return image, [(front, 1), (loop, 65535 // 17), (what, 1)]


WINDOWS = {
    "window_full": b"step\n",
    "window_full_at_an_exception": b"cancel 1\ntaken\nexc 14 1000 el1 ns 0 0\n",
    "window_with_room_again": b"retire 17\nstep 16\ntaken\nretire 34\n",
    "window_with_room_behind_a_cancel": b"cancel 17\nstep 16\ntaken\n",
}


Kind = collections.namedtuple("Kind", "name good wrong_texts refused draft_of wrong_text")  # name: before that of each case
ALL_ALIKE = Kind("", GOOD, WRONG_TEXTS, REFUSED, draft_of, wrong_text)
OF_THEIR_OWN = Kind("own_", OWN_GOOD, OWN_WRONG_TEXTS, OWN_REFUSED, own_draft_of, own_wrong_text)


def cases_of(kind, rng, model):
    """By names the lines of an image, and the pieces of a text with how often each stands there."""
    for number in range(kind.good):
        draft = kind.draft_of(rng, model)
        yield f"{kind.name}good_{number}", image_of(rng, draft.image), [(text_of(rng, lines_of(rng, draft)), 1)]
    for number in range(kind.wrong_texts):
        image, lines = kind.wrong_text(rng, model, number)
        yield f"{kind.name}text_{number}", image_of(rng, image), [(text_of(rng, lines), 1)]
    for number in range(kind.refused):
        draft = refused_draft(rng, model, REFUSALS[number % len(REFUSALS)], kind.draft_of)
        yield f"{kind.name}refused_{number}", image_of(rng, draft.image), [(text_of(rng, lines_of(rng, draft)), 1)]


def cases(rng, model):
    """The same of all kinds, those of files whose streams have settings of their own last."""
    yield from cases_of(ALL_ALIKE, rng, model)
    for name, what in WINDOWS.items():
        image, pieces = full_window(rng, model, what)
        yield name, image_of(rng, image), pieces
    yield from cases_of(OF_THEIR_OWN, random.Random(16), model)


# ---- what must occur -------------------------------------------------------

def forms():
    v, n = "[0-9a-f]+", "[0-9]+"
    return ["on", "gap", "stop", v, f"ctx el[0-3] (ns|s) {v} {v}", f"exc [a-z-]+ {v}", f"exc {n} {v}"]


def counted_lines(answers):
    """How often each form of a line stands in the answers."""
    patterns = [(re.compile("[0-9a-f]{2} " + form), form) for form in forms()]
    counts = collections.Counter()
    for line in itertools.chain(*answers):
        found = [form for pattern, form in patterns if pattern.fullmatch(line)]
        assert found, f"{line!r} has no form"
        counts[found[0]] += 1
    return counts


WHY = [
    "header", "syntax", "id-range", "duplicate-id", "range", "not-on", "already-on", "wrong-kind", "no-code", "odd",
    "unaligned", "too-deep", "retire-too-many", "cancel-too-many", "no-branch", "context-place", "window-full"]
EVENTS = [
    "a step of a plain instruction", "an ISB", "a branch with a condition that is taken", "one that is not taken", "a branch",
    "a call", "an indirect branch", "an indirect call", "an exception's return", "an exception", "a context behind an ISB",
    "a context behind a retired ISB", "a retire", "a retire of plain steps alone", "a cancel",
    "a cancel of plain steps alone", "a cancel of all that is held", "a cancel that comes to an ISB",
    "a flip of one that was taken", "a flip of one that was not taken", "a flip behind a cancel", "a sync",
    "an overflow with steps held", "off with steps held", "an overflow with none held", "tracing turned on again",
    "an end with steps held", "a stretch that shows nothing", "a depth of 0", "a depth of 4096", "a branch with a key",
    "a depth of 16384", "streams of several depths", "streams with fields of several sizes", "streams of several stack depths"]


def seen(model, image, text):
    """What happens in an accepted run file, by the model."""
    bench = model.runs.bench_of(image, text, PROFILE)
    yield from seen_in(bench.streams)
    for stream in bench.streams:
        state, before = model.runs.RunState(), None
        yield from (f"a depth of {depth}" for depth in (0, 4096, 16384) if stream.settings.depth == depth and stream.lines)
        for event in stream.events():
            yield from seen_at(model, image, stream.settings, state, event, before)
            model.runs.run_apply(image, stream.settings, state, event)
            before = event
        yield from (["an end with steps held"] if state.on and state.unretired() else [])


def seen_in(streams):
    """What the streams with an event differ in."""
    streams = [stream for stream in streams if stream.lines]
    for name, of in (("streams of several depths", lambda stream: stream.settings.depth),
                     ("streams with fields of several sizes", lambda stream: (stream.settings.vmid_bytes, stream.settings.cid_bytes)),
                     ("streams of several stack depths", lambda stream: stream.stack)):
        yield from [name] * (len(set(map(of, streams))) > 1)


EXECUTED = {"Plain": "a step of a plain instruction", "Isb": "an ISB", "Eret": "an exception's return", "Exc": "an exception"}


def executed(step):
    """The name of an executed step."""
    if step.kind == "Cond":
        return "a branch with a condition that is taken" if step.taken else "one that is not taken"
    if step.kind == "Jump":
        return "a call" if step.link else "a branch"
    if step.kind == "Ind":
        return "an indirect call" if step.link else "an indirect branch"
    return EXECUTED[step.kind]


def seen_at(model, image, settings, state, event, before):
    if event.name in model.runs.EXECUTES:
        step = model.runs.step_of(image, state, event)
        has_key = step.kind in ("Ind", "Eret") and image.words[step.addr] & 0x800
        return [executed(step), *["a branch with a key"] * bool(has_key)]
    held = state.steps[state.r:]
    gone = held[len(held) - event.n:] if event.name == "Cancel" else held[:event.n]
    is_plain = not any(step.is_p0() for step in gone)
    left = state.steps[:len(state.steps) - event.n]
    newest = state.steps[-1] if state.steps else None
    shows = any(step.is_p0() for step in state.steps[:state.r])
    found = {
        "On": [("tracing turned on again", state.closed)],
        "Context": [("a context behind an ISB", True), ("a context behind a retired ISB", not held)],
        "Retire": [("a retire", True), ("a retire of plain steps alone", is_plain)],
        "Cancel": [("a cancel", True), ("a cancel of plain steps alone", is_plain),
                   ("a cancel of all that is held", len(gone) == len(held)),
                   ("a cancel that comes to an ISB", left and left[-1].kind == "Isb")],
        "Flip": [("a flip of one that was taken", newest and newest.taken),
                 ("a flip of one that was not taken", newest and not newest.taken),
                 ("a flip behind a cancel", before and before.name == "Cancel")],
        "Sync": [("a sync", True)],
        "Overflow": [("an overflow with steps held", held), ("an overflow with none held", not held),
                     ("a stretch that shows nothing", not shows)],
        "Off": [("off with steps held", held), ("a stretch that shows nothing", not shows)],
    }
    return [name for name, there in found[event.name] if there]


# ---- the file --------------------------------------------------------------

def is_plain(line):
    """Whether a reader of the file sees all of a line."""
    return all(byte == 9 or 32 <= byte < 127 for byte in line) and line == line.rstrip()


def input_lines(text, times):
    if times > 1:
        return [f"input {text.hex()} x{times}"]
    lines = [line + b"\n" for line in text.split(b"\n")]
    lines[-1] = lines[-1][:-1]
    return [("run " + line[:-1].decode()).rstrip() if line.endswith(b"\n") and is_plain(line[:-1]) else "input " + line.hex()
            for line in lines if line]


def block(name, image, pieces, status, lines):
    given = itertools.chain(*(input_lines(text, times) for text, times in pieces))
    return "\n".join([f"case {name}", "words " + " ".join(WORDS), *(f"image {line}" for line in image), *given,
                      f"status {status}", *("  " + line for line in lines)]) + "\n"


def main(words):
    if len(words) != 1:
        sys.exit(__doc__)
    model = loaded(words[0])
    rng = random.Random(13)
    lines, blocks, happened, bad = [], [], collections.Counter(), collections.defaultdict(set)
    refused, own_refused = collections.Counter(), collections.Counter()
    for name, image_lines, pieces in cases(rng, model):
        given = b"".join(text * times for text, times in pieces)
        status, printed = answer(model, WORDS, image_lines, given)
        assert len(printed) <= MOST_LINES, f"{name} prints {len(printed)} lines"
        blocks.append(block(name, image_lines, pieces, status, printed))
        if status == 0:
            lines.append(printed)
            found = model.image.image_of("".join(line + "\n" for line in image_lines).encode(), PROFILE)
            happened.update(seen(model, found, given))
        else:
            [(place, why)] = re.findall("^bench line ([0-9]+): ([a-z-]+)", printed[0])
            bad[why].add(place)
            (own_refused if name.startswith("own_") else refused)[why] += 1
    show("lines", counted_lines(lines), forms())
    show("what happens", happened, EVENTS)
    show("refused", refused, WHY)
    show("refused where streams have settings of their own", own_refused, [why for why in WHY if why not in ("header", "window-full")])
    few = [why for why, places in bad.items() if len(places) < PLACES and why not in ("header", "window-full")]
    assert not few, f"too few lines are refused as {few}"
    OUT.parent.mkdir(exist_ok=True)
    OUT.write_text("\n".join([HEAD, *blocks]))
    print(f"{len(blocks)} cases, {OUT.stat().st_size} bytes, at most {max(map(len, lines))} lines")


if __name__ == "__main__":
    main(sys.argv[1:])
