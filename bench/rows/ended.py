"""Rows of a service whose runs have all ended, of the example's pipeline (examples/shop), and the records that rows stand for, as Python decodes them."""
import struct
from collections import namedtuple

TEMPLATES = ("pipelines/services.yml", "jobs/build.yml", "jobs/test.yml", "steps/deploy.yml")
DIGEST = b"%064x"
# Build, Test and Deploy, of two jobs each.
STAGES = 3
JOBS = 2
STEP = 60


def number(n): return struct.pack(">Q", n)
def count(n): return struct.pack(">I", n)
def text(b): return count(len(b)) + b
def key(repo, path): return text(repo) + text(b"refs/heads/main") + text(b"/" + path)


def held(path):
    with open(path, "rb") as file: return file.read()


def sources(top):
    """The files of the example: the key and the text of each, as fields."""
    shop = f"{top}/examples/shop"
    files = [(key(b"app", b"ci.yml"), text(held(f"{shop}/app/ci.yml")))]
    return files + [(key(b"platform/templates", it.encode()), text(held(f"{shop}/templates/{it}"))) for it in TEMPLATES]


def run_rows(run, files):
    """The rows of one run: table, key and body."""
    at = run * STEP
    kept = count(len(files)) + b"".join(place + held for place, held in files)
    yield 6, number(run), text(b"shop") + text(b"ann") + number(at) + key(b"app", b"ci.yml") + count(0) + kept + b"\0"
    for stage in range(STAGES):
        begun, ended = at + 10 * stage, at + 10 * stage + 10
        yield 7, number(run) + number(stage), b"\1" + number(begun) + b"\1" + number(ended) + b"\0\0"
        for job in range(JOBS):
            taken = b"\1" + text(b"linux-%d" % (job + 1)) + number(begun + 1)
            end = b"\1" + number(ended) + b"\0\0\1\0" + count(0)
            yield 8, number(run) + number(stage) + number(job), taken + end
    yield 9, number(run) + number(2) + text(b"bob"), b"\1" + number(at + 20)


def rows(runs, top):
    """All rows of so many runs, in order of table and key."""
    files, found = sources(top), []
    found.append((0, b"", number(runs * STEP + 40) + number(runs) + number(5) + number(11 + 11 * runs)))
    found += [(1, place, held) for place, held in files]
    found.append((2, text(b"shop"), text(b"app") + text(b"/ci.yml")))
    for n, name in enumerate((b"ann", b"bob", b"linux-1", b"linux-2")):
        found.append((4, text(name), count(1) + bytes([(1, 2, 3, 3)[n]]) + text(DIGEST % (n + 1))))
    found += [(5, text(name), text(b"linux") + count(0)) for name in (b"linux-1", b"linux-2")]
    for run in range(1, runs + 1): found += run_rows(run, files)
    return sorted(found, key=lambda row: row[:2])


Meta = namedtuple("Meta", "moment run version change")
File = namedtuple("File", "repo ref path text")
Pipeline = namedtuple("Pipeline", "name repo path")
Principal = namedtuple("Principal", "name roles digest")
Agent = namedtuple("Agent", "name pool capabilities")
Run = namedtuple("Run", "run pipeline requester moment root arguments files canceled")
Stage = namedtuple("Stage", "run position started ended")
Job = namedtuple("Job", "run stage position taken ended")
Decision = namedtuple("Decision", "run stage approver approve moment")
four, eight = struct.Struct(">I").unpack_from, struct.Struct(">Q").unpack_from


# Each reads a field of `data` at a place, and answers it and the place behind it.
def text_at(data, at):
    end = at + 4 + four(data, at)[0]
    return data[at + 4:end].decode(), end


def number_at(data, at): return eight(data, at)[0], at + 8


def list_at(data, at, item):
    found, many, at = [], four(data, at)[0], at + 4
    for _ in range(many):
        one, at = item(data, at)
        found.append(one)
    return found, at


def option_at(data, at, item): return item(data, at + 1) if data[at] else (None, at + 1)


def texts_at(data, at, many):
    found = []
    for _ in range(many):
        one, at = text_at(data, at)
        found.append(one)
    return tuple(found), at


def pair_at(data, at): return texts_at(data, at, 2)
def key_at(data, at): return texts_at(data, at, 3)


def file_at(data, at):
    place, at = key_at(data, at)
    end = at + 4 + four(data, at)[0]
    return File(*place, data[at + 4:end]), end


def byte_at(data, at): return data[at], at + 1


def rule_at(_data, _at): raise ValueError("these rows have no rule")


def end_at(data, at):
    moment, at = number_at(data, at)
    outcome, at = data[at], at + 1
    rule, at = option_at(data, at, rule_at)
    return (moment, outcome, rule), at


def taking_at(data, at):
    agent, at = text_at(data, at)
    moment, at = number_at(data, at)
    return (agent, moment), at


def job_end_at(data, at):
    end, at = end_at(data, at)
    reported, at = option_at(data, at, byte_at)
    outputs, at = list_at(data, at, pair_at)
    return (*end, reported, outputs), at


def run_of(place, body):
    pipeline, at = text_at(body, 0)
    requester, at = text_at(body, at)
    moment, at = number_at(body, at)
    root, at = key_at(body, at)
    arguments, at = list_at(body, at, pair_at)
    files, at = list_at(body, at, file_at)
    canceled, at = option_at(body, at, number_at)
    return Run(eight(place)[0], pipeline, requester, moment, root, arguments, files, canceled), at


def stage_of(place, body):
    started, at = option_at(body, 0, number_at)
    ended, at = option_at(body, at, end_at)
    return Stage(eight(place)[0], eight(place, 8)[0], started, ended), at


def job_of(place, body):
    taken, at = option_at(body, 0, taking_at)
    ended, at = option_at(body, at, job_end_at)
    return Job(eight(place)[0], eight(place, 8)[0], eight(place, 16)[0], taken, ended), at


def record_of(table, place, body):
    """The record that a row stands for. A row that is too long or too short is an error."""
    if table == 8: record, at = job_of(place, body)
    elif table == 7: record, at = stage_of(place, body)
    elif table == 6: record, at = run_of(place, body)
    elif table == 9: record, at = Decision(eight(place)[0], eight(place, 8)[0], text_at(place, 16)[0], body[0] == 1, eight(body, 1)[0]), 9
    elif table == 0: record, at = Meta(*(eight(body, 8 * n)[0] for n in range(4))), 32
    elif table == 1:
        end = 4 + four(body)[0]
        record, at = File(*key_at(place, 0)[0], body[4:end]), end
    elif table == 2:
        found, at = pair_at(body, 0)
        record = Pipeline(text_at(place, 0)[0], *found)
    elif table == 4:
        roles, at = list_at(body, 0, byte_at)
        digest, at = text_at(body, at)
        record = Principal(text_at(place, 0)[0], roles, digest)
    else:
        pool, at = text_at(body, 0)
        found, at = list_at(body, at, pair_at)
        record = Agent(text_at(place, 0)[0], pool, found)
    if at != len(body): raise ValueError("a row of another length")
    return record
