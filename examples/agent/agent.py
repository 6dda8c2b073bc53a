#!/usr/bin/env python3
"""A build agent for pipectl's service: draws a job, runs its steps, reports it, and begins again.

  PIPECTL_TOKEN=... ./agent.py --url http://127.0.0.1:8080 --sources FOLDER --work FOLDER [--poll SECONDS] [--once]

It runs `script` and `bash` (in the shell), and `checkout` (a copy of FOLDER/NAME of the sources, NAME being what the step says, as
`self`). A step of another kind fails its job. Python 3 alone; docs/SERVICE.md has the routes."""
import argparse, contextlib, ctypes, http.client, json, os, re, shutil, signal, subprocess, sys, threading, time
import urllib.error, urllib.parse, urllib.request

COMMAND = re.compile(r"##vso\[task\.setvariable ([^\]]*)\](.*)")
stopping = threading.Event()  # SIGTERM came: the job at hand is ended and reported, and no other is drawn


class Refused(Exception):
    """The service refused a request: its status, and its reply's content."""
    def __str__(self):
        return f"{self.args[0]} {self.args[1]}"


def say(text):
    print("agent: " + text, file=sys.stderr, flush=True)


def ask(options, target, body=None):
    """Posts one message. It goes on trying while the service can't be reached, or can't serve anything now."""
    wait = 1
    while True:
        request = urllib.request.Request(options.url + target, method="POST", data=b"" if body is None else json.dumps(body).encode())
        request.add_header("Authorization", "Bearer " + options.token)
        try:
            with urllib.request.urlopen(request, timeout=30) as reply:
                return reply.status, json.loads(reply.read() or b"null")
        except urllib.error.HTTPError as refusal:
            with refusal:
                text = refusal.read().decode(errors="replace")
            if refusal.code < 500 and "journal.full" not in text:
                raise Refused(refusal.code, text) from None
            say(f"{target}: {refusal.code} {text}; again in {wait} s")
        except (OSError, ValueError, http.client.HTTPException) as lost:
            say(f"{target}: {lost or type(lost).__name__}; again in {wait} s")
        if stopping.wait(wait):
            raise SystemExit(0 if target == "/draw" else f"agent: it ends without an answer to {target}")
        wait = min(2 * wait, 30)


def expanded(text, variables):
    """The text with each $(NAME) that is a variable replaced; names ignore case, and what is no variable stays."""
    known = {name.lower(): value for name, value in variables.items()}
    return re.sub(r"\$\(([A-Za-z0-9_.\-]+)\)", lambda found: known.get(found[1].lower(), found[0]), text)


def environment(variables, step):
    """The agent's own environment without its token, the variables as Azure's agents name them, and the step's `env`."""
    env = {name: value for name, value in os.environ.items() if name != "PIPECTL_TOKEN"}
    env.update({re.sub(r"[ .]", "_", name).upper(): value for name, value in variables.items()})
    given = step.get("env")
    env.update({name: expanded(text_of(value), variables) for name, value in given.items()} if isinstance(given, dict) else {})
    return env


def text_of(value):
    return value if isinstance(value, str) else json.dumps(value)


def heed(line, step, variables, outputs):
    """Sets the variable that a line of a step's output asks for, if it asks for one."""
    found = COMMAND.search(line)
    if not found:
        return
    words = dict(word.split("=", 1) for word in found[1].split(";") if "=" in word)
    words = {name.strip().lower(): value.strip() for name, value in words.items()}
    name, value = words.get("variable", ""), found[2]
    if not name:
        return
    if words.get("isoutput", "").lower() == "true":
        name = f"{text_of(step['name'])}.{name}" if step.get("name") else name
        outputs[name] = value
    variables[name] = value


def run(command, step, folder, variables, outputs, until):
    """Runs a command, shows and heeds its lines, and says whether it ended well. When the job's time is over it is killed, with all
    that it started in its group."""
    where = os.path.join(folder, expanded(text_of(step.get("workingDirectory", "")), variables))
    process = subprocess.Popen(command, cwd=where, env=environment(variables, step), stdin=subprocess.DEVNULL,
                               stdout=subprocess.PIPE, stderr=subprocess.STDOUT, start_new_session=True)

    def ring(*_):
        with contextlib.suppress(ProcessLookupError):
            os.killpg(process.pid, signal.SIGKILL)
        raise TimeoutError("the job's time is over")

    signal.signal(signal.SIGALRM, ring)
    if until:
        signal.setitimer(signal.ITIMER_REAL, max(until - time.monotonic(), 0.001))
    try:
        for line in process.stdout:
            text = line.decode(errors="replace").rstrip("\r\n")
            print("  | " + text, flush=True)
            heed(text, step, variables, outputs)
        return process.wait() == 0
    finally:
        signal.setitimer(signal.ITIMER_REAL, 0)


def checkout(name, folder, sources):
    """Copies the sources of that name into the job's folder; `none` copies nothing."""
    source = os.path.join(sources, name)
    if name == "none":
        return True
    if name in ("", ".", "..") or "/" in name or not os.path.isdir(source):
        raise ValueError(f"no sources {name}")
    shutil.copytree(source, folder, dirs_exist_ok=True, symlinks=True)
    return True


def wanted(step, failed):
    """Whether a step is to run. Of conditions it knows the status functions alone; any other fails the job, rather than be guessed."""
    condition = text_of(step.get("condition", "succeeded()")).replace(" ", "").lower()
    by = {"succeeded()": not failed, "failed()": failed, "always()": True, "succeededorfailed()": True}
    if condition not in by:
        raise ValueError(f"a condition that this agent doesn't judge: {step['condition']}")
    return by[condition] and text_of(step.get("enabled", "true")).lower() != "false"


def perform(job, options, folder):
    """Runs a job's steps in order, in that folder. The result, and the outputs."""
    variables, outputs, failed, issues = dict(job["variables"]), {}, False, False
    until = time.monotonic() + 60 * job["timeout"] if job["timeout"] else None
    for handed in job["steps"]:
        step, form = handed["step"], handed["form"]
        try:
            if not wanted(step, failed):
                continue
            print(f"agent: {form} {step.get('displayName', step.get('name', ''))}", flush=True)
            if form == "checkout":
                good = checkout(text_of(step[form]), folder, options.sources)
            elif form in ("script", "bash"):
                shell = "bash" if form == "bash" or shutil.which("bash") else "sh"
                good = run([shell, "-c", expanded(text_of(step[form]), variables)], step, folder, variables, outputs, until)
            else:
                raise ValueError(f"a step that this agent doesn't run: {form}")
        except (OSError, ValueError) as fault:
            say(str(fault))
            good = False
        if until and time.monotonic() >= until:
            return "Canceled", outputs
        goes_on = text_of(step.get("continueOnError", "false")).lower() == "true"
        failed, issues = failed or not (good or goes_on), issues or (goes_on and not good)
    return "Failed" if failed else "SucceededWithIssues" if issues else "Succeeded", outputs


def report(options, job, result, outputs):
    """Reports a job, and gives the result that was reported. Outputs that are too many or too long for a report fail the job."""
    parts = (urllib.parse.quote(str(job[part]), safe="") for part in ("run", "stage", "job"))
    target = "/runs/{}/stages/{}/jobs/{}/report".format(*parts)
    try:
        ask(options, target, {"result": result, "outputs": outputs})
        return result
    except Refused as refusal:
        if refusal.args[0] not in (400, 413):
            raise
        say(f"the outputs are refused, so the job has failed: {refusal}")
        ask(options, target, {"result": "Failed", "outputs": {}})
        return "Failed"


def main():
    parser = argparse.ArgumentParser(description=__doc__, formatter_class=argparse.RawDescriptionHelpFormatter)
    parser.add_argument("--url", default="http://127.0.0.1:8080")
    parser.add_argument("--sources", default="sources")
    parser.add_argument("--work", default="work")
    parser.add_argument("--poll", type=float, default=5)
    parser.add_argument("--once", action="store_true", help="end where there is no job")
    options = parser.parse_args()
    options.token = os.environ.get("PIPECTL_TOKEN") or parser.error("PIPECTL_TOKEN is wanting")
    if sys.platform == "linux":
        ctypes.CDLL(None).prctl(4, 0, 0, 0, 0)  # PR_SET_DUMPABLE: steps of the same user don't read the token in /proc
    for asked in (signal.SIGTERM, signal.SIGINT):
        signal.signal(asked, lambda *_: stopping.set())
    while not stopping.is_set():
        status, job = ask(options, "/draw")
        if status == 204:
            if options.once:
                return
            stopping.wait(options.poll)
            continue
        label = f"{job['run']} {job['stage']} {job['job']}"
        folder = os.path.join(options.work, label.replace(os.sep, "_").replace(" ", "-"))
        shutil.rmtree(folder, ignore_errors=True)
        os.makedirs(folder)
        print(f"agent: job {label}", flush=True)
        result, outputs = perform(job, options, folder)
        try:
            print(f"agent: {label} {report(options, job, result, outputs)}", flush=True)
        except Refused as refusal:
            if refusal.args[0] != 409:  # 409: the job was ended otherwise, as by its timeout
                raise
            say(f"{label}: {refusal}")


if __name__ == "__main__":
    try:
        main()
    except Refused as refusal:
        sys.exit(f"agent: refused: {refusal}")
