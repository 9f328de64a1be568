"""The forms of what each command may write, with the statuses that belong to them. Made from what docs/FORMATS.md says of each
command, and from its tables of faults."""

import re

from slow import orders, plans, reader

NUMBER = "(?:0|[1-9][0-9]*)"


def any_of(names, form):
    """The fault lines of a format: each name with its number."""
    return "|".join(form.format(number, name) for number, name in enumerate(names, 1))


SM = any_of(reader.FAULTS, rf"refused sm {{}} {{}} line {NUMBER}\n")
ORDER = any_of(orders.FAULTS, "refused order {} {}\n")
PLAN = any_of(plans.FAULTS, rf"refused plan {{}} {{}} line {NUMBER}\n")
IMPOSSIBLE = rf"impossible critical {NUMBER} deadline {NUMBER}\n|impossible due {NUMBER}\n|impossible ceiling\n"
STOPPED = rf"stopped(?: {NUMBER})+\n"
PLAN_TEXT = (rf"deadline {NUMBER}\ncritical {NUMBER}\ncost {NUMBER}\n(?:capacity {NUMBER} {NUMBER}\n)+"
             rf"(?:start {NUMBER} {NUMBER}\n)+end\n")
FAULT = "|".join(f"fault {words}\n" for words in
                 ["head", "cost", f"late {NUMBER}", f"order {NUMBER} {NUMBER}", f"over {NUMBER} {NUMBER}", f"ceiling {NUMBER}",
                  f"early {NUMBER}"])
CERTIFICATE = rf"proof\n(?:vector(?: {NUMBER})+\n(?:[DLC] {NUMBER}\n)+)*end\n"
LITERAL = rf"(?:(?:start|units) {NUMBER}|cost) [<>]= {NUMBER}\n"
HINT = (
    rf"prices\n|{NUMBER}\n|(?:budget|clause) {NUMBER}\n|(?:pair|request) {NUMBER} {NUMBER}\n"
    rf"|(?:times {NUMBER}|energy)(?: {NUMBER}){{3}}\n"
)
CLAUSES = rf"proof 2\n(?:{LITERAL}|{HINT}|holds\n|keep\n)*end\n"
BOUND = rf"proof 2\nat least {NUMBER}\n(?:{LITERAL}|{HINT}|holds\n|keep\n)*end\n"
STEP = rf"deadline {NUMBER} cost {NUMBER} capacity(?: {NUMBER})+\n"

# For each command the form of standard output by status. None stands for pictures, tables and orders, which have no line of their
# own.
READ = {5: f"{SM}|{ORDER}", 6: "memory\n"}
PLANNED = {**READ, 3: IMPOSSIBLE, 7: "no thread\n"}
CHECKED = {5: f"{SM}|{ORDER}|{PLAN}", 6: "memory\n", 8: FAULT}
FORMS = {
    "cpm": {0: rf"critical {NUMBER}\n(?:start {NUMBER} {NUMBER}\n)+end\n", 5: SM, 6: "memory\n"},
    "plan": {**PLANNED, 0: PLAN_TEXT, 4: STOPPED},
    "prove": {**READ, 0: f"{CERTIFICATE}|{CLAUSES}", 3: IMPOSSIBLE, 4: BOUND, 8: "unproved\n"},
    "check": {**CHECKED, 0: "ok\n"},
    "verify": {**CHECKED, 0: f"verified\n|at least {NUMBER}\n", 4: "stopped\n", 8: f"unproved\n|{FAULT}"},
    "show": {**CHECKED, 0: None},
    "curve": {**PLANNED, 0: rf"(?:{STEP})+end\n", 4: f"(?:{STEP})*{STOPPED}"},
    "soonest": {**PLANNED, 0: PLAN_TEXT, 4: rf"stopped deadline {NUMBER}(?: to {NUMBER})?\n"},
    "order": {**READ, 0: None},
}


def is_answer(command, got):
    """Whether a run gives what docs/FORMATS.md lists for the command, and nothing on standard error."""
    forms = FORMS[command]
    if got.status == 6 and got == (6, b"", b"memory\n"):
        return True
    if got.error or got.status not in forms:
        return False
    form = forms[got.status]
    return got.output != b"" if form is None else re.fullmatch(form.encode(), got.output) is not None


def is_short_of_means(got):
    """Whether memory ran out, or a thread could not be started."""
    return got.status in (6, 7) or b" Memory" in got.output


def kind_of(command, got):
    """The words of an answer: those before its first number, with the number and the name of a fault."""
    first = got.output.split(b"\n")[0].decode(errors="replace")
    if got.status == 5:
        return " ".join(first.split()[:4])
    if got.status == 0:
        return first if first in ("ok", "verified") else f"{command} answered"
    return re.split(r" [0-9]", first)[0]
