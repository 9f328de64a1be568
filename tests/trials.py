"""One case of the fuzzer: the run of its command beside what the slow programs want, and what follows if a plan comes out."""

import tomllib

import limited
import slow.answers
from shared import Run, Written, difference, files
from slow import bounded
from slow.charts import wrong_chart
from slow.drawing import wrong_svg
from slow.mutations import PROOF, mutated
from slow.orders import LATEST, read_order
from slow.plans import plan_units
from slow.reader import network_of
from slow.tables import wrong_csv, wrong_json

# The options of a plan or a certificate that may take long, and the seconds of processor time that it has on one thread.
LONG = ["--time-limit", "1"]
LONG_SECONDS = 4

OK, VERIFIED = Run(0, b"ok\n", b""), Run(0, b"verified\n", b"")
PLAN_OPTIONS = [[]] * 5 + [["--workers", "2"], ["--workers", "3", "--memory", "1"], ["--memory", "1"], ["--workers", "8"]]
WIDTH = 80


class Apart(Exception):
    """A case that neither passes nor fails, and why."""

    def __init__(self, why):
        super().__init__(why)
        self.why = why


class Differs(Exception):
    """What is wrong, the words and the texts with which it is, and what is wanted, if that is known."""

    def __init__(self, what, words, texts, wanted=None):
        super().__init__(what)
        self.what, self.words, self.texts, self.wanted = what, words, texts, wanted


class Trial:
    """A case with its own chance; the kinds of answers that came, and where the slow programs decided what was wanted."""

    def __init__(self, chance, case, most):
        self.chance, self.case, self.most = chance, case, most
        self.kinds, self.decided = [], None

    def run(self, texts, command, *options):
        """What the program gives for a command that reads these texts; it has to be an answer of docs/FORMATS.md."""
        words = [command, *range(len(texts)), *options]
        seconds = LONG_SECONDS if [*options] == LONG else limited.CPU_SECONDS
        with files(*texts) as paths:
            got = limited.run([command, *paths, *options], self.most, self.case.name, seconds)
        wrong = limited.ended(got)
        if wrong is None and not slow.answers.is_answer(command, got):
            wrong = "it is no answer of docs/FORMATS.md"
        if wrong is not None:
            raise Differs(f"{command} {' '.join(options)}: {wrong}\n  written: {got}", words, texts)
        if slow.answers.is_short_of_means(got):
            raise Apart(got.output.decode().strip() or got.error.decode().strip())
        self.kinds.append(slow.answers.kind_of(command, got))
        return got

    def expect(self, wanted, got, texts, command, *options):
        if got != wanted:
            words = [command, *range(len(texts)), *options]
            raise Differs(f"{command} {' '.join(options)}\n  {difference(wanted, got)}", words, texts, wanted)

    def all(self):
        """The command of the case, what is told with `--explain` now and then, and what follows."""
        command, texts = self.case.command, self.case.texts
        try:
            wanted, self.decided = bounded.decided(command, texts)
            why = None
        except bounded.Open as left_open:
            wanted, why = None, left_open.why
        options = self.options(wanted)
        got = self.run(texts, command, *options)
        if wanted is not None:
            self.expect(wanted, got, texts, command, *options)
        if self.chance.random() < 0.15:
            self.explained(got, texts, command, *options)
        if command == "cpm" and got.status == 0 and self.chance.random() < 0.3:
            self.ordered(texts[0])
        if command == "plan" and got.status == 0:
            self.planned(texts, got.output, wanted is not None)
        if why is not None:
            raise Apart(why)

    def options(self, wanted):
        """The options of the command: what the slow programs do not decide is given little time."""
        options = self.chance.choice(PLAN_OPTIONS) if self.case.command == "plan" else []
        return [*options, *(LONG if wanted is None and self.case.command in ("plan", "verify") else [])]

    def explained(self, plain, texts, command, *options):
        """With `--explain` there is more on standard error, and nothing else is other."""
        options = [*options, "--explain"]
        words = [command, *range(len(texts)), *options]
        with files(*texts) as paths:
            got = limited.run([command, *paths, *options], self.most, self.case.name)
        if plain.status == 4 or got.status == 4:
            return
        rows = got.error.decode(errors="replace").split("\n")
        told = 4 if plain.status in (3, 5, 8) else 0
        if (got.status, got.output, len(rows)) != (plain.status, plain.output, told + 1):
            raise Differs(f"{command} --explain\n  {difference(plain, got)}", words, texts)
        fault = slow.answers.kind_of(command, plain).removeprefix("refused ")
        if told and (fault not in rows[0] or not all(row.startswith("racp: ") for row in rows[:-1])):
            raise Differs(f"{command} --explain does not tell '{fault}': {got.error}", words, texts)

    def planned(self, texts, plan, is_small):
        """A plan that came out is right, is drawn as it is, and ends its curve; and its certificate proves it."""
        checked = [*texts, plan]
        self.expect(OK, self.run(checked, "check"), checked, "check")
        if self.chance.random() < 0.3:
            self.shown(checked)
        if not is_small:
            return
        if self.chance.random() < 0.15:
            self.curved(texts, plan)
        if self.chance.random() < 0.3:
            self.proved(checked)

    def proved(self, texts):
        """The certificate of `prove` is right, and so is what is said of it and of changes of it."""
        proof = self.run(texts[:2], "prove", *self.chance.choice([[], ["--facts"]]))
        if proof.status != 0:
            return
        texts = [*texts, proof.output]
        self.expect(VERIFIED, self.run(texts, "verify"), texts, "verify")
        others = [proof.output, self.case.texts[-1]]
        for number in range(3):
            changed = texts if number == 0 else [*texts[:PROOF], mutated(self.chance, PROOF, proof.output, others)]
            try:
                wanted, _ = bounded.decided("verify", changed)
            except bounded.Open:
                self.run(changed, "verify", *LONG)
                continue
            self.expect(wanted, self.run(changed, "verify"), changed, "verify")

    def curved(self, texts, plan):
        """The last line of a curve has the plan's capacities."""
        curve = self.run(texts, "curve")
        *_, last, end = curve.output.decode().splitlines()
        units = [int(word) for word in last.partition(" capacity ")[2].split()]
        if end != "end" or units != plan_units(plan.decode()):
            raise Differs(f"the curve ends otherwise than the plan: {curve}", ["curve", 0, 1], texts)

    def shown(self, texts):
        """One drawing or table of a plan."""
        option = self.chance.choice([[], ["--ascii"], ["--json"], ["--csv"], ["--svg"], ["--svg", "--links"]])
        got = self.run(texts, "show", *option)
        network = network_of(texts[0])
        plan = bounded.plan_of(network, texts[2])
        try:
            order = bounded.order_of(network, texts[1])
            bounded.expect_few(plan.deadline + 1, len(plan.starts), network.resources)
        except bounded.Open:
            return
        text = got.output.decode()
        wrong = {"--json": lambda: wrong_json(text, network, order, plan, {}),
                 "--csv": lambda: wrong_csv(text, network, order, plan, {}),
                 "--svg": lambda: wrong_svg(got, network, order, plan, {}, len(option) == 2),
                 }.get("".join(option[:1]), lambda: wrong_chart(text, network, plan, {}, WIDTH, bool(option)))()
        if wrong is not None:
            raise Differs(f"show {option}: {wrong}", ["show", 0, 1, 2, *option], texts)

    def ordered(self, net):
        """An order for a network says what the words ask for, or is refused by the first rule that it breaks."""
        network = network_of(net)
        count = network.resources + (self.chance.random() < 0.1)
        asked = {"deadline": self.chance.choice([0, 3, 49, LATEST, LATEST + 1]),
                 "prices": [self.chance.choice([0, 1, 7, 1_000_000, 1_000_001]) for _ in range(count)]}
        words = [word for key, value in asked.items() for word in [f"--{key}", str(value).strip("[]").replace(" ", "")]]
        got = self.run([net], "order", *words)
        try:
            table = "".join(f"{key} = {value}\n" for key, value in asked.items())
            read_order(table, network.resources, len(network.durations))
        except Written as refused:
            return self.expect(refused.run(), got, [net], "order", *words)
        if got.status != 0 or tomllib.loads(got.output.decode()) != asked:
            raise Differs(f"order {words}: {got}", ["order", 0, *words], [net])
        return None
