"""Plans, curves, changes, teams, checks, certificates and tables of networks."""

import pickle
import random
import unittest
import unittest.mock

import racp

from shared import EXAMPLES, PRICES, house, large, own_folder


class Plans(unittest.TestCase):
    def test_plan(self):
        plan = racp.plan(house(), deadline=12, prices=PRICES)
        self.assertTrue(plan.optimal)
        self.assertEqual((plan.cost, plan.bound, plan.gap, plan.critical), (75, 75, 0, 10))
        self.assertEqual(plan.capacity, {"mason": 5, "crane": 1})
        self.assertEqual(plan.starts, {"dig": 0, "walls": 4, "wiring": 4, "done": 10})
        self.assertEqual((plan.ends["walls"], plan.slack["wiring"]), (10, 3))
        self.assertEqual(plan.usage["mason"], [(0, 0), (4, 5), (9, 3), (10, 0)])
        self.assertIn("seconds", plan.work)

    def test_plan_is_frozen(self):
        network = house()
        plan = racp.plan(network, deadline=12, prices=PRICES)
        network.add("gate", 40)
        self.assertEqual(racp.check(plan.network, plan.order, plan.starts).starts, plan.starts)
        self.assertEqual(pickle.loads(pickle.dumps(plan)).starts, plan.starts)
        with self.assertRaises(AttributeError):
            plan.cost = 0

    def test_workers_and_memory(self):
        plans = [racp.plan(house(), deadline=12, prices=PRICES, workers=workers, memory=64) for workers in (None, 0, 2)]
        self.assertEqual({str(plan) for plan in plans}, {"<Plan with cost 75, capacity {'mason': 5, 'crane': 1}>"})

    def test_stopped_with_progress(self):
        network, order = large()
        heard = []
        plan = racp.plan(network, order, time_limit=3.5, progress=heard.append)
        self.assertFalse(plan.optimal)
        self.assertTrue(0 < plan.bound < plan.cost and plan.gap == (plan.cost - plan.bound) / plan.bound)
        self.assertGreaterEqual(heard[0]["seconds"], 2)
        self.assertLessEqual(heard[0]["bound"], plan.bound)
        self.assertEqual(racp.check(network, order, plan.starts).cost, plan.cost)
        for facts in (False, True):
            with self.assertRaises(racp.Unproved):
                racp.prove(plan, facts=facts, time_limit=0.2)

    def test_stopped_before_all(self):
        with self.assertRaisesRegex(racp.Stopped, "each costs at least 75") as caught:
            racp.plan(house(), deadline=12, prices=PRICES, time_limit=1e-9)
        self.assertEqual(caught.exception.answer["bound"], 75)
        self.assertEqual(str(pickle.loads(pickle.dumps(caught.exception))), str(caught.exception))
        with self.assertRaises(racp.Stopped):
            racp.soonest(house(), [5, 1], time_limit=1e-9)
        plan = racp.plan(house(), deadline=12, prices=PRICES)
        with self.assertRaises(racp.Stopped):
            racp.verify(plan, racp.prove(plan), time_limit=1e-9)
        self.assertEqual(racp.whatif(plan, time_limit=1e-9)[-1].outcome, "open")


class Curves(unittest.TestCase):
    def test_curve(self):
        curve = racp.curve(house(), deadline=20, prices=PRICES)
        self.assertTrue(curve.complete)
        self.assertEqual([(step.deadline, step.cost, step.capacity["mason"]) for step in curve], [(10, 75, 5), (15, 57, 3)])
        self.assertEqual((curve.at(14).cost, curve.at(9)), (75, None))
        self.assertEqual((curve.cheapest(each_time_unit=10).deadline, curve.cheapest(each_time_unit=1).deadline), (10, 15))

    def test_stopped_curve(self):
        network, order = large()
        curve = racp.curve(network, order, time_limit=0.2)
        self.assertEqual((curve.steps, curve.complete, curve.at(999)), ((), False, None))

    def test_soonest(self):
        for team, terms, end in (([5, 1], {}, 10), ([4, 1], {}, 15), ([3, 2], {}, 15), ({"mason": 3, "crane": 1}, {}, 15),
                                 ([4, 1], {"release": {"dig": 7}}, 22), ([3, 1], {"due": {"wiring": 9}}, 15)):
            with self.subTest(team=team, **terms):
                plan = racp.soonest(house(), team, **terms)
                self.assertTrue(plan.optimal)
                self.assertEqual(plan.order.deadline, max(plan.ends.values()))
                self.assertEqual(plan.order.deadline, end)

    def test_soonest_is_the_first_line_of_the_curve(self):
        for name in ("a.sm", "b.sm", "c.sm"):
            network = racp.Network.read(EXAMPLES / name)
            team = [max(job.needs.get(resource, 0) for job in network.jobs.values()) for resource in network.resources]
            far = sum(job.duration for job in network.jobs.values())
            for more in (0, 1):
                ceiling = [units + more for units in team]
                curve = racp.curve(network, deadline=far, prices=[1] * len(team), ceiling=ceiling)
                self.assertEqual(racp.soonest(network, ceiling).order.deadline, curve.steps[0].deadline)

    def test_large_teams_and_projects(self):
        self.assertEqual(racp.soonest(house(), [20_000, 10_000_000]).order.deadline, 10)
        draw = random.Random(3)
        network = racp.Network(range(3))
        for key in range(100):
            before = {draw.randrange(max(0, key - 4), key) for _ in range(2)} if key else ()
            network.add(key, draw.randint(1, 5), needs={resource: draw.randint(0, 4) for resource in range(3)}, after=before)
        self.assertTrue(racp.soonest(network, [14, 14, 14], time_limit=4).optimal)

    def test_team_that_may_end_sooner(self):
        ask = racp._commands._ask

        def stopped(network, command, *words, **terms):
            told = {"status": "stopped", "least": 9, "known": 12}
            return told if command == "soonest" else ask(network, command, *words, **terms)

        with unittest.mock.patch("racp._commands._ask", stopped):
            plan = racp.soonest(house(), [5, 1])
        self.assertEqual((plan.optimal, plan.order.deadline), (False, 12))

    def test_teams_that_cannot(self):
        with self.assertRaises(racp.Impossible) as caught:
            racp.soonest(house(), [2, 1])
        self.assertEqual(caught.exception.name, "ceiling")
        with self.assertRaises(racp.Impossible) as caught:
            racp.soonest(house(), [5, 1], due={"wiring": 8})
        self.assertEqual(caught.exception.where, {"job": "wiring"})
        with self.assertRaisesRegex(ValueError, "team has 1 values"):
            racp.soonest(house(), [5])


class Checks(unittest.TestCase):
    def test_check(self):
        order = racp.Order(15, PRICES)
        plan = racp.check(house(), order, {"dig": 0, "walls": 4, "wiring": 10, "done": 15})
        self.assertEqual((plan.cost, plan.capacity, plan.optimal, plan.bound), (57, {"mason": 3, "crane": 1}, False, 0))
        self.assertEqual(racp.check(house(), racp.Order(20, PRICES, release={"dig": 2}), [2, 6, 6, 12]).critical, 12)
        for owned, cost in (([1, 1], 18), ({"crane": 2}, 27), ([9, 9], 0)):
            self.assertEqual(racp.check(house(), racp.Order(15, PRICES, owned=owned), [0, 4, 10, 15]).cost, cost)

    def test_faults(self):
        released, limited = racp.Order(20, PRICES, release=[1, 0, 0, 0]), racp.Order(20, PRICES, ceiling=[4, 1])
        for order, starts, name, where in ((racp.Order(15, PRICES), [0, 3, 10, 15], "order", {"before": "dig", "job": "walls"}),
                                           (racp.Order(12, PRICES), [0, 4, 10, 15], "late", {"job": "wiring"}),
                                           (released, [0, 4, 4, 10], "early", {"job": "dig"}),
                                           (limited, [0, 4, 4, 10], "ceiling", {"resource": "mason"})):
            with self.subTest(name), self.assertRaises(racp.Fault) as caught:
                racp.check(house(), order, starts)
            self.assertEqual((caught.exception.name, caught.exception.where), (name, where))
            self.assertIn("; ".join(f"{word} {key!r}" for word, key in list(where.items())[:1]), str(caught.exception))

    def test_starts_that_are_none(self):
        for starts, error in (([0, 4], ValueError), ([0, 4.5, 10, 15], TypeError), ([0, -4, 10, 15], racp.Refused)):
            with self.subTest(starts), self.assertRaises(error):
                racp.check(house(), racp.Order(15, PRICES), starts)
        with self.assertRaises(racp.Refused):
            racp.check(racp.Network(["mason"]), racp.Order(15, [9]), [])

    def test_certificates(self):
        plan = racp.plan(house(), deadline=15, prices=PRICES)
        for facts in (False, True):
            racp.verify(plan, racp.prove(plan, facts=facts))
        with self.assertRaises(racp.Unproved):
            racp.verify(plan, "proof\nend\n")
        dearer = racp.check(house(), plan.order, [0, 4, 4, 15])
        with self.assertRaises(racp.Unproved):
            racp.verify(dearer, racp.prove(dearer))


class Offices(unittest.TestCase):
    def test_whatif(self):
        changes = racp.whatif(racp.plan(house(), deadline=15, prices=PRICES), workers=2)
        self.assertEqual([str(change) for change in changes],
                         ["one fewer of mason", "one fewer of crane", "one more owned of mason", "one more owned of crane",
                          "deadline 14", "deadline 16"])
        self.assertEqual([change.more for change in changes], [None, None, -9, -30, 18, 0])
        self.assertEqual((changes[0].outcome, changes[0].value, changes[0].needed), ("impossible", 2, ("walls",)))
        self.assertEqual(changes[4].capacity, {"mason": 5, "crane": 1})

    def test_batch(self):
        with own_folder() as folder:
            (other := folder / "ä\u2028b.sm").write_bytes((EXAMPLES / "a.sm").read_bytes())
            rows = racp.batch([EXAMPLES / "b.sm", other, EXAMPLES / "a4.toml"], [1, 1.5], jobs=2)
        self.assertEqual([row["cost"] for row in rows], [4, 3, 4, 3, None, None])
        self.assertEqual([row["factor"] for row in rows], [1, 1.5] * 3)
        self.assertEqual((rows[2]["file"], rows[0]["status"], rows[0]["fault"]), (str(other), "optimal", None))
        self.assertEqual((rows[4]["status"], rows[4]["jobs"]), ("refused", None))
        with self.assertRaises(racp.ProgramError):
            racp.batch([EXAMPLES / "b.sm"], ["x"])


if __name__ == "__main__":
    unittest.main()
