"""Networks and orders: what is taken, and what is refused by the package and by the program."""

import unittest

import racp

from shared import EXAMPLES, PRICES, house, module, own_folder


class Networks(unittest.TestCase):
    def test_lists(self):
        network = racp.Network.from_lists([4, 6, 5], needs=[[0, 1], [3, 1], [2, 0]], after=[[], [0], [0]])
        self.assertEqual(racp.plan(network, deadline=12, prices=[9, 30]).capacity, {0: 5, 1: 1})
        with self.assertRaisesRegex(ValueError, "3 durations, 2 needs and 3 lists"):
            racp.Network.from_lists([4, 6, 5], needs=[[1], [1]], after=[[], [0], [0]])

    def test_networkx(self):
        graph = module("networkx").DiGraph()
        graph.add_node("dig", duration=4, needs={"crane": 1})
        graph.add_node("walls", duration=6, needs={"crane": 1, "mason": 3})
        graph.add_edge("dig", "walls")
        network = racp.Network.from_networkx(graph)
        self.assertEqual(network.jobs["walls"], racp.Job(6, {"crane": 1, "mason": 3}, ("dig",)))
        self.assertEqual(racp.critical(network), (10, {"dig": 0, "walls": 4}))

    def test_read(self):
        network = racp.Network.read(EXAMPLES / "house" / "house.sm")
        self.assertEqual((len(network.jobs), network.resources), (16, (1, 2, 3, 4)))
        self.assertEqual(network.jobs[2], racp.Job(6, {1: 4, 4: 1}, (1,)))
        plan = racp.plan(network, deadline=47, prices=[9, 8, 10, 30])
        self.assertEqual(plan.texts()["plan"], (EXAMPLES / "house" / "47.plan").read_text())

    def test_read_of_other_files(self):
        with self.assertRaises(racp.Refused) as caught:
            racp.Network.read(EXAMPLES / "a4.toml")
        self.assertEqual(caught.exception.answer["format"], "sm")
        with self.assertRaises(FileNotFoundError):
            racp.Network.read(EXAMPLES / "no such file.sm")
        with self.assertRaises(racp.ProgramError):
            racp.Network.read(EXAMPLES)

    def test_read_of_a_path_with_umlauts(self):
        with own_folder() as folder:
            path = folder / "-ein\u2028Häuschen.sm"
            path.write_text(house().text())
            self.assertEqual(racp.Network.read(path).jobs[2].needs, {1: 3, 2: 1})

    def test_written_and_read(self):
        with own_folder() as folder:
            path = folder / "a.sm"
            for source in ("a.sm", "b.sm", "c.sm"):
                network = racp.Network.read(EXAMPLES / source)
                path.write_text(network.text())
                self.assertEqual(racp.Network.read(path).jobs, network.jobs)

    def test_words_of_the_package(self):
        network = house()
        with self.assertRaisesRegex(ValueError, "there is a job 'dig' already"):
            network.add("dig", 1)
        with self.assertRaisesRegex(ValueError, "needs 'smith', and there is no such resource"):
            network.add("gate", 1, needs={"smith": 1})
        network.add("late", 1, needs=None, after="roof")
        with self.assertRaisesRegex(ValueError, "'late' comes after 'roof', and there is no such job"):
            network.text()

    def test_refused_by_the_program(self):
        network = house()
        network.add("long", 10_001)
        with self.assertRaises(racp.Refused) as caught:
            racp.critical(network)
        self.assertEqual((caught.exception.name, caught.exception.answer["number"]), ("Limit", 8))
        network = house()
        network.add("ring", 1, after=["ring"])
        with self.assertRaisesRegex(racp.Refused, "Cycle"):
            racp.critical(network)
        with self.assertRaises(ValueError):
            racp.critical(racp.Network([]))


class Orders(unittest.TestCase):
    def test_terms(self):
        for order, cost in ((racp.Order(12, [9, 30]), 75), (racp.Order(15, PRICES, owned={"crane": 1}), 27),
                            (racp.Order(15, PRICES, ceiling=[3, 1]), 57)):
            self.assertEqual(racp.plan(house(), order).cost, cost)
        self.assertEqual(racp.plan(house(), deadline=15, prices=PRICES, due={"wiring": 9}).starts["walls"], 9)
        self.assertEqual(racp.plan(house(), deadline=20, prices=PRICES, release={"dig": 3}).critical, 13)
        self.assertEqual(racp.plan(house(), racp.Order(9, PRICES), deadline=12).cost, 75)

    def test_wrong_terms(self):
        for terms, error, words in (({"prices": {"crane": 1}}, ValueError, "prices has no value for 'mason'"),
                                    ({"prices": {**PRICES, "smith": 1}}, ValueError, "prices has a value for 'smith'"),
                                    ({"prices": [9]}, ValueError, "prices has 1 values, and not 2"),
                                    ({"prices": [9.5, 30]}, TypeError, "integer"),
                                    ({"prices": [9, 1_000_001]}, racp.Refused, "Range"), ({}, TypeError, "prices")):
            with self.subTest(words), self.assertRaisesRegex(error, words):
                racp.plan(house(), deadline=12, **terms)

    def test_impossible(self):
        for terms, name, where in (({"deadline": 9}, "critical", {"critical": 10, "deadline": 9}),
                                   ({"deadline": 12, "due": {"wiring": 8}}, "due", {"job": "wiring"}),
                                   ({"deadline": 12, "ceiling": {"mason": 2}}, "ceiling", {})):
            with self.subTest(name), self.assertRaises(racp.Impossible) as caught:
                racp.plan(house(), prices=PRICES, **terms)
            self.assertEqual((caught.exception.name, caught.exception.where), (name, where))
            self.assertEqual(caught.exception.numbers[1:], [9] if name == "critical" else [])


if __name__ == "__main__":
    unittest.main()
