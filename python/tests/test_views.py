"""Dates, tables, frames, pictures and pages."""

import unittest
from datetime import date, timedelta

import racp

from shared import PRICES, house, module, own_folder

WORK = racp.Calendar(date(2026, 3, 2), free=[5, 6], holidays=[date(2026, 3, 6)])


class Calendars(unittest.TestCase):
    def test_all_days_count(self):
        calendar = racp.Calendar(date(2026, 1, 5))
        self.assertEqual(calendar.days([(0, 4), (4, 4), (0, 0)]),
                         [(date(2026, 1, 5), date(2026, 1, 8)), (date(2026, 1, 8), date(2026, 1, 8)),
                          (date(2026, 1, 5), date(2026, 1, 5))])
        weeks = racp.Calendar(date(2026, 1, 5), unit="week")
        self.assertEqual(weeks.days([(1, 3)]), [(date(2026, 1, 12), date(2026, 1, 25))])

    def test_working_days(self):
        self.assertEqual((WORK.first_day(4), WORK.last_day(4), WORK.last_day(5)),
                         (date(2026, 3, 9), date(2026, 3, 5), date(2026, 3, 9)))
        plan = racp.plan(house(), deadline=12, prices=PRICES)
        self.assertEqual(plan.days(WORK)["walls"], (date(2026, 3, 9), date(2026, 3, 16)))
        self.assertEqual(plan.days(WORK)["done"], (date(2026, 3, 16), date(2026, 3, 16)))

    def test_weeks_without_a_working_day_do_not_count(self):
        christmas = [date(2026, 12, 24) + timedelta(day) for day in range(9)]
        weeks = racp.Calendar(date(2026, 12, 14), "week", free=[5, 6], holidays=christmas)
        self.assertEqual(weeks.days([(0, 1), (1, 2), (2, 3)]),
                         [(date(2026, 12, 14), date(2026, 12, 18)), (date(2026, 12, 21), date(2026, 12, 23)),
                          (date(2027, 1, 4), date(2027, 1, 8))])

    def test_dates_to_times(self):
        for time in range(1, 40):
            self.assertEqual((WORK.deadline(WORK.last_day(time)), WORK.release(WORK.first_day(time))), (time, time))
        self.assertEqual((WORK.deadline(date(2026, 3, 8)), WORK.release(date(2026, 3, 6))), (4, 4))
        self.assertEqual((WORK.deadline(date(2026, 3, 1)), WORK.release(date(2020, 1, 1))), (0, 0))

    def test_no_calendars(self):
        for words in ({"unit": "month"}, {"free": range(7)}):
            with self.assertRaises(ValueError):
                racp.Calendar(date(2026, 1, 1), **words)


class Views(unittest.TestCase):
    def setUp(self):
        self.plan = racp.plan(house(), deadline=12, prices=PRICES)

    def test_tables_for_jupyter(self):
        for value, cells in ((self.plan, 5 * 6), (racp.curve(house(), deadline=20, prices=PRICES), 3 * 4),
                             (racp.whatif(self.plan), 7 * 7)):
            self.assertEqual(value._repr_html_().count("<td>"), cells)
        network = racp.Network([])
        network.add("<b>", 1)
        self.assertEqual(racp.Network(["a"], network.jobs).jobs, network.jobs)
        plan = racp.plan(racp.Network(["a"], network.jobs), deadline=1, prices=[1])
        self.assertIn("<td>&lt;b&gt;</td>", plan._repr_html_())

    def test_rows(self):
        self.assertEqual(self.plan.table(), [["job", "start", "end", "slack", "mason", "crane"], ["dig", 0, 4, 2, 0, 1],
                                             ["walls", 4, 10, 2, 3, 1], ["wiring", 4, 9, 3, 2, 0], ["done", 10, 10, 2, 0, 0]])
        self.assertEqual(racp.curve(house(), deadline=20, prices=PRICES).table(),
                         [["deadline", "cost", "mason", "crane"], [10, 75, 5, 1], [15, 57, 3, 1]])
        self.assertEqual(racp.whatif(self.plan).table(),
                         [["change", "outcome", "cost", "more", "mason", "crane", "needed by"],
                          ["one fewer of mason", "impossible", None, None, None, None, "walls, wiring"],
                          ["one fewer of crane", "impossible", None, None, None, None, "dig"],
                          ["one more owned of mason", "plan", 66, -9, 5, 1, ""],
                          ["one more owned of crane", "plan", 45, -30, 5, 1, ""],
                          ["deadline 11", "plan", 75, 0, 5, 1, ""], ["deadline 13", "plan", 75, 0, 5, 1, ""]])
        self.assertEqual([racp.Curve((), False).table(), racp.Changes().table(), racp.Batch().table()],
                         [[["deadline", "cost"]], [["change", "outcome", "cost", "more", "needed by"]], []])

    def test_frames(self):
        module("pandas")
        frame = self.plan.to_pandas(WORK)
        self.assertEqual(list(frame.columns), ["start", "end", "slack", "mason", "crane", "first day", "last day"])
        self.assertEqual((frame.loc["walls", "end"], frame.loc["walls", "last day"]), (10, date(2026, 3, 16)))
        self.assertEqual(list(racp.curve(house(), deadline=20, prices=PRICES).to_pandas()["cost"]), [75, 57])
        self.assertEqual(racp.whatif(self.plan).to_pandas().shape, (6, 7))
        self.assertEqual(list(racp.batch(["none.sm"], [1]).to_pandas()["status"]), ["refused"])

    def test_pictures(self):
        module("matplotlib").use("Agg")
        for calendar in (None, WORK):
            chart, masons, cranes = self.plan.plot(calendar).axes
            self.assertEqual([text.get_text() for text in chart.get_yticklabels()], ["dig", "walls", "wiring", "done"])
            self.assertEqual((masons.get_ylabel(), cranes.get_ylabel(), cranes.get_xlabel()), ("mason", "crane", "time"))
            self.assertEqual(chart.get_title(), "cost 75")
        self.assertEqual(cranes.xaxis.get_major_formatter()(4, None), "2026-03-09")
        self.assertEqual(len(racp.plan(racp.Network.from_lists([1], [[1]], [[]]), deadline=1, prices=[1]).plot().axes), 2)

    def test_pages(self):
        with own_folder() as folder:
            page = self.plan.report(folder / "plan.html", curve=True, whatif=True, calendar=racp.Calendar(date(2026, 1, 5)))
            self.assertEqual((folder / "plan.html").read_text(encoding="utf-8"), page)
            self.assertEqual([path.name for path in folder.iterdir()], ["plan.html"])
        for words in ("<html", "wiring", "mason", "2026-01-09", "one more owned of crane"):
            self.assertIn(words, page)
        for words in ({}, {"curve": True}, {"whatif": True}):
            page = self.plan.report(**words)
            self.assertEqual({"curve": "From deadline" in page, "whatif": "one more owned" in page},
                             {"curve": False, "whatif": False, **words})
        page = self.plan.report(curve=True, whatif=True, time_limit=1e-9)
        self.assertEqual(("From deadline" in page, "not known" in page), (False, True))

    def test_names_that_could_be_read_as_lines_of_another_kind(self):
        network = racp.Network(["#wait"])
        for key in ("# dig", "two\nlines", "", "ends"):
            network.add(key, 1, needs={"#wait": 1})
        page = racp.plan(network, deadline=4, prices=[1]).report(whatif=True)
        for words in ("# dig", "two lines", "#wait", "task 3", "ends"):
            self.assertIn(words, page)
        dated = self.plan.report(calendar=WORK)
        for words in ("First day", "Last day", "2026-03-09"):
            self.assertIn(words, dated)
        self.assertIn("This page does not show whether a cheaper choice", dated)
        proved = self.plan.report(certificate=racp.prove(self.plan, facts=True))
        self.assertIn("Proved: no cheaper choice keeps the deadline.", proved)
        with self.assertRaises(racp.Unproved):
            self.plan.report(certificate="proof 2\n")


if __name__ == "__main__":
    unittest.main()
