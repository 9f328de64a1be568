"""What has to be explained: the faults and lines that docs/FORMATS.md tells, the words that name them, and texts that have faults,
with the words that are told of them. Made from the tables of 'Faults', 'racp explain' and 'What standard error tells' in
docs/FORMATS.md."""

import re

from shared import EXAMPLES, ROOT

# The lines without a number, with what the program writes first of each.
LINES = {
    "impossible critical": "impossible critical ", "impossible due": "impossible due ", "impossible ceiling": "impossible ceiling",
    "stopped": "stopped ", "fault head": "fault head", "fault cost": "fault cost", "fault late": "fault late ",
    "fault order": "fault order ", "fault over": "fault over ", "fault ceiling": "fault ceiling ", "fault early": "fault early ",
    "unproved": "unproved", "read fault": "read fault", "write fault": "write fault", "too long": "too long",
    "no thread": "no thread", "memory": "memory",
}

# Those that no example gives each time.
WITHOUT_EXAMPLE = {"sm 15 Memory", "order 7 Memory", "plan 3 Memory", "no thread", "memory"}

# What words name.
NAMED = [
    (["sm", "12"], ["sm 12 TooFew"]), (["sm", "TooFew"], ["sm 12 TooFew"]), (["TooFew"], ["sm 12 TooFew"]),
    (["sm", "012"], ["sm 12 TooFew"]), (["order", "Count"], ["order 6 Count"]), (["late"], ["fault late"]),
    (["fault", "late"], ["fault late"]), (["Range"], ["order 5 Range", "plan 2 Range"]),
    (["Memory"], ["sm 15 Memory", "order 7 Memory", "plan 3 Memory"]), (["memory"], ["memory"]),
    (["impossible"], ["impossible critical", "impossible due", "impossible ceiling"]),
    (["ceiling"], ["impossible ceiling", "fault ceiling"]), (["too", "long"], ["too long"]), (["unproved"], ["unproved"]),
    (["names", "1"], ["names 1 NotUtf8"]), (["NotUtf8"], ["names 1 NotUtf8", "curve 1 NotUtf8", "whatif 1 NotUtf8"]),
    (["curve", "2"], ["curve 2 NoSteps"]), (["whatif", "2"], ["whatif 2 OtherPlan"]), (["Count"], ["order 6 Count", "names 2 Count"]),
    (["impossible critical 3 deadline 2"], ["impossible critical"]), (["read fault"], ["read fault"]), (["stopped 1 2"], ["stopped"]),
    (["refused sm 12 TooFew line 25"], ["sm 12 TooFew"]), (["plan"], ["plan 1 Syntax", "plan 2 Range", "plan 3 Memory"]),
    (["sm", "16"], []), (["sm", "0"], []), (["order", "TooFew"], []), (["toofew"], []), (["12"], []), ([""], []), (["sm", ""], []),
    (["late", "fault"], []), (["sm", "+12"], []), (["sm", "18446744073709551628"], []),
]

A_SM = (EXAMPLES / "a.sm").read_text()
B_SM = (EXAMPLES / "b.sm").read_text()
A_ORDER = (EXAMPLES / "a4.toml").read_text()
A_PLAN = (EXAMPLES / "a4.plan").read_text()


def with_line(text, number, new):
    """The text with another line of this number, from 1, or without it."""
    lines = text.split("\n")
    lines[number - 1:number] = [] if new is None else [new]
    return "\n".join(lines)


# Texts of a network, an order, a plan and a certificate, as many as the command takes; and the words that standard error has to
# have. The names of the files stand for themselves.
TOLD = [
    ([with_line(A_SM, 32, None)], ["NET:25: sm 12 TooFew", "numbers behind this title: 20 ", "end of the part: 16"]),
    ([with_line(A_SM, 21, "   3        2          1           5")], ["NET:21: sm 10 NotSingleMode", "there:  '   3        2 "]),
    ([with_line(A_SM, 22, "   4        1          1           6")], ["NET:22: sm 11 BadSuccessor", "1 to 5"]),
    ([with_line(A_SM, 29, "  2      1     3.5     2")], ["NET:29: sm 7 BadNumber", "there:  '3.5' in '"]),
    ([with_line(A_SM, 21, "   3        1          1:x         5")], ["NET:21: sm 7 BadNumber", "there:  '1:x' in '"]),
    ([with_line(A_SM, 21, "   3        1          0:          5")], ["NET:21: sm 7 BadNumber", "there:  '0:' in '"]),
    ([with_line(A_SM, 6, "Jobs : 5")], ["NET: sm 1 NoJobs", "begins with jobs", "line 6 is 'Jobs : 5'"]),
    ([with_line(A_SM, 17, "Precedence relations:")], ["NET: sm 5 NoPrecedence", "line 17 is 'Precedence relations:'"]),
    ([with_line(A_SM, 25, "Requests and durations")], ["NET: sm 6 NoRequests"]),
    ([with_line(A_SM, 23, "   5        1          1           1")], ["NET: sm 14 Cycle", "wait for each other: 1 "]),
    ([with_line(with_line(A_SM, 23, "   5        1          1           4"), 1, "PRECEDENCE as agreed")], ["NET: sm 14 Cycle", "wait for each other: 4 5"]),
    ([A_ORDER], ["NET: sm 1 NoJobs", "looks like an order; the network comes first"]),
    (["task,weeks,after,Masons\nDig,3,,2\n"], ["NET: sm 1 NoJobs", "looks like a table of tasks"]),
    (["32 4\n12 13\n"], ["NET: sm 1 NoJobs", "looks like Patterson's format"]),
    ([A_ORDER, A_ORDER], ["NET: sm 1 NoJobs", "looks like an order; the network comes first"]),
    ([A_SM, "deadline = 4\nprice = [10]\n"], ["ORDER: order 2 Missing", "wanted: the key prices", "the key 'price'"]),
    ([A_SM, "prices = [10]\n"], ["ORDER: order 2 Missing", "wanted: the key deadline", "no such key"]),
    ([A_SM, "deadline = 4\nprices = [10]\nowned = [1]\n"], ["ORDER: order 3 Unknown", "the key 'owned'", "version = 2"]),
    ([A_SM, "deadline = 4\nprices = [10]\n\"a\\nb\\u001b\" = 1\n"], ["ORDER: order 3 Unknown", "the key 'ab'"]),
    ([A_SM, "version = 2\ndeadline = 4\nprices = [10]\nrelease = [1]\n"], ["ORDER: order 6 Count", "NET has jobs: 5", "release has so many: 1"]),
    ([B_SM, A_ORDER], ["ORDER: order 6 Count", "NET has resources: 2", "prices has so many: 1"]),
    ([A_SM, "deadline = 4\nprices = [1000001]\n"], ["ORDER: order 5 Range", "prices from 0 to 1000000", "1000001, as number 1 of prices"]),
    ([A_SM, "version = 2\ndeadline = 4\nprices = [10]\ndue = [5, 5, -2, 5, 5]\n"], ["ORDER: order 5 Range", "-2, as number 3 of due"]),
    ([A_SM, "deadline = '4'\nprices = [10]\n"], ["ORDER: order 4 NotWhole", "deadline of the type string"]),
    ([A_SM, "deadline = 4\nprices = 10\n"], ["ORDER: order 4 NotWhole", "prices as an array", "prices = 10"]),
    ([A_SM, "deadline = 4\nprices = [10\n"], ["ORDER: order 1 NotToml", "there:  line "]),
    ([A_SM, "version = 1\ndeadline = 4\nprices = [10]\n"], ["ORDER: order 8 Version", "version = 1"]),
    ([A_SM, "deadline = 2\nprices = [10]\n"], ["ORDER: impossible critical", "a deadline of 3 or later", "deadline = 2"]),
    ([A_SM, "version = 2\ndeadline = 5\nprices = [10]\ndue = [5, 2, 5, 5, 5]\n"], ["ORDER: impossible due", "job 2 of 3 or later", "due time 2"]),
    ([A_SM, "version = 2\ndeadline = 4\nprices = [10]\nceiling = [1]\n"], ["ORDER: impossible ceiling", "the ceilings 1", "deadline than 4"]),
    ([A_SM, A_ORDER, with_line(A_PLAN, 3, "cost 030")], ["PLAN:3: plan 1 Syntax", "wanted: 'cost X'", "there:  'cost 030'"]),
    ([A_SM, A_ORDER, with_line(A_PLAN, 4, "capacity 2 3")], ["PLAN:4: plan 1 Syntax", "'capacity 1 A'", "'capacity 2 3'"]),
    ([A_SM, A_ORDER, with_line(A_PLAN, 6, "start 2 10000001")], ["PLAN:6: plan 2 Range", "'start 2 S'", "10,000,000"]),
    ([A_SM, A_ORDER, with_line(A_PLAN, 10, None)], ["PLAN:10: plan 1 Syntax", "'end'", "no line"]),
    ([A_SM, A_ORDER, ""], ["PLAN:1: plan 1 Syntax", "there:  no line"]),
    ([A_SM, A_ORDER, A_PLAN[:-1]], ["PLAN:10: plan 1 Syntax", "there:  'end' without a line feed"]),
    ([A_SM, A_ORDER, with_line(A_PLAN, 1, "deadline 4\r")], ["PLAN:1: plan 1 Syntax", "there:  'deadline 4' with a carriage return behind it"]),
    ([A_SM, A_ORDER, with_line(A_PLAN, 1, "\ufeffdeadline 4")], ["PLAN:1: plan 1 Syntax", "there:  'deadline 4' after a byte order mark (BOM); save the file as UTF-8 without BOM"]),
    ([A_SM, A_ORDER, "stopped 3\n"], ["PLAN:1: plan 1 Syntax", "there:  'stopped 3'; planning was stopped, so there is no plan in this file"]),
    ([A_SM, A_ORDER, with_line(A_PLAN, 1, "deadline 5")], ["PLAN: fault head", "deadline 4 and critical 3", "deadline 5 and critical 3"]),
    ([A_SM, A_ORDER, with_line(A_PLAN, 3, "cost 31")], ["PLAN: fault cost", "cost 30", "cost 31"]),
    ([A_SM, A_ORDER, with_line(A_PLAN, 9, "start 5 9")], ["PLAN: fault late", "job 5 ends by 4", "it ends at 9"]),
    ([A_SM, A_ORDER, with_line(A_PLAN, 9, "start 5 3")], ["PLAN: fault order", "job 5 starts at 4 or later", "job 4 has ended", "it starts at 3"]),
    ([A_SM, A_ORDER, with_line(A_PLAN, 8, "start 4 1")], ["PLAN: fault over", "at most 3 units of resource 1 at time 1", "4, by the jobs that run then: 2 3 4"]),
    ([A_SM, A_ORDER, A_PLAN, "proof\nend\n"], ["PROOF: unproved", "a certificate for PLAN"]),
    ([A_SM, A_ORDER, with_line(A_PLAN, 3, "cost 31"), "proof\nend\n"], ["PLAN: fault cost", "cost 30", "cost 31"]),
]


def faults():
    """The subjects that docs/FORMATS.md has."""
    text = (ROOT / "docs" / "FORMATS.md").read_text()
    found = []
    for title, name in [("The network text", "sm"), ("The order", "order"), ("The plan", "plan")]:
        part = re.split(r"(?m)^## ", text.partition(f"\n## {title}\n")[2])[0].partition("### Faults")[2]
        found += [f"{name} {number} {fault}" for number, fault in re.findall(r"(?m)^\| ([0-9]+) `([A-Za-z]+)`", part)]
    found += sorted(set(re.findall(r"`refused ((?:names|curve|whatif) [0-9] \w+)`", text)))
    return found
