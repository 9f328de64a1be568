"""What an office wants to know of a plan: what one unit fewer, one owned unit more, and a week less or more would cost.

The tasks come from a table that a spreadsheet program saved. The page house.html has all of it, to be printed. Run it at the top
of this repository. It prints

    47 weeks cost 137: 5 Masons, 4 Carpenters, 3 Electricians, 1 Cranes
    one fewer of Masons               not possible: Outer walls
    one fewer of Carpenters           not possible: Roof frame
    one fewer of Electricians         not possible: Wiring
    one fewer of Cranes               not possible: Excavation
    one more owned of Masons            128    -9
    one more owned of Carpenters        129    -8
    one more owned of Electricians      127   -10
    one more owned of Cranes            107   -30
    deadline 46                         146    +9
    deadline 48                         137    +0
"""

import csv

import racp

PRICES = {"Masons": 9, "Carpenters": 8, "Electricians": 10, "Cranes": 30}


def read(path):
    """The network of a table with the columns id, name, duration and predecessors, and one for each resource."""
    with open(path, newline="", encoding="utf-8") as file:
        tasks = list(csv.DictReader(file))
    names = {task["id"]: task["name"] for task in tasks}
    network = racp.Network(PRICES)
    for task in tasks:
        needs = {resource: int(task[resource] or 0) for resource in PRICES}
        after = [names[number] for number in task["predecessors"].replace(";", " ").replace(",", " ").split()]
        network.add(task["name"], int(task["duration"]), needs=needs, after=after)
    return network


def main():
    plan = racp.plan(read("examples/house/house.csv"), deadline=47, prices=PRICES)
    print(f"{plan.order.deadline} weeks cost {plan.cost}:", ", ".join(f"{units} {name}" for name, units in plan.capacity.items()))
    for change in racp.whatif(plan):
        found = f"{change.cost:5} {change.more:+5}" if change.cost is not None else f"not possible: {', '.join(change.needed)}"
        print(f"{str(change):32}  {found}")
    plan.report("house.html", curve=True, whatif=True)


if __name__ == "__main__":
    main()
