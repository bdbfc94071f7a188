#!/usr/bin/env python3
"""Writes the maps and scenarios of this folder, in the text forms of the MovingAI benchmarks, and paths in the warehouse.

The corridor's map, session and answers are written by hand; they are copied to crates/mapf_desk, whose run in the gate they are.

Each run writes the same files: the generator below has a fixed seed and uses integers alone.
A scenario's tasks have distinct starts and distinct goals, and each goal can be reached. The
optimal length is that of a shortest path by steps up, left, right and down (breadth-first search),
and a task's bucket is a fourth of it, rounded down. The paths of `warehouse.alone` are those of the first tasks,
each a shortest one as if no other agent were there.
"""

from collections import deque
from pathlib import Path

TASKS = 120
ALONE = 60


class Numbers:
    """A linear congruential generator (Knuth's MMIX constants)."""

    def __init__(self, seed):
        self.state = seed

    def below(self, bound):
        self.state = (self.state * 6364136223846793005 + 1442695040888963407) % 2**64
        return (self.state >> 33) % bound

    def shuffled(self, items):
        items = list(items)
        for last in range(len(items) - 1, 0, -1):
            other = self.below(last + 1)
            items[last], items[other] = items[other], items[last]
        return items


def open_map(width, height):
    return [["."] * width for _ in range(height)]


def warehouse(width, height):
    """Shelves of 2 by 8 cells, with aisles one cell wide round them."""
    rows = open_map(width, height)
    for y in range(3, height - 3):
        for x in range(4, width - 4):
            if (y - 3) % 3 != 2 and (x - 4) % 9 != 8:
                rows[y][x] = "@"
    return rows


def random_obstacles(width, height, numbers):
    rows = open_map(width, height)
    cells = [(x, y) for y in range(height) for x in range(width)]
    for x, y in numbers.shuffled(cells)[: width * height // 5]:
        rows[y][x] = "T" if numbers.below(2) else "@"
    return rows


def distances(rows, start):
    found = {start: 0}
    queue = deque([start])
    while queue:
        x, y = queue.popleft()
        for cell in ((x, y - 1), (x - 1, y), (x + 1, y), (x, y + 1)):
            inside = 0 <= cell[0] < len(rows[0]) and 0 <= cell[1] < len(rows)
            if inside and cell not in found and rows[cell[1]][cell[0]] == ".":
                found[cell] = found[(x, y)] + 1
                queue.append(cell)
    return found


def tasks(rows, numbers):
    free = [(x, y) for y, row in enumerate(rows) for x, it in enumerate(row) if it == "."]
    goals = numbers.shuffled(free)
    chosen = []
    for start in numbers.shuffled(free):
        found = distances(rows, start)
        goal = next((it for it in goals if it in found and it != start), None)
        if goal is not None:
            goals.remove(goal)
            chosen.append((start, goal, found[goal]))
        if len(chosen) == TASKS:
            break
    assert len(chosen) == TASKS
    return sorted(chosen, key=lambda task: task[2] // 4)


def shortest(rows, start, goal):
    found, cells = distances(rows, goal), [start]
    while cells[-1] != goal:
        x, y = cells[-1]
        cells.append(min(((x, y - 1), (x - 1, y), (x + 1, y), (x, y + 1)), key=lambda it: found.get(it, len(found))))
    return cells


def write_lines(name, lines):
    (Path(__file__).resolve().parent / name).write_text("".join(line + "\n" for line in lines))


def write(name, rows, numbers):
    width, height = len(rows[0]), len(rows)
    lines = ["type octile", f"height {height}", f"width {width}", "map"]
    lines += ["".join(row) for row in rows]
    write_lines(f"{name}.map", lines)
    lines = ["version 1"]
    chosen = tasks(rows, numbers)
    for (x, y), (goal_x, goal_y), length in chosen:
        fields = [length // 4, f"{name}.map", width, height, x, y, goal_x, goal_y, f"{length}.00000000"]
        lines.append("\t".join(str(field) for field in fields))
    write_lines(f"{name}.scen", lines)
    return chosen


def write_alone(name, rows, chosen):
    paths = [shortest(rows, start, goal) for start, goal, _ in chosen[:ALONE]]
    lines = [f"path {agent} " + " ".join(f"{x},{y}" for x, y in cells) for agent, cells in enumerate(paths)]
    write_lines(f"{name}.alone", lines)


def copy_corridor():
    demo = Path(__file__).resolve().parent
    program = demo.parent / "crates" / "mapf_desk"
    session = (demo / "corridor.map").read_bytes() + (demo / "corridor.session").read_bytes()
    (program / "stdin").write_bytes(session)
    (program / "stdout").write_bytes((demo / "corridor.answers").read_bytes())


def main():
    numbers = Numbers(2019)
    write("open", open_map(32, 32), numbers)
    shelves = warehouse(52, 35)
    write_alone("warehouse", shelves, write("warehouse", shelves, numbers))
    write("random", random_obstacles(48, 48, numbers), numbers)
    copy_corridor()


if __name__ == "__main__":
    main()
