"""Orders of random graphs by brute force: each is an order of the graph, exactly the pairs that are said to be left are
left, and a planted pair is named."""

from __future__ import annotations

import itertools
import pathlib
import random
import resource
import subprocess
import sys
import tempfile
import textwrap
import time
import unittest

from recorder.shuffle.asked import chosen_by
from recorder.shuffle.orders import Cycle, Graph, Pairs, blocks_of, chosen
from recorder.shuffle.pairing import Pair, Swaps, bisected, walked

SEED = 11
GRAPHS = 300


def random_graph(chance: random.Random, most: int = 9) -> Graph:
    """A graph of up to so many nodes, of which some are names, whose numbers say nothing about what waits for what."""
    count = chance.randrange(1, most + 1)
    numbers = chance.sample(range(count), count)
    before: list[list[int]] = [[] for _ in range(count)]
    for at in range(count):
        for it in range(at):
            if chance.random() < chance.choice((0.1, 0.3, 0.6)):
                before[numbers[at]].append(numbers[it])
    return Graph(before, [chance.random() < 0.8 for _ in range(count)])


def reached(graph: Graph) -> set[tuple[int, int]]:
    """(user, what it waits for), through all that stands between, by steps of one until nothing is added."""
    found = {(user, it) for user, them in enumerate(graph.before) for it in them}
    while True:
        more = {(a, d) for a, b in found for c, d in found if b == c} - found
        if not more:
            return found
        found |= more


def is_linear(order: list[int], graph: Graph, waits: set[tuple[int, int]]) -> bool:
    place = {node: at for at, node in enumerate(order)}
    return sorted(order) == sorted(graph.commands) and all(
        place[it] < place[user] for user, it in waits if user in place and it in place)


def left_by(orders: list[list[int]], graph: Graph, waits: set[tuple[int, int]]) -> set[tuple[int, int]]:
    """The unordered pairs that stood one way alone in orders that may have fewer commands than all."""
    found = set()
    for a, b in itertools.combinations(graph.commands, 2):
        if (a, b) in waits or (b, a) in waits:
            continue
        ways = {order.index(a) < order.index(b) for order in orders if a in order and b in order}
        if len(ways) < 2:
            found.add((a, b))
    return found


class Orders(unittest.TestCase):
    def setUp(self):
        self.chance = random.Random(SEED)

    def test_each_order_is_one_of_the_graph_and_the_pairs_that_are_left_are_exactly_those(self):
        for number in range(GRAPHS):
            graph = random_graph(self.chance)
            waits = reached(graph)
            first = graph.at_random(number)
            taken: list[list[int]] = []
            for it in chosen(graph, first):
                with self.subTest(graph=graph.before, order=it.order):
                    self.assertTrue(is_linear(it.order, graph, waits))
                    self.assertTrue(graph.is_order(it.order))
                    taken.append(it.order)
                    self.assertEqual(it.left, len(left_by(taken, graph, waits)))
            self.assertEqual(taken[0], first)

    def test_a_pair_is_left_where_one_of_it_did_not_run(self):
        for number in range(GRAPHS):
            graph = random_graph(self.chance)
            waits = reached(graph)
            pairs = Pairs(graph, graph.at_random(number))
            orders = [pairs.first]
            for turn in range(4):
                order = graph.at_random(1000 * number + turn)
                order = order[: self.chance.randrange(len(order) + 1)] if order else order
                pairs.take(blocks_of(order, 1))
                orders.append(order)
                left = left_by(orders, graph, waits)
                self.assertEqual(pairs.left, len(left))
                for a, b in itertools.combinations(graph.commands, 2):
                    self.assertEqual(pairs.is_left(a, b), (a, b) in left, (graph.before, orders, a, b))

    def test_two_of_one_block_stand_neither_way(self):
        for number in range(GRAPHS):
            graph, size = random_graph(self.chance), self.chance.randrange(2, 5)
            waits, first = reached(graph), graph.at_random(number)
            stood = {pair for pair in itertools.permutations(first, 2) if first.index(pair[0]) < first.index(pair[1])}
            pairs = Pairs(graph, first)
            for turn in range(3):
                order = graph.at_random(1000 * number + turn)
                block_of = {node: at // size for at, node in enumerate(order)}
                stood |= {(a, b) for a, b in itertools.permutations(order, 2) if block_of[a] < block_of[b]}
                due = {(a, b) for a, b in itertools.combinations(first, 2) if not {(a, b), (b, a)} <= stood
                       and not {(a, b), (b, a)} & waits}
                self.assertEqual(pairs.left_with(order, size), len(due), (graph.before, order, size))
                pairs.take(blocks_of(order, size))
                self.assertEqual(pairs.left, len(due))
                self.assertTrue(all(pairs.is_left(a, b) for a, b in due))
            self.assertTrue(all(it.left >= 0 for it in chosen(graph, first, 5, size)))

    def test_what_is_no_order_is_told_from_one(self):
        for number in range(GRAPHS):
            graph = random_graph(self.chance)
            order = self.chance.sample(graph.commands, len(graph.commands))
            self.assertEqual(graph.is_order(order), is_linear(order, graph, reached(graph)))
            self.assertFalse(graph.is_order(order[1:]) and order)

    def test_two_that_wait_for_nobody_need_two_orders(self):
        flat = Graph([[] for _ in range(50)], [True] * 50)
        self.assertEqual([it.left for it in chosen(flat, list(range(50)))], [1225, 0])
        in_a_row = Graph([[], [0], [1]], [True] * 3)
        self.assertEqual([it.left for it in chosen(in_a_row, [0, 1, 2])], [0])

    def test_an_order_near_another_keeps_it_where_it_can(self):
        graph = Graph([[], [], [0]], [True] * 3)
        self.assertEqual(graph.near([1, 2, 0]), [1, 0, 2])
        self.assertEqual(graph.near([1, 0, 2]), [1, 0, 2])

    def test_a_name_hands_on_what_it_waits_for(self):
        graph = Graph([[], [0], [1], []], [True, False, True, True])
        self.assertEqual([it.left for it in chosen(graph, [0, 2, 3])], [2, 0])
        self.assertEqual(graph.waited_for(2), {0})

    def test_commands_that_wait_for_each_other_have_no_order(self):
        with self.assertRaises(Cycle):
            Graph([[1], [0]], [True, True])

    def test_twenty_thousand_commands(self):
        """Of a build like CMake's: a generated header behind a name, libraries of fifty, and programs. An order takes
        seconds of the processor, and all of it less memory than 300 MB."""
        text = textwrap.dedent("""
            import random, resource, sys, time
            sys.path.insert(0, sys.argv[1])
            from recorder.shuffle.orders import Graph, chosen
            chance, before, command = random.Random(7), [[], [0]], [True, False]
            def add(them): before.append(them); command.append(True); return len(before) - 1
            libraries = [add([add([1]) for _ in range(50)]) for _ in range(392)]
            for _ in range(78): add(chance.sample(libraries, 8))
            graph, took, last = Graph(before, command), [], time.process_time()
            for it in chosen(graph, [n for n in graph.by_rank(list(range(len(before))))], 4):
                now = time.process_time(); took.append(now - last); last = now
                assert graph.is_order(it.order)
                last = time.process_time()
            print(len(graph.commands), max(took), resource.getrusage(resource.RUSAGE_SELF).ru_maxrss // 1024)
        """)
        top = str(pathlib.Path(__file__).resolve().parent.parent)
        done = subprocess.run([sys.executable, "-c", text, top], capture_output=True, text=True, check=True)
        commands, seconds, megabytes = done.stdout.split()
        self.assertEqual(int(commands), 20_071)
        self.assertLess(float(seconds), 6)  # 2 on a machine that has nothing else to do
        self.assertLess(int(megabytes), 300)


class OfAProgram(unittest.TestCase):
    """What a program answers that chooses orders; tests/orders/words asks the proved one."""

    def test_one_that_gives_no_answer(self):
        graph = Graph([[], []], [True, True])
        for asked in ("/bin/false", "/bin/echo", "/nowhere/rebug_ask"):
            self.assertIsNone(chosen_by(asked, graph, [0, 1], 12))

    def test_one_that_answers_with_what_is_no_order(self):
        graph = Graph([[], [0]], [True, True])
        for answer in ('{"kind": "order", "outputs": ["1", "0"], "left": 0}', '{"kind": "order"}', "[]", "{", "1",
                       '{"kind": "order", "outputs": ["0"], "left": 0}', '{"kind": "order", "outputs": 7, "left": 0}',
                       '{"kind": "order", "outputs": ["0", "1", "2"], "left": 0}', ""):
            with tempfile.TemporaryDirectory() as folder:
                asked = pathlib.Path(folder, "asked")
                asked.write_text(f"#!/bin/sh\necho '{answer}'\n")
                asked.chmod(0o755)
                self.assertIsNone(chosen_by(str(asked), graph, [0, 1], 12), answer)


class Planted(unittest.TestCase):
    """A pair of which the build wants one order: it is named by what a user does, or by what all do."""

    def planted(self, number):
        """A graph, an own order, another order in which a pair stands the other way, and that pair."""
        chance = random.Random(number)
        while True:
            graph = random_graph(chance, 14)
            own, other = graph.at_random(chance.random()), graph.at_random(chance.random())
            turned = [(a, b) for a, b in itertools.combinations(own, 2) if other.index(b) < other.index(a)]
            if turned:
                return graph, own, other, *chance.choice(turned)

    def test_the_walk_ends_at_the_pair(self):
        for number in range(GRAPHS):
            graph, own, other, maker, user = self.planted(number)
            for turned in (False, True):  # the one that sees it is behind the other one, or before it
                seen_by, unseen = (maker, user) if turned else (user, maker)

                def look(orders):
                    for it in orders:
                        self.assertEqual(it[-1], seen_by)
                        self.assertTrue(graph.waited_for(seen_by) <= set(it))
                        place = {node: at for at, node in enumerate(it)}
                        self.assertTrue(all(place[b] < place[a] for a in it for b in graph.waited_for(a)))
                    return [unseen in it for it in orders]

                found = walked(graph, own, other, seen_by, look)
                self.assertEqual(found, Pair(maker, user), (graph.before, own, other))

    def test_the_walk_names_nobody_where_the_user_does_the_same_in_both(self):
        graph, own, other, maker, user = self.planted(1)
        self.assertIsNone(walked(graph, own, other, user, lambda orders: [0 for _ in orders]))

    def test_halving_ends_at_the_pair(self):
        for number in range(GRAPHS):
            graph, own, other, maker, user = self.planted(number)
            waits, runs = reached(graph), []

            def is_as_own(order):
                self.assertTrue(is_linear(order, graph, waits))
                runs.append(order)
                return order.index(maker) < order.index(user)

            self.assertEqual(bisected(own, other, is_as_own), Pair(maker, user))
            self.assertLessEqual(len(runs), Swaps(own, other).length.bit_length())

    def test_each_step_swaps_two_that_stand_next_to_each_other(self):
        for number in range(60):
            graph, own, other, _, _ = self.planted(number)
            way = Swaps(own, other)
            self.assertEqual((way.order(0), way.order(way.length)), (own, other))
            for step in range(way.length):
                pair, before, after = way.pair(step), way.order(step), way.order(step + 1)
                at = before.index(pair.first)
                self.assertEqual(before[:at] + [pair.second, pair.first] + before[at + 2 :], after)


if __name__ == "__main__":
    unittest.main()
