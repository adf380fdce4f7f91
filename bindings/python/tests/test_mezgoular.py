"""python3 -m unittest discover -s bindings/python/tests, from the top of a clone in which bindings/c/build has run."""
import array
import copy
import doctest
import functools
import gc
import math
import os
import pickle
import random
import subprocess
import sys
import threading
import unittest
from decimal import Decimal
from fractions import Fraction

sys.path.insert(0, os.path.join(os.path.dirname(os.path.abspath(__file__)), ".."))
import mezgoular
from mezgoular import Kll, Req

try:
    import numpy
except ImportError:
    numpy = None


def load_tests(loader, tests, pattern):
    tests.addTests(doctest.DocTestSuite(mezgoular))
    return tests


def of(family, items, **more):
    sketch = family(**more)
    sketch.update_all(items)
    return sketch


def for_each_family(test):
    """The test with each family as its argument."""

    @functools.wraps(test)
    def tests(self):
        for family in (Kll, Req):
            with self.subTest(family.__name__):
                test(self, family)

    return tests


class Case(unittest.TestCase):
    def refused(self, error, call, *args, **more):
        with self.assertRaises(error) as caught:
            call(*args, **more)
        self.assertTrue(str(caught.exception))


class Answers(Case):
    """Sketches that keep each item, so that lists give the answers."""

    @for_each_family
    def test_quantiles(self, family):
        sketch = of(family, range(1, 101))
        for p in range(1, 101):
            self.assertEqual(sketch.quantile(p / 100), p)
            self.assertEqual(sketch.quantile(Fraction(p, 100)), p)
            self.assertEqual(sketch.quantile(Decimal(p) / 100), p)
            self.assertEqual(sketch.quantile(p / 100, inclusive=False), min(p + 1, 100))
        self.assertEqual(sketch.quantiles([0, 0.5, 1]), [1, 50, 100])
        self.assertEqual(sketch.quantile(1e-300), 1)

    @for_each_family
    def test_ranks(self, family):
        sketch = of(family, [5, 1, 4, 4, 9])
        for item in range(-1, 11):
            self.assertEqual(sketch.rank(item), Fraction(sum(x <= item for x in (5, 1, 4, 4, 9)), 5))
            self.assertEqual(sketch.rank(item, inclusive=False), Fraction(sum(x < item for x in (5, 1, 4, 4, 9)), 5))

    @for_each_family
    def test_distributions(self, family):
        sketch = of(family, range(1, 11))
        self.assertEqual(sketch.cdf([3, 7]), [Fraction(3, 10), Fraction(7, 10), 1])
        self.assertEqual(sketch.pmf([3, 7]), [Fraction(3, 10), Fraction(4, 10), Fraction(3, 10)])
        self.assertEqual(sketch.pmf([3, 7], inclusive=False), [Fraction(2, 10), Fraction(4, 10), Fraction(4, 10)])
        self.assertEqual(sketch.cdf([]), [1])

    @for_each_family
    def test_ends_and_counts(self, family):
        sketch = of(family, [3, -(1 << 63), (1 << 63) - 1])
        self.assertEqual((sketch.min, sketch.max, sketch.n, sketch.retained), (-(1 << 63), (1 << 63) - 1, 3, 3))
        self.assertEqual((sketch.k, sketch.floats), (200 if family is Kll else 50, False))
        sketch.reset()
        self.assertEqual((sketch.n, sketch.k), (0, 200 if family is Kll else 50))

    @for_each_family
    def test_empty(self, family):
        sketch = family()
        answers = [sketch.quantile(0.5), sketch.rank(1), sketch.cdf([1]), sketch.pmf([1]), sketch.min, sketch.max]
        self.assertEqual(answers, [None] * 6)
        sketch.update_all([])
        sketch.update_all(array.array("q"))
        self.assertEqual(sketch.n, 0)

    @for_each_family
    def test_floats(self, family):
        sketch = of(family, [2.5, -1.25, 1e300, -0.0, math.inf], floats=True)
        sketch.update(7)
        self.assertEqual(sketch.quantiles([0, 0.3, 0.5, 1]), [-1.25, 0.0, 2.5, math.inf])
        self.assertEqual((sketch.rank(0.0, inclusive=False), sketch.rank(-0.0)), (Fraction(1, 6), Fraction(2, 6)))
        self.assertEqual(sketch.cdf([0.5, 1e301]), [Fraction(2, 6), Fraction(5, 6), 1])
        self.assertTrue(sketch.floats)

    @for_each_family
    def test_many(self, family):
        items = random.Random(7).sample(range(1 << 40), 50000)
        sketch = of(family, items, seed=7)
        rank = sum(x <= items[0] for x in items) / len(items)
        self.assertAlmostEqual(float(sketch.rank(items[0])), rank, delta=0.02)
        self.assertEqual((sketch.n, sketch.min, sketch.max), (50000, min(items), max(items)))
        self.assertLess(sketch.retained, 5000)
        self.assertEqual(sketch.to_bytes(), of(family, items, seed=7).to_bytes())
        self.assertNotEqual(sketch.to_bytes(), of(family, items).to_bytes())

    def test_the_exact_end(self):
        items = random.Random(7).sample(range(1 << 40), 50000)
        high, low = of(Req, items), of(Req, items, high=False)
        items.sort()
        for p in (0.999, 0.9995, 1):
            self.assertEqual(high.quantile(p), items[math.ceil(50000 * Fraction(str(p))) - 1])
        self.assertEqual([low.quantile(p) for p in (0, 0.001)], [items[0], items[49]])
        self.assertEqual((high.high, low.high), (True, False))

    def test_weights(self):
        sketch = Kll()
        sketch.update_weighted(3, 5)
        sketch.update_weighted(9, 1)
        self.assertEqual((sketch.n, sketch.rank(3), sketch.max), (6, Fraction(5, 6), 9))
        floats = Kll(floats=True)
        floats.update_weighted(0.5, (1 << 61) - 1)
        self.assertEqual((floats.n, floats.quantile(0.5)), ((1 << 61) - 1, 0.5))

    @for_each_family
    def test_repr(self, family):
        self.assertEqual(repr(of(family, range(1, 6), k=20)), f"<{family.__name__} k=20 n=5 min=1 quartiles=2, 3, 4 max=5>")
        self.assertEqual(repr(family(k=20)), f"<{family.__name__} k=20 n=0>")


class Inputs(Case):
    """Items from wherever they come."""

    @for_each_family
    def test_iterables(self, family):
        for items in ([1, 2], (1, 2), {1, 2}, range(1, 3), (x for x in (1, 2)), b"\1\2", bytearray(b"\1\2"), [True, 2]):
            self.assertEqual(of(family, items).quantiles([0, 1]), [1, 2])

    @for_each_family
    def test_buffers(self, family):
        for code in "bBhHiIlLqQ":
            self.assertEqual(of(family, array.array(code, [7, 1, 5])).quantiles([0, 0.5, 1]), [1, 5, 7])
        for code in "fd":
            self.assertEqual(of(family, array.array(code, [7.5, 1, 5]), floats=True).quantiles([0, 0.5, 1]), [1, 5, 7.5])
        view = memoryview(array.array("q", range(10)))
        self.assertEqual(of(family, view[::3]).quantiles([0, 0.5, 1]), [0, 3, 9])
        self.assertEqual(of(family, view.toreadonly()).n, 10)
        self.assertEqual(of(family, view.cast("B").cast("q", (2, 5))).n, 10)

    def test_no_copy(self):
        items = array.array("q", range(1 << 20))
        seen = mezgoular._Items(items, False)
        with seen as (address, count):
            self.assertEqual((address, count), (items.buffer_info()[0], 1 << 20))
            self.refused(BufferError, items.append, 1)
        del seen
        items.append(1)

    @unittest.skipIf(numpy is None, "numpy isn't there")
    @for_each_family
    def test_numpy(self, family):
        sketch = family()
        for items in (numpy.arange(1000), numpy.arange(10, dtype="i4"), numpy.arange(20).reshape(4, 5), numpy.arange(20)[::2],
                      numpy.arange(20).reshape(4, 5).T, numpy.arange(6, dtype=">i8"), numpy.array([], dtype="i8")):
            sketch.update_all(items)
        self.assertEqual((sketch.n, sketch.max), (1066, 999))
        sketch.update(numpy.int32(2000))
        self.assertEqual(sketch.quantile(numpy.float64(1)), 2000)
        fixed = numpy.linspace(0, 1, 101)
        fixed.flags.writeable = False
        self.assertEqual(of(family, fixed, floats=True).quantile(numpy.float32(0.5)), 0.5)
        self.assertEqual(of(family, numpy.float32([1.5, 2.5]), floats=True).max, 2.5)
        self.refused(TypeError, sketch.update_all, numpy.array([0.5]))
        self.refused(ValueError, family(floats=True).update_all, numpy.array([math.nan]))
        self.refused(TypeError, sketch.update_all, numpy.array(["2026-01-05"], dtype="M8[D]"))

    @for_each_family
    def test_threads(self, family):
        sketch = family()

        def run():
            for i in range(5000):
                sketch.update(i)

        threads = [threading.Thread(target=run) for _ in range(4)]
        for thread in threads:
            thread.start()
        for thread in threads:
            thread.join()
        self.assertEqual((sketch.n, sketch.max), (20000, 4999))


class Merges(Case):
    @for_each_family
    def test_merge(self, family):
        left, right = of(family, range(100)), of(family, range(100, 200), k=40)
        left.merge(right)
        left.merge(left)
        self.assertEqual((left.n, right.n, left.min, left.max), (400, 100, 0, 199))

    @for_each_family
    def test_refused(self, family):
        whole, floats = of(family, [1]), of(family, [1.5], floats=True)
        self.refused(ValueError, whole.merge, floats)
        self.refused(ValueError, floats.merge, whole)
        self.refused(TypeError, whole.merge, of(Req if family is Kll else Kll, [1]))
        self.refused(TypeError, whole.merge, None)
        self.assertEqual((whole.n, floats.n), (1, 1))

    def test_the_other_ranks(self):
        self.refused(ValueError, Req().merge, Req(high=False))

    def test_full(self):
        sketch = Kll()
        for _ in range(8):
            sketch.update_weighted(1, (1 << 61) - 1)
        sketch.update_all([1] * 7)
        self.assertEqual(sketch.n, (1 << 64) - 1)
        before = sketch.to_bytes()
        self.refused(ValueError, sketch.update, 1)
        self.refused(ValueError, sketch.update_all, [1, 2])
        self.refused(ValueError, sketch.update_weighted, 1, 1)
        self.refused(ValueError, sketch.merge, sketch)
        self.assertEqual(sketch.to_bytes(), before)


class Images(Case):
    @for_each_family
    def test_round_trips(self, family):
        for sketch in (family(), of(family, range(5000)), of(family, [0.5, -1e300], floats=True)):
            for twin in (family.from_bytes(sketch.to_bytes()), pickle.loads(pickle.dumps(sketch)), copy.copy(sketch), copy.deepcopy(sketch),
                         family.from_bytes(bytearray(sketch.to_bytes())), family.from_bytes(memoryview(sketch.to_bytes()))):
                self.assertEqual((twin.to_bytes(), twin.floats), (sketch.to_bytes(), sketch.floats))
                twin.update(7)
                self.assertEqual(twin.n, sketch.n + 1)

    def test_worked_image(self):
        """docs/FORMATS.md: k 200, items 5 and 3."""
        image = bytes.fromhex("05010f00c8000800" "0200000000000000" "c8000100" "c6000000" "0300000000000000" "0500000000000000"
                              "0300000000000000" "0500000000000000")
        sketch = of(Kll, [5, 3])
        self.assertEqual(sketch.to_bytes(plain=True), image)
        self.assertEqual(Kll.from_bytes(image).to_bytes(), sketch.to_bytes())

    @for_each_family
    def test_refused(self, family):
        image = of(family, range(10)).to_bytes()
        self.refused(ValueError, (Req if family is Kll else Kll).from_bytes, image)
        for wrong in (b"", b"junk", image + b"\0", image[:8]):
            self.refused(ValueError, family.from_bytes, wrong)
        for length in range(len(image)):
            self.refused(ValueError, family.from_bytes, image[:length])
        self.refused(TypeError, family.from_bytes, "junk")

    @for_each_family
    def test_forged(self, family):
        """A changed image is refused, or it is another sketch, which answers."""
        chance = random.Random(7)
        image = of(family, range(3000)).to_bytes()
        for _ in range(3000):
            forged = bytearray(image)
            for _ in range(chance.randrange(1, 4)):
                forged[chance.randrange(len(forged) if chance.random() < 0.5 else 64)] = chance.randrange(256)
            try:
                sketch = family.from_bytes(forged)
            except ValueError:
                continue
            self.assertTrue(sketch.n == 0 or sketch.min <= sketch.quantile(0.5) <= sketch.max)
            try:
                sketch.update_all(range(100) if not sketch.floats else [0.5])
                sketch.merge(sketch)
            except ValueError:
                pass


class Refusals(Case):
    @for_each_family
    def test_arguments(self, family):
        for k in (0, 3, 7 if family is Kll else 13, -200, 65536, 65736, 1 << 70):
            self.refused(ValueError, family, k)
        for k in (0.5, "200", None):
            self.refused(TypeError, family, k)
        for seed in (-1, 1 << 64):
            self.refused(ValueError, family, seed=seed)
        sketch = of(family, range(10))
        before = sketch.to_bytes()
        for item in (1 << 63, -(1 << 63) - 1):
            self.refused(ValueError, sketch.update, item)
            self.refused(ValueError, sketch.update_all, [1, item])
            self.refused(ValueError, sketch.rank, item)
        for item in (0.5, "1", None, b"1"):
            self.refused(TypeError, sketch.update, item)
            self.refused(TypeError, sketch.update_all, [1, item])
        self.refused(TypeError, sketch.update_all, "123")
        self.refused(TypeError, sketch.update_all, 5)
        for fraction in (1.5, -0.1, math.nan, math.inf, Fraction(3, 2), Decimal("nan")):
            self.refused(ValueError, sketch.quantile, fraction)
        self.refused(TypeError, sketch.quantile, "0.5")
        for points in ([3, 3], [4, 3]):
            self.refused(ValueError, sketch.cdf, points)
        self.assertEqual(sketch.to_bytes(), before)

    @for_each_family
    def test_floats(self, family):
        sketch = of(family, [0.5], floats=True)
        before = sketch.to_bytes()
        self.refused(ValueError, sketch.update, math.nan)
        self.refused(ValueError, sketch.update_all, [1.0, math.nan])
        self.refused(ValueError, sketch.update, 10**400)
        self.refused(ValueError, sketch.rank, math.nan)
        self.refused(ValueError, sketch.cdf, [math.nan])
        self.refused(TypeError, sketch.update, "0.5")
        self.assertEqual(sketch.to_bytes(), before)

    def test_weights(self):
        for weight in (0, -1, 1 << 61, 1 << 64):
            self.refused(ValueError, Kll().update_weighted, 1, weight)
        self.refused(TypeError, Kll().update_weighted, 1, 0.5)

    @for_each_family
    def test_no_sketch(self, family):
        self.refused(ValueError, family.__new__(family).update, 1)
        self.refused(ValueError, family.__new__(family).to_bytes)
        self.refused(ValueError, of(family, [1]).merge, family.__new__(family))

    @for_each_family
    def test_source_that_fails(self, family):
        def items():
            yield 1
            raise KeyError("no more")

        sketch = of(family, [1])
        self.refused(KeyError, sketch.update_all, items())
        self.assertEqual(sketch.n, 1)

    def test_out_of_memory(self):
        """Under a limit of the address space, whatever fails is a MemoryError, and the sketches still answer."""
        script = """
import resource, sys
sys.path.insert(0, sys.argv[1])
from mezgoular import Kll, Req
kept, refused = [], 0
for family in (Kll, Req):
    first = family()
    first.update_all(range(5000))
    used = int(open("/proc/self/statm").read().split()[0]) * resource.getpagesize()
    resource.setrlimit(resource.RLIMIT_AS, (used + (8 << 20), resource.RLIM_INFINITY))
    image = first.to_bytes()
    while True:
        try:
            kept.append(family.from_bytes(image))
        except MemoryError:
            refused += 1
            break
    resource.setrlimit(resource.RLIMIT_AS, (resource.RLIM_INFINITY, resource.RLIM_INFINITY))
    assert all(sketch.n == 5000 for sketch in kept) and first.to_bytes() == image
    kept = []
print(refused)
"""
        folder = os.path.dirname(os.path.dirname(os.path.abspath(mezgoular.__file__)))
        said = subprocess.run([sys.executable, "-c", script, folder], capture_output=True, text=True)
        self.assertEqual((said.stdout.strip(), said.returncode), ("2", 0), said.stderr)

    @unittest.skipUnless(os.path.exists("/proc/self/statm"), "no /proc")
    def test_no_leak(self):
        def pages():
            gc.collect()
            with open("/proc/self/statm") as file:
                return int(file.read().split()[1])

        image = of(Req, range(1000)).to_bytes()
        for round in range(3):
            before = pages()
            for _ in range(3000):
                sketch = Req.from_bytes(image)
                sketch.update_all(range(10))
                sketch.merge(sketch.copy())
                sketch.cdf([1, 2])
                for wrong in (lambda: Req.from_bytes(image[:-1]), lambda: sketch.update_all([1, "x"]), lambda: sketch.cdf([2, 1])):
                    try:
                        wrong()
                    except (TypeError, ValueError):
                        pass
        self.assertLess(pages() - before, 256)


class Library(unittest.TestCase):
    def test_where_it_is(self):
        """MEZGOULAR_LIBRARY decides, and a missing file is told."""
        folder = os.path.dirname(os.path.dirname(os.path.abspath(mezgoular.__file__)))
        for path, status in ((mezgoular._library._name, 0), ("/nowhere/libmezgoular.so.1", 1)):
            said = subprocess.run([sys.executable, "-c", "import mezgoular; mezgoular.Kll()"], capture_output=True, text=True,
                                  env={**os.environ, "MEZGOULAR_LIBRARY": os.path.abspath(path), "PYTHONPATH": folder})
            self.assertEqual(said.returncode, status, said.stderr)
            self.assertEqual(path in said.stderr, status == 1)


if __name__ == "__main__":
    unittest.main()
