"""Tests `fstch.Cache`: run where the module is found."""

import array
import copy
import gc
import os
import pickle
import threading
import unittest
import warnings

import fstch
from fstch import BLOCK, MAX_BLOCKS, MAX_LIVE, Cache, CacheCounts, Flight, Mark

ZEROS = bytes(BLOCK)


def new_cache(blocks=2):
    cache = Cache(blocks)
    for block in range(blocks):
        cache.admit(block, ZEROS)
    return cache


def write_all(cache):
    """Begins and completes all writes, until there is none."""
    flights = []
    while (block := cache.next()) is not None:
        flights.append(cache.send(block))
        cache.complete(block, flights[-1].number)
    return flights


def wave_of(cache):
    """Begins all writes that can begin."""
    flights = []
    while (block := cache.next()) is not None:
        flights.append(cache.send(block))
    return flights


class Blocks(unittest.TestCase):
    def test_opening(self):
        for blocks in (0, MAX_BLOCKS + 1):
            with self.assertRaises(fstch.FileSize):
                Cache(blocks)
        for blocks in (-1, 2**32):
            with self.assertRaises(ValueError):
                Cache(blocks)
        with Cache(MAX_BLOCKS) as cache:
            self.assertTrue(cache.is_open)
            self.assertEqual(cache.counts(), CacheCounts(blocks=MAX_BLOCKS, made=0, live=0, durable_below=0))
            self.assertEqual(repr(cache), "<fstch.Cache>")
            with self.assertRaises(TypeError):
                cache.__init__(1)
        self.assertFalse(cache.is_open)
        self.assertEqual(repr(cache), "<fstch.Cache, closed>")
        cache.close()
        for call in (cache.counts, cache.next, cache.renew, cache.group, cache.__enter__, lambda: cache.read(0)):
            with self.assertRaises(fstch.NotOpen):
                call()

    def test_blocks_come_and_go(self):
        with Cache(3) as cache:
            self.assertFalse(cache.is_resident(2))
            cache.admit(2, bytearray(b"b" * BLOCK))
            self.assertTrue(cache.is_resident(2))
            self.assertEqual(cache.read(2), b"b" * BLOCK)
            self.assertEqual(cache.read(2, 4090), b"b" * 6)
            self.assertEqual((cache.read(2, BLOCK), cache.read(2, 7, 0), cache.read(2, 0, 3)), (b"", b"", b"bbb"))
            for content in (b"", b"b" * (BLOCK - 1), b"b" * (BLOCK + 1)):
                with self.assertRaises(ValueError):
                    cache.admit(1, content)
            with self.assertRaises(TypeError):
                cache.admit(1, "text")
            with self.assertRaises(fstch.IsResident):
                cache.admit(2, ZEROS)
            for call in (cache.read, cache.evict, cache.is_resident, cache.send, lambda block: cache.admit(block, ZEROS)):
                with self.assertRaises(fstch.NoSuchBlock):
                    call(3)
                with self.assertRaises(ValueError):
                    call(-1)
            cache.patch(2, 0, b"x")
            with self.assertRaises(fstch.Live):
                cache.evict(2)
            write_all(cache)
            cache.evict(2)
            for call in (cache.read, cache.evict, cache.send, lambda block: cache.patch(block, 0, b"x")):
                with self.assertRaises(fstch.NotResident):
                    call(2)


class Patches(unittest.TestCase):
    def test_they_are_in_order(self):
        with new_cache() as cache:
            self.assertIsNone(cache.next())
            data = cache.patch(1, 0, b"data")
            name = cache.patch(0, 4, memoryview(b"name"), after=[data, data])
            other = cache.patch(0, 0, b"any", after=(it for it in ()))
            self.assertEqual((data, name, other), (0, 1, 2))
            first, second = wave_of(cache)
            self.assertEqual(first, Flight(0, 0, b"any".ljust(BLOCK, b"\0")))
            self.assertEqual((second.block, second.number, second.image[:5]), (1, 1, b"data\0"))
            self.assertEqual(cache.read(0, 0, 8), b"any\0name")
            self.assertEqual([cache.mark(it) for it in range(3)], [Mark.FLIGHT, Mark.MEMORY, Mark.FLIGHT])
            self.assertEqual((cache.flight(0, 0), cache.flight(1, 1)), ((2,), (0,)))
            self.assertEqual(cache.image(1, 1), second.image)
            with self.assertRaises(fstch.AlreadyInFlight):
                cache.send(0)
            with self.assertRaises(fstch.Live):
                cache.renew()
            cache.complete(0, 0)
            with self.assertRaises(fstch.NothingReady):
                cache.send(0)
            cache.complete(1, 1)
            self.assertEqual([it.image[:9] for it in write_all(cache)], [b"any\0name\0"])
            self.assertEqual(cache.counts()[:3], (2, 3, 0))
            self.assertIs(cache.mark(name), Mark.DURABLE)
            cache.renew()
            self.assertEqual(cache.patch(0, 0, b"new"), 0)

    def test_refusals(self):
        with new_cache(1) as cache:
            for kind, given in (
                (fstch.NoSuchBlock, (1, 0, b"")),
                (fstch.EmptyPatch, (0, BLOCK, b"")),
                (fstch.OutOfBlock, (0, BLOCK, b"x")),
                (fstch.OutOfBlock, (0, 2**32 - 1, b"x")),
                (fstch.OutOfBlock, (0, 0, b"x" * (BLOCK + 1))),
                (fstch.UnknownDependency, (0, 0, b"x", [0])),
                (fstch.UnknownDependency, (0, 0, b"x", [2**32 - 1])),
                (ValueError, (0, 0, b"x", [2**32])),
                (ValueError, (0, -1, b"x")),
                (TypeError, (0, 0, "x")),
            ):
                with self.assertRaises(kind):
                    cache.patch(*given)
            self.assertEqual(cache.counts().made, 0)
            for call in (cache.mark, lambda it: cache.without(0, [it]), lambda it: cache.merge(it, it)):
                with self.assertRaises(fstch.Unknown):
                    call(0)
            for start, length in ((BLOCK, 1), (1, BLOCK), (BLOCK + 1, None), (0, 2**31)):
                with self.assertRaises(fstch.OutOfBlock):
                    cache.read(0, start, length)
            for call in (cache.complete, cache.image, cache.flight):
                with self.assertRaises(fstch.Stranger):
                    call(0, 0)

    def test_the_most_are_live(self):
        with new_cache(1) as cache:
            for _ in range(MAX_LIVE):
                cache.patch(0, 0, b"x")
            with self.assertRaises(fstch.TooManyLive):
                cache.patch(0, 0, b"x")

    def test_classes(self):
        with new_cache() as cache:
            low, high = cache.patch(0, 0, b"aaaa"), cache.patch(0, 2, b"bbbb")
            other = cache.patch(1, 0, b"other", [low])
            back = cache.patch(0, 6, b"back", [other])
            self.assertEqual(cache.without(0, [high], 0, 6), b"aaaa\0\0")
            self.assertEqual(cache.without(0, array.array("I", [high, low])), cache.without(0, [])[:0] + ZEROS[:6] + b"back" + ZEROS[10:])
            self.assertEqual(cache.without(0, [back], 4), b"bb" + ZEROS[6:])
            with self.assertRaises(fstch.DependentApplied) as raised:
                cache.without(0, [low])
            self.assertEqual(raised.exception.patch, high)
            self.assertEqual(cache.merge(high, low), low)
            with self.assertRaises(fstch.WouldCycle) as raised:
                cache.merge(back, low)
            self.assertEqual(raised.exception.patch, other)
            with self.assertRaises(fstch.Same) as raised:
                cache.merge(low, high)
            self.assertIsNone(raised.exception.patch)
            hard = cache.patch(0, 100, b"hard", may_drop=True)
            beside = cache.patch(0, 104, b"beside")
            with self.assertRaises(fstch.Hard) as raised:
                cache.merge(beside, hard)
            self.assertEqual(raised.exception.patch, hard)
            for kind, patches in ((fstch.Hard, [hard]), (fstch.AlreadyTaken, [high, low]), (fstch.Unknown, [other])):
                with self.assertRaises(kind):
                    cache.without(0, patches)
            flight = cache.send(0)
            with self.assertRaises(fstch.NotInMemory) as raised:
                cache.merge(back, high)
            self.assertEqual(raised.exception.patch, high)
            with self.assertRaises(fstch.InFlight):
                cache.without(0, [low])
            cache.complete(0, flight.number)
            with self.assertRaises(fstch.Durable):
                cache.without(0, [low])

    def test_a_flight_of_many(self):
        with new_cache(1) as cache:
            for place in range(1000):
                cache.patch(0, place, b"x")
            flight = cache.send(0)
            self.assertEqual(cache.flight(0, flight.number), tuple(range(1000)))


class Groups(unittest.TestCase):
    def test_they_are_in_order(self):
        with new_cache() as cache:
            with cache.group() as data:
                cache.patch(1, 0, b"data")
                self.assertEqual(data.pending, 1)
            with cache.group(after=data) as name:
                cache.patch(0, 0, b"name")
            self.assertEqual([it.block for it in write_all(cache)], [1, 0])
            self.assertEqual((data.pending, name.pending, name.number), (0, 0, 1))
            with self.assertRaises(fstch.Live):
                cache.renew()
            data.close()
            name.close()
            with self.assertRaises(fstch.NoSuchGroup):
                name.close()
            cache.renew()
            self.assertEqual(cache.group().number, 0)

    def test_refusals(self):
        with new_cache() as cache, new_cache() as other:
            with cache.group() as first:
                with self.assertRaises(fstch.Engaged):
                    first.__enter__()
                with self.assertRaises(fstch.Engaged):
                    first.close()
                with self.assertRaises(fstch.Engaged):
                    cache.group(after=first)
            with self.assertRaises(fstch.SameGroup):
                first.depend(first)
            with self.assertRaises(ValueError):
                other.group(after=[first])
            with self.assertRaises(fstch.Started):
                first.depend(cache.group())
            cache.group(after=[first])
            with self.assertRaises(fstch.Sealed):
                first.__enter__()
            with self.assertRaises(fstch.TooManyGroups):
                for _ in range(1024):
                    cache.group()
            self.assertIn("fstch.CacheGroup 0", repr(first))

    def test_a_cache_that_is_closed_inside(self):
        cache = new_cache()
        with cache.group():
            cache.close()


class Opened(unittest.TestCase):
    def test_copies(self):
        with new_cache() as cache:
            for call in (copy.copy, copy.deepcopy, pickle.dumps):
                with self.assertRaises(TypeError):
                    call(cache)

    def test_one_that_is_never_closed(self):
        cache = new_cache()
        with self.assertWarns(ResourceWarning):
            del cache
            gc.collect()

    def test_a_with_that_raises(self):
        with self.assertRaises(KeyError), new_cache() as cache:
            raise KeyError
        self.assertFalse(cache.is_open)

    def test_threads(self):
        with new_cache(4) as cache:

            def use(block):
                for place in range(300):
                    cache.patch(block, place, b"x")

            threads = [threading.Thread(target=use, args=(block,)) for block in range(4)]
            for it in threads:
                it.start()
            for it in threads:
                it.join()
            self.assertEqual(cache.counts().made, 1200)
            self.assertEqual(len(write_all(cache)), 4)
            self.assertEqual(cache.read(3, 0, 301), b"x" * 300 + b"\0")

    def test_children_have_it_closed(self):
        with new_cache() as cache:
            cache.patch(0, 0, b"x")
            with warnings.catch_warnings():
                warnings.simplefilter("ignore", DeprecationWarning)  # (of newer Pythons: a process with threads is forked)
                child = os.fork()
                if child == 0:
                    os._exit(1 if cache.is_open else 0)
            self.assertEqual(os.waitpid(child, 0)[1], 0)
            self.assertEqual(cache.read(0, 0, 1), b"x")


if __name__ == "__main__":
    unittest.main()
