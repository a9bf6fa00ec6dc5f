"""The exact model of a folder's tables, formed anew from fractions by the definitions in docs/MODEL.md alone."""
import csv
import math
import tomllib
from fractions import Fraction

# the levels that the whole has
LEVELS = 10**6


class Hospital:
    def __init__(self, folder):
        self.folder = folder
        with open(f"{folder}/settings.toml", "rb") as file:
            self.settings = tomllib.load(file)
        self.days, self.parts = self.settings["days"], self.settings.get("parts", 10**6)
        self.rooms = list(dict.fromkeys(row[0] for row in self.rows("rooms.csv")))
        specialties = self.rows("specialties.csv")
        self.wards = list(dict.fromkeys(row[1] for row in specialties))
        self.ward_of = {row[0]: self.wards.index(row[1]) + 1 for row in specialties}
        # the beds that are always taken, of the watched wards by their names
        self.allow = dict.fromkeys(self.settings["watch"], 0) | dict(zip(self.settings["watch"], self.settings.get("allow", [])))
        self.patients = {name: {} for name in self.ward_of}
        for name, count, chance in self.rows("patients.csv"):
            self.patients[name][int(count)] = Fraction(int(chance), self.parts)
        self.stays = {name: [] for name in self.ward_of}
        for name, _, chance in self.rows("stays.csv"):
            self.stays[name].append(Fraction(int(chance), self.parts))
        self.cycle = [(int(day), name) for day, _, name in self.rows("cycle.csv") if name != "-"]
        self.blocks = {}

    def rows(self, name):
        with open(f"{self.folder}/{name}", newline="", encoding="utf-8-sig") as file:
            return [row for row in csv.reader(file) if row][1:]

    def presence(self, name, age):
        """The chance that a patient is there at an age."""
        return math.prod((1 - chance for chance in self.stays[name][:age]), start=Fraction(1))

    def block(self, name, chance):
        """The distribution of the patients of one block who are each counted with a chance."""
        if (name, chance) not in self.blocks:
            counted = [Fraction(0)] * (max(self.patients[name]) + 1)
            for count, weight in self.patients[name].items():
                for x in range(count + 1):
                    counted[x] += weight * math.comb(count, x) * chance**x * (1 - chance) ** (count - x)
            self.blocks[name, chance] = counted
        return self.blocks[name, chance]

    def chances(self, quantity, name, offset):
        """The chances with which the patients of a block are counted, one for each age that counts."""
        if quantity == "admissions":
            return [Fraction(1)] if offset == 0 else []
        ages = [age for age in range(len(self.stays[name])) if age % self.days == offset]
        there = [self.presence(name, age) for age in ages]
        return there if quantity == "census" else [at * self.stays[name][age] for age, at in zip(ages, there)]

    def distribution(self, quantity, ward, day):
        whole = [Fraction(1)]
        for operated, name in self.cycle:
            if self.ward_of[name] == ward:
                for chance in self.chances(quantity, name, (day - operated) % self.days):
                    whole = convolved(whole, self.block(name, chance))
        return whole


def convolved(a, b):
    whole = [Fraction(0)] * (len(a) + len(b) - 1)
    for i, x in enumerate(a):
        for j, y in enumerate(b):
            whole[i + j] += x * y
    return whole


def percentile(distribution, level):
    """The least count whose chance of at most so many reaches the level, in millionths."""
    total = Fraction(0)
    for count, chance in enumerate(distribution):
        total += chance
        if total * LEVELS >= level:
            return count
    raise AssertionError("the chances don't sum to one")
