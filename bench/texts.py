#!/usr/bin/env python3
"""Makes the JSON texts that the bench reads, a file NAME.json of each kind: texts.py FOLDER

They are the same in every run. `services` and `seats` have the shapes of the texts of services that
other benches take: strings with some beyond ASCII and few numbers, and small numbers under long
keys.
"""
import json
import pathlib
import random
import sys

WORDS = ("amber basil cedar delta ember fjord grove harbor island juniper kelp lantern meadow "
         "north olive pine quartz river stone timber umber valley willow yarrow zephyr").split()
BEYOND_ASCII = "größe naïve café über 東京 日本語 мир привет straße élan".split()


class Maker:
    """Values by chance, from a seed."""

    def __init__(self, seed):
        self.chance = random.Random(seed)

    def words(self, least, most, words=None):
        return " ".join(self.chance.choices(words or WORDS, k=self.chance.randint(least, most)))

    def below(self, end):
        return self.chance.randrange(end)

    def member(self):
        kinds = [self.below(100_000), self.words(1, 2), self.below(2) == 1, None, -self.below(1000)]
        return self.chance.choices(kinds, weights=(35, 35, 10, 10, 10))[0]

    def record(self):
        """Four to twenty members, with keys in any order."""
        names = self.chance.sample([f"{word}_{i}" for word in WORDS for i in range(4)],
                                   self.chance.randint(4, 20))
        return {name: self.member() for name in names}

    def person(self, number):
        return {"id": self.below(10**9), "id_str": str(self.below(10**9)),
                "name": self.words(2, 2), "screen_name": f"{self.words(1, 1)}{number}",
                "location": self.words(0, 3), "url": None, "protected": False,
                "description": self.words(0, 20, WORDS + BEYOND_ASCII),
                "followers_count": self.below(10_000), "friends_count": self.below(10_000),
                "created_at": "Sat Dec 14 12:25:34 +0000 2013", "verified": False, "lang": "ja",
                "image": f"https://images.example.com/profiles/{number}/normal.jpeg",
                "default_profile": True, "following": False}

    def message(self, number):
        return {"metadata": {"result_type": "recent", "iso_language_code": "ja"},
                "created_at": "Sun Aug 31 00:29:15 +0000 2014",
                "id": 505_874_924_095_815_681 + number,
                "text": self.words(5, 20, WORDS + BEYOND_ASCII) + self.chance.choice(["", "\n"]),
                "source": '<a href="https://www.example.com/client" rel="nofollow">Client</a>',
                "truncated": False, "in_reply_to": None, "user": self.person(number),
                "coordinates": self.chance.choice([None, [self.below(180) + 0.5, -12.25]]),
                "retweet_count": self.below(1000),
                "entities": {"tags": [{"text": self.words(1, 1), "indices": [3, 20]}
                                      for _ in range(self.below(4))], "urls": []}}

    def show(self, number):
        seat = 338_937_295
        return {"eventId": 138_586_341 + number, "id": 339_887_544 + number, "logo": None,
                "name": None, "start": 1_372_701_600_000 + number, "venueCode": "HALL_HALL",
                "prices": [{"amount": self.below(100_000), "audienceSubCategoryId": 337_100_890,
                            "seatCategoryId": seat + k} for k in range(4)],
                "seatCategories": [{"areas": [{"areaId": 205_705_999 + k, "blockIds": []}
                                              for k in range(1 + self.below(7))],
                                    "seatCategoryId": seat + k} for k in range(4)]}

    def with_escape(self):
        text = self.words(1, 7)
        return self.chance.choice([text, f'"{text}"', f"{text}\n{text}", f"\t{text}", f"{text}é"])


def compact(value, ascii_only=False):
    return json.dumps(value, separators=(",", ":"), ensure_ascii=ascii_only)


def listed(numbers):
    return f"[{','.join(numbers)}]"


def texts():
    """Each text by its name."""
    make = Maker(2026)
    seats = {"performances": [make.show(number) for number in range(400)]}
    row = {"id": 12345, "name": "Some Name", "email": "someone@example.org", "age": 37,
           "city": "Springfield", "zip": "12345", "active": True, "score": 98.5,
           "tags": ["a", "b"], "note": None}
    return {
        "any_order": compact([make.record() for _ in range(4000)]),
        "services": compact({"statuses": [make.message(number) for number in range(400)]}),
        "seats": compact(seats),
        "seats_indented": json.dumps(seats, indent=4),
        "integers": compact([make.below(1000) for _ in range(100_000)]),
        "prices": listed(f"{make.below(1000)}.{make.below(100):02}" for _ in range(50_000)),
        "decimals": listed(f"{make.below(180)}.{make.below(10**14):014}" for _ in range(40_000)),
        "escapes": compact([make.with_escape() for _ in range(20_000)], ascii_only=True),
        "beyond_ascii": compact([make.words(1, 9, BEYOND_ASCII) for _ in range(10_000)]),
        "row": compact(row),
        "short": compact({"id": 1, "name": "x", "tags": ["a", "b"], "ok": True}),
    }


def main(folder):
    folder.mkdir(parents=True, exist_ok=True)
    for name, text in texts().items():
        (folder / f"{name}.json").write_text(text)


if __name__ == "__main__":
    if len(sys.argv) != 2:
        raise SystemExit(__doc__)
    main(pathlib.Path(sys.argv[1]))
