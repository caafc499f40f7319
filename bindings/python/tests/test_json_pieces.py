"""Documents of GeoJSON mean the same wherever a piece of them ends."""

import io as text_io
import random
import unittest

import samples
from i_shape._command import geojson

VALUES = ["0", "-15", "1.25", "12e5", "1E-7", "true", "null", '"\\ud83d\\ude00"',
          '[1, {"b"  : 2.5}]', '"\\\\"', "{}"]
GEOMETRY = '{"type": "Polygon", "coordinates": [[[0, -1.5]]]}'


class Cut(text_io.StringIO):
    """A text whose first piece ends at a place."""

    def __init__(self, text, place):
        super().__init__(text)
        self._place = place

    def read(self, size=-1):
        return super().read(size if self.tell() else self._place)


class Maker:
    """Random documents, with long blanks and strange members."""

    def __init__(self, seed):
        self._numbers = random.Random(seed)

    def document(self):
        """A collection; of two one has a fault, or nearly so."""
        text = self._object(
            *self._others(), ("type", '"FeatureCollection"'),
            ("features", f"[{self._features()}]"), *self._others())
        if self._numbers.random() < 0.5:
            return text
        place = self._numbers.randrange(len(text))
        damage = self._numbers.choice(["", "NaN", *VALUES, *'{}[]",:'])
        return text[:place] + damage + text[place + 1:]

    def _blank(self):
        return " " * self._numbers.choice((0,) * 9 + (1, 20))

    def _spaced(self, *texts):
        return "".join(self._blank() + text for text in texts) + self._blank()

    def _object(self, *members):
        return self._spaced("{" + ",".join(
            self._spaced(f'"{name}"', ":", value)
            for name, value in members) + "}")

    def _others(self):
        name = self._numbers.choice(("took", "n\\u00e9", "bbox"))
        return [(name, self._numbers.choice(VALUES))
                ] * self._numbers.randrange(2)

    def _features(self):
        return ",".join(
            self._object(("type", '"Feature"'), ("geometry", GEOMETRY),
                         *self._others())
            for _ in range(self._numbers.randrange(2)))


def read_of(file):
    """What a document holds, or what is said of its fault."""
    document = geojson.Document(file, False)
    try:
        records = list(document.records())
    except ValueError as error:
        return str(error)
    return document.head, repr(records), document.tail


class Pieces(unittest.TestCase):

    @samples.takes_long
    def test_a_document_means_the_same_wherever_a_piece_ends(self):
        maker = Maker(65)
        for _ in range(1000):
            text = maker.document()
            whole = read_of(text_io.StringIO(text))
            for place in range(1, len(text)):
                if read_of(Cut(text, place)) != whole:
                    self.assertEqual(
                        read_of(Cut(text, place)), whole,
                        (text[:place], text[place:]))


if __name__ == "__main__":
    unittest.main()
