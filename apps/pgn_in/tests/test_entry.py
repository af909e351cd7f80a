"""A word as the move that it means: all forms of it, in positions by chance and in those where forms differ."""

import random
import unittest

import entry
from position import Deed, Position, name_of, square_of
from rules import legal
from san import san
from setup import fen_of


def forms(position, text):
    """The ways to write a legal move that mean no other one."""
    deed, plain = Deed(position, text), san(position, text).rstrip("+#")
    yield from (plain, san(position, text), plain + "!", plain + "?!", plain + "+", plain + "#")
    if deed.castles:
        yield from (plain.replace("O", "0"), plain.replace("O", "o"), text)
        if abs(deed.king - deed.origin) > 1 and position.squares[deed.king] == "":
            yield text[:2] + name_of(deed.king)
        return
    origin, goal, promotion = text[:2], text[2:4], text[4:]
    yield from (text, f"{origin}-{goal}{promotion}", f"{origin}x{goal}{promotion}")
    if promotion:
        yield from (plain.replace("=", ""), f"{origin}{goal}={promotion.upper()}", plain.replace("=", "/"))
    if deed.kind == "p":
        yield from ("P" + plain, plain.replace("x", ""), plain.replace("x", ":"), origin[0] + goal + promotion if deed.takes else plain)
        if deed.takes and len([it for it in legal(position) if is_same_taking(position, it, text)]) == 1:
            yield origin[0] + goal[0] + promotion.upper()
            yield origin[0] + "x" + goal[0] + promotion.upper()
        return
    kind = deed.kind.upper()
    yield from (kind + text, f"{kind}{origin}-{goal}", f"{kind}{origin}x{goal}", plain.replace("x", ""))
    for part in origin[0], origin[1]:
        alike = [it for it in legal(position) if it[2:4] == goal and position.squares[square_of(it)] == deed.man and part in it[:2]]
        if len(alike) == 1:
            yield from (kind + part + goal, kind + part + "x" + goal)


def is_same_taking(position, one, other):
    """Whether both are captures of a pawn from the one file to the other, with the same promotion."""
    deeds = Deed(position, one), Deed(position, other)
    return all(it.kind == "p" and it.takes for it in deeds) and (one[0], one[2], one[4:]) == (other[0], other[2], other[4:])


class ByChance(unittest.TestCase):
    def test_every_form_of_every_move_of_games_by_chance(self):
        chance, seen = random.Random(1), set()
        for _ in range(4):
            position = Position.read(fen_of(chance.randrange(960)))
            for _ in range(40):
                texts = list(legal(position))
                if not texts:
                    break
                for text in chance.sample(texts, min(8, len(texts))):
                    for word in forms(position, text):
                        self.assertEqual(entry.read(position, word), text, (position.write(), word))
                        seen.add(Deed(position, text).castles)
                position = position.after(chance.choice(texts))
        self.assertIn(False, seen)


class Cases(unittest.TestCase):
    def means(self, fen, **words):
        """Each move of this position, as these words."""
        for text, written in words.items():
            for word in written.split():
                self.assertEqual(entry.read(Position.read(fen), word), text.lstrip("_"), word)

    def is_none(self, fen, reason, words):
        for word in words.split():
            with self.assertRaisesRegex(entry.NoMove, reason, msg=word):
                entry.read(Position.read(fen), word)

    def test_a_king_castles_onto_its_rook_and_by_its_own_way(self):
        self.means("r3k2r/8/8/8/8/8/8/R3K2R w HAha - 0 1", e1h1="O-O 0-0 o-o e1g1 e1h1 Ke1g1 O-O! O–O",
                   e1a1="O-O-O 0-0-0 e1c1 e1a1 O-O-O+")
        self.means("r3k2r/8/8/8/8/8/8/R3K2R b HAha - 0 1", e8h8="O-O 0-0 e8g8 e8h8", e8a8="O-O-O e8c8 e8a8")

    def test_a_king_that_can_simply_go_there_does(self):
        """From f1 the king goes to g1; it castles only where that is written."""
        self.means("5k2/8/8/8/8/8/8/5K1R w H - 0 1", f1g1="f1g1 Kg1 Kf1g1", f1h1="f1h1 O-O")
        self.means("1k6/8/8/8/8/8/8/RK6 w A - 0 1", b1c1="b1c1 Kc1", b1a1="b1a1 O-O-O")

    def test_castling_where_nobody_or_only_the_rook_moves(self):
        self.means("6k1/8/8/8/8/8/8/6KR w H - 0 1", g1h1="O-O g1h1")
        self.is_none("6k1/8/8/8/8/8/8/6KR w H - 0 1", "not legal", "g1g1")
        self.means("2k5/8/8/8/8/8/8/R1K5 w A - 0 1", c1a1="O-O-O c1a1")
        self.means("2k5/8/8/8/8/8/8/R1KR4 w DA - 0 1", c1d1="O-O c1d1 c1g1")
        self.is_none("2k5/8/8/8/8/8/8/R1KR4 w DA - 0 1", "not legal", "O-O-O c1a1")

    def test_castling_that_is_not_legal(self):
        self.is_none("4k3/8/8/8/8/8/8/R3K2R w A - 0 1", "not legal", "O-O 0-0 e1g1 e1h1")
        self.is_none("4kr2/8/8/8/8/8/8/R3K2R w HA - 0 1", "not legal", "O-O e1g1")
        self.is_none("4k3/8/8/8/8/8/8/RN2K2R w HA - 0 1", "not legal", "O-O-O e1c1")
        self.is_none("r3k2r/8/8/8/8/8/8/R3K2R w HAha - 0 1", "not legal", "Kh1 Ka1 Kxh1 Rxe1 h1e1")

    def test_a_rook_that_shields_its_king_does_not_castle(self):
        """It would go from b1 to d1, and the king on c1 would be in check from a1."""
        self.is_none("4k3/8/8/8/8/8/8/rRK5 w B - 0 1", "not legal", "O-O-O c1b1")

    def test_promotions(self):
        self.means("3nk3/4P3/8/8/8/8/8/4K3 w - - 0 1", e7d8n="exd8=N edN e7d8n",
                   e7d8q="exd8=Q exd8Q ed8=Q ed8Q exd8=Q+ edQ ed=Q e7d8q e7xd8=Q e7-d8Q exd8q")
        self.means("3n4/4P1k1/8/8/8/8/8/4K3 w - - 0 1", e7e8q="e8=Q e8Q e8Q+ e8=Q# e7e8q e7e8Q e8/Q", e7e8r="e8=R e8R",
                   e7e8b="e8B e8=B", e7e8n="e8N+")
        self.is_none("3n4/4P1k1/8/8/8/8/8/4K3 w - - 0 1", "not legal", "e8 e7e8 exd8 ed e8=")
        self.is_none("3n4/4P1k1/8/8/8/8/8/4K3 w - - 0 1", "is no move", "e8=K e8P")
        self.is_none("4k3/8/8/8/8/8/4P3/4K3 w - - 0 1", "not legal", "e4=Q e3Q Ke1=Q e2e4q")

    def test_captures_of_pawns_in_few_letters(self):
        fen = "4k3/8/8/3pP3/8/8/8/4K3 w - d6 0 2"
        self.means(fen, e5d6="exd6 ed exd ed6 e:d6 exd6e.p. exd6ep e5d6 e5xd6 exd6+ e5-d6 Pexd6", e5e6="e6 Pe6 e5e6 e5-e6")
        self.is_none("4k3/8/8/3pP3/8/8/8/4K3 w - - 0 2", "not legal", "ed exd6")
        self.is_none("4k3/8/8/3p1n2/2P1P3/8/8/4K3 w - - 0 2", "not legal", "ce cf ad")
        self.is_none("4k3/8/3p4/3pP3/4P3/8/8/4K3 w - - 0 2", "may be e4d5 or e5d6", "ed exd")

    def test_who_may_go_there(self):
        """Knights on d2 and g1, and one on b3 that is pinned in the second."""
        fen = "4k3/8/8/8/8/8/3N4/4K1N1 w - - 0 1"
        self.means(fen, g1f3="Ngf3 N1f3 Ng1f3 Ng1-f3 g1f3 Ngxf3", d2f3="Ndf3 N2f3 Nd2f3 d2f3")
        self.is_none(fen, "may be d2f3 or g1f3", "Nf3 Nf3+ Nxf3")
        self.means("4k3/8/8/8/1b6/8/3N4/4K1N1 w - - 0 1", g1f3="Nf3 Ngf3 N1f3")
        self.is_none("4k3/8/8/8/1b6/8/3N4/4K1N1 w - - 0 1", "not legal", "Ndf3 N2f3 d2f3")

    def test_all_that_is_no_move(self):
        self.is_none(fen_of(518), "is no move", "-- Z0 null pass e9 i4 Xf3 Nf 1-0 e4e5e6 O-O-O-O 0 N Sf3 e2e4e5 @@@@")
        self.is_none(fen_of(518), "not legal", "e5 Nd4 Ke2 O-O e2e5 a1b8 e7e5 Nf6 Bb5 exd3 dxe5")

    def test_a_king_does_not_go_into_check(self):
        self.is_none("4k3/8/8/8/8/8/r7/4K3 w - - 0 1", "not legal", "Ke2 Kd2 e1e2")


if __name__ == "__main__":
    unittest.main()
