"""Writes setup files and the answer that each must get, and pairs of files with their audits.

    python3 make_cases.py FOLDER

FOLDER is that of the program setup_cases. Its data gets NAME.bin for each case and cases.txt: a line
for each, NAME, a tab, and `accepted`, `refused N file 1 at OFFSET` or `file too long`. Each answer
below is written by hand; a plain reader of the rules reckons it again, and both must agree.

data gets draws files too, and audits.txt: a line for each pair of files, the setup's NAME, a tab, and
that of the draws. The pairs of examples/ that are named below are among them. What the audit of each
prints is written by hand. stdout is all that the program must print.
"""

import os
import sys

# ---------------------------------------------------------------- writing commands


def two(n):
    return bytes([n // 256, n % 256])


def batch(cards, name=b"BOX-0001"):
    return b"\x01" + name + two(cards)


def terms(r=50, draws=400, policy=1, weight=0):
    return b"\x02" + two(r) + two(draws) + bytes([policy]) + two(weight)


def contest(kind=1, c=2, seats=1, p=0, q=0):
    return b"\x03" + bytes([kind, c, seats]) + two(p) + two(q)


def candidate(votes, name=b"ADAMS   "):
    return b"\x04" + name + two(votes)


def candidates(*votes):
    return b"".join(candidate(v, b"NAME%04d" % i) for i, v in enumerate(votes))


def race(*votes, kind=1, seats=1, p=0, q=0):
    """A contest with all its candidates."""
    return contest(kind, len(votes), seats, p, q) + candidates(*votes)


def card(command, place, found=1, marks=1):
    """A card that is shown, with marks in the first contest alone."""
    return bytes([command]) + two(place) + bytes([found]) + marks.to_bytes(4, "big") + bytes(28)


def entry(place, found=1, marks=1):
    return card(0x11, place, found, marks)


def count(place, found=1, marks=1):
    return card(0x14, place, found, marks)


def share(p, q, *votes):
    return race(*votes, kind=3, p=p, q=q)


def clear_win(c, seats, kind=1):
    """A contest of c candidates: the first `seats` have one vote each, the others none."""
    return race(*([1] * seats + [0] * (c - seats)), kind=kind, seats=seats)


# ---------------------------------------------------------------- a reader of the rules

WIDTH = {1: 11, 2: 8, 3: 8, 4: 11, 5: 1}


class Refused(Exception):
    pass


class Reader:
    def __init__(self, file):
        self.file = file
        self.at = 0  # where the present command begins

    def next(self, allowed):
        """The command that begins here and its operand bytes: 2 is tested before 1."""
        if self.at == len(self.file):
            raise Refused(1, self.at)
        byte = self.file[self.at]
        if byte not in allowed:
            raise Refused(2, self.at)
        end = self.at + WIDTH[byte]
        if end > len(self.file):
            raise Refused(1, self.at)
        return byte, self.file[self.at + 1 : end]

    def test(self, number, broken):
        if broken:
            raise Refused(number, self.at)

    def passed(self, byte):
        self.at += WIDTH[byte]

    def read(self):
        cards = self.read_batches()
        self.read_terms()
        self.read_contests(cards)
        self.at += 1  # 0x05
        if self.at < len(self.file):
            raise Refused(9, self.at)

    def read_batches(self):
        number, cards = 0, 0
        while True:
            byte, rest = self.next({1, 2} if number else {1})
            if byte == 2:
                return cards
            here = int.from_bytes(rest[8:10], "big")
            self.test(3, here == 0 or number == 200 or cards + here > 65535)
            number, cards = number + 1, cards + here
            self.passed(1)

    def read_terms(self):
        _, rest = self.next({2})
        r, draws = int.from_bytes(rest[0:2], "big"), int.from_bytes(rest[2:4], "big")
        policy, weight = rest[4], int.from_bytes(rest[5:7], "big")
        weight_fits = weight == 0 if policy == 1 else 1 <= weight <= 1000
        fits = 10 <= r <= 500 and 1 <= draws <= 20000 and policy in (1, 2) and weight_fits
        self.test(4, not fits)
        self.passed(2)

    def read_contests(self, cards):
        number, made = 0, 0
        while True:
            byte, rest = self.next({3, 5} if number else {3})
            if byte == 5:
                return
            kind, c, seats = rest[0], rest[1], rest[2]
            p, q = int.from_bytes(rest[3:5], "big"), int.from_bytes(rest[5:7], "big")
            if kind in (1, 2):
                fits = 2 <= c <= 32 and 1 <= seats <= c - 1 and p == 0 and q == 0
                more = seats * (c - seats)
            else:
                fits = kind == 3 and 2 <= c <= 32 and seats == 1 and p < q <= 2 * p and q <= 1000
                more = 1
            self.test(5, not fits or number == 8)
            self.test(6, made + more > 256)
            number, made = number + 1, made + more
            self.passed(3)
            self.read_candidates(cards, kind, c, seats, p, q)

    def read_candidates(self, cards, kind, c, seats, p, q):
        votes = []
        for i in range(c):
            _, rest = self.next({4})
            votes.append(int.from_bytes(rest[8:10], "big"))
            self.test(7, votes[-1] > cards)
            if i == c - 1:
                self.test(7, kind in (1, 3) and sum(votes) > seats * cards)
                self.test(8, not winners_exist(kind, seats, p, q, votes))
            self.passed(4)


def winners_exist(kind, seats, p, q, votes):
    if kind == 3:
        return any(q * v > p * sum(votes) for v in votes)
    ranked = sorted(votes, reverse=True)
    return ranked[seats - 1] > ranked[seats]


LIMIT = 65536


def answer(file):
    if len(file) > LIMIT:
        return "file too long"
    try:
        Reader(file).read()
        return "accepted"
    except Refused as why:
        return "refused %d file 1 at %d" % why.args


# ---------------------------------------------------------------- the table

B = batch(100)  # 11 bytes
T = terms()  # 8 bytes
C = contest()  # 8 bytes
ADAMS = candidate(60, b"ADAMS   ")  # 11 bytes
BAKER = candidate(40, b"BAKER   ")
OPEN = b"\x05"
HEAD = B + T  # the first contest begins at 19, its candidates at 27, 38, 49, ..
EXAMPLE = HEAD + C + ADAMS + BAKER + OPEN  # 0x05 at 49, length 50

OK = "accepted"

CASES = [
    ("example", EXAMPLE, OK),
    # --- the file ends early
    ("empty", b"", "refused 1 file 1 at 0"),
    ("batch_without_operands", b"\x01", "refused 1 file 1 at 0"),
    ("batch_one_byte_short", B[:-1], "refused 1 file 1 at 0"),
    ("second_batch_one_byte_short", B + B[:-1], "refused 1 file 1 at 11"),
    ("terms_without_operands", B + b"\x02", "refused 1 file 1 at 11"),
    ("terms_one_byte_short", B + T[:-1], "refused 1 file 1 at 11"),
    ("contest_without_operands", HEAD + b"\x03", "refused 1 file 1 at 19"),
    ("contest_one_byte_short", HEAD + C[:-1], "refused 1 file 1 at 19"),
    ("candidate_without_operands", HEAD + C + b"\x04", "refused 1 file 1 at 27"),
    ("candidate_one_byte_short", HEAD + C + ADAMS[:-1], "refused 1 file 1 at 27"),
    ("last_candidate_without_operands", HEAD + C + ADAMS + b"\x04", "refused 1 file 1 at 38"),
    ("last_candidate_one_byte_short", HEAD + C + ADAMS + BAKER[:-1], "refused 1 file 1 at 38"),
    ("second_contest_one_byte_short", EXAMPLE[:-1] + C[:-1], "refused 1 file 1 at 49"),
    ("ends_after_batch", B, "refused 1 file 1 at 11"),
    ("ends_after_terms", HEAD, "refused 1 file 1 at 19"),
    ("ends_after_contest", HEAD + C, "refused 1 file 1 at 27"),
    ("ends_after_first_candidate", HEAD + C + ADAMS, "refused 1 file 1 at 38"),
    ("ends_before_open", EXAMPLE[:-1], "refused 1 file 1 at 49"),
    # --- unknown bytes and bytes out of order
    ("unknown_byte_00_first", b"\x00", "refused 2 file 1 at 0"),
    ("unknown_byte_ff_first", b"\xff" + EXAMPLE, "refused 2 file 1 at 0"),
    ("unknown_byte_7f_after_batch", B + b"\x7f", "refused 2 file 1 at 11"),
    ("unknown_byte_after_terms", HEAD + b"\x00", "refused 2 file 1 at 19"),
    ("unknown_byte_among_candidates", HEAD + C + ADAMS + b"\x00", "refused 2 file 1 at 38"),
    ("unknown_byte_before_open", EXAMPLE[:-1] + b"\xff\x05", "refused 2 file 1 at 49"),
    ("only_open", b"\x05", "refused 2 file 1 at 0"),
    ("terms_first", T + B, "refused 2 file 1 at 0"),
    ("contest_first", C, "refused 2 file 1 at 0"),
    ("candidate_first", ADAMS, "refused 2 file 1 at 0"),
    ("contest_before_terms", B + C, "refused 2 file 1 at 11"),
    ("candidate_before_terms", B + ADAMS, "refused 2 file 1 at 11"),
    ("open_after_batch", B + OPEN, "refused 2 file 1 at 11"),
    ("second_terms", HEAD + T, "refused 2 file 1 at 19"),
    ("batch_after_terms", HEAD + B, "refused 2 file 1 at 19"),
    ("candidate_before_contest", HEAD + ADAMS, "refused 2 file 1 at 19"),
    ("open_right_after_terms", HEAD + OPEN, "refused 2 file 1 at 19"),
    ("open_before_any_candidate", HEAD + C + OPEN, "refused 2 file 1 at 27"),
    ("open_inside_a_contest", HEAD + C + ADAMS + OPEN, "refused 2 file 1 at 38"),
    ("contest_inside_a_contest", HEAD + C + C, "refused 2 file 1 at 27"),
    ("contest_after_one_candidate", HEAD + C + ADAMS + C, "refused 2 file 1 at 38"),
    ("candidate_too_many", EXAMPLE[:-1] + candidate(0) + OPEN, "refused 2 file 1 at 49"),
    ("terms_after_contest", EXAMPLE[:-1] + T, "refused 2 file 1 at 49"),
    ("batch_after_contest", EXAMPLE[:-1] + B, "refused 2 file 1 at 49"),
    ("draws_entry_first", b"\x11" + bytes(35), "refused 2 file 1 at 0"),
    ("draws_verdict_after_batch", B + b"\x12", "refused 2 file 1 at 11"),
    ("draws_escalate_after_terms", HEAD + b"\x13", "refused 2 file 1 at 19"),
    ("draws_count_after_contest", EXAMPLE[:-1] + b"\x14" + bytes(35), "refused 2 file 1 at 49"),
    ("draws_close_for_open", EXAMPLE[:-1] + b"\x15", "refused 2 file 1 at 49"),
    # --- 2 before 1: the byte is out of order and its operands are missing too
    ("order_before_length_terms", b"\x02", "refused 2 file 1 at 0"),
    ("order_before_length_candidate", B + b"\x04", "refused 2 file 1 at 11"),
    ("order_before_length_batch", HEAD + b"\x01", "refused 2 file 1 at 19"),
    ("order_before_length_contest", HEAD + C + ADAMS + b"\x03", "refused 2 file 1 at 38"),
    ("order_before_length_at_end", EXAMPLE[:-1] + b"\x04", "refused 2 file 1 at 49"),
    # --- 1 before the operands: the command is cut short, and what stands would be refused
    ("length_before_terms", B + terms(r=9)[:-1], "refused 1 file 1 at 11"),
    ("length_before_contest", HEAD + contest(kind=0)[:-1], "refused 1 file 1 at 19"),
    ("length_before_201st_batch", batch(1) * 200 + batch(1)[:-1], "refused 1 file 1 at 2200"),
    # --- batches
    ("batch_of_0_cards", batch(0) + T + C + ADAMS + BAKER + OPEN, "refused 3 file 1 at 0"),
    ("second_batch_of_0_cards", B + batch(0) + T, "refused 3 file 1 at 11"),
    ("batch_of_1_card", batch(1) + T + race(1, 0) + OPEN, OK),
    ("batches_200", batch(1) * 200 + T + C + ADAMS + BAKER + OPEN, OK),
    ("batches_201", batch(1) * 201 + T + C + ADAMS + BAKER + OPEN, "refused 3 file 1 at 2200"),
    ("cards_65535_in_one", batch(65535) + T + C + ADAMS + BAKER + OPEN, OK),
    ("cards_65535_in_two", batch(65534) + batch(1) + T + C + ADAMS + BAKER + OPEN, OK),
    ("cards_65536", batch(65535) + batch(1) + T + C + ADAMS + BAKER + OPEN, "refused 3 file 1 at 11"),
    ("cards_65536_in_three", batch(32768) + batch(32767) + batch(1) + T, "refused 3 file 1 at 22"),
    ("cards_131070", batch(65535) + batch(65535) + T, "refused 3 file 1 at 11"),
    ("cards_high_byte_first", batch(256) + T + race(256, 0) + OPEN, OK),
    ("names_of_command_bytes", batch(100, b"\x05" * 8) + T + C + candidate(60, b"\xff" * 8)
     + candidate(40, b"\x00" * 8) + OPEN, OK),
    ("equal_names", B + B + T + C + candidate(60) + candidate(40) + OPEN, OK),
    # --- terms
    ("risk_limit_9", B + terms(r=9) + C + ADAMS + BAKER + OPEN, "refused 4 file 1 at 11"),
    ("risk_limit_10", B + terms(r=10) + C + ADAMS + BAKER + OPEN, OK),
    ("risk_limit_500", B + terms(r=500) + C + ADAMS + BAKER + OPEN, OK),
    ("risk_limit_501", B + terms(r=501) + C + ADAMS + BAKER + OPEN, "refused 4 file 1 at 11"),
    ("risk_limit_0", B + terms(r=0) + C + ADAMS + BAKER + OPEN, "refused 4 file 1 at 11"),
    ("risk_limit_2560", B + terms(r=2560) + C + ADAMS + BAKER + OPEN, "refused 4 file 1 at 11"),
    ("draws_0", B + terms(draws=0) + C + ADAMS + BAKER + OPEN, "refused 4 file 1 at 11"),
    ("draws_1", B + terms(draws=1) + C + ADAMS + BAKER + OPEN, OK),
    ("draws_20000", B + terms(draws=20000) + C + ADAMS + BAKER + OPEN, OK),
    ("draws_20001", B + terms(draws=20001) + C + ADAMS + BAKER + OPEN, "refused 4 file 1 at 11"),
    ("policy_0", B + terms(policy=0) + C + ADAMS + BAKER + OPEN, "refused 4 file 1 at 11"),
    ("policy_0_weight_100", B + terms(policy=0, weight=100) + C + ADAMS + BAKER + OPEN, "refused 4 file 1 at 11"),
    ("policy_3", B + terms(policy=3, weight=1) + C + ADAMS + BAKER + OPEN, "refused 4 file 1 at 11"),
    ("fixed_weight_1", B + terms(weight=1) + C + ADAMS + BAKER + OPEN, "refused 4 file 1 at 11"),
    ("fixed_weight_256", B + terms(weight=256) + C + ADAMS + BAKER + OPEN, "refused 4 file 1 at 11"),
    ("shrinking_weight_0", B + terms(policy=2, weight=0) + C + ADAMS + BAKER + OPEN, "refused 4 file 1 at 11"),
    ("shrinking_weight_1", B + terms(policy=2, weight=1) + C + ADAMS + BAKER + OPEN, OK),
    ("shrinking_weight_1000", B + terms(policy=2, weight=1000) + C + ADAMS + BAKER + OPEN, OK),
    ("shrinking_weight_1001", B + terms(policy=2, weight=1001) + C + ADAMS + BAKER + OPEN, "refused 4 file 1 at 11"),
    ("terms_after_two_batches", B + B + terms(r=9) + C + ADAMS + BAKER + OPEN, "refused 4 file 1 at 22"),
    # --- contests
    ("kind_0", HEAD + contest(kind=0) + ADAMS + BAKER + OPEN, "refused 5 file 1 at 19"),
    ("kind_4", HEAD + contest(kind=4) + ADAMS + BAKER + OPEN, "refused 5 file 1 at 19"),
    ("kind_0_with_share", HEAD + race(60, 40, kind=0, p=1, q=2) + OPEN, "refused 5 file 1 at 19"),
    ("kind_4_with_share", HEAD + race(60, 40, kind=4, p=1, q=2) + OPEN, "refused 5 file 1 at 19"),
    ("kind_255", HEAD + race(60, 40, kind=255) + OPEN, "refused 5 file 1 at 19"),
    ("kind_2", HEAD + race(60, 40, kind=2) + OPEN, OK),
    ("kind_3", HEAD + share(2, 3, 72, 18) + OPEN, OK),
    ("candidates_0", HEAD + contest(c=0) + OPEN, "refused 5 file 1 at 19"),
    ("candidates_1", HEAD + contest(c=1) + ADAMS + OPEN, "refused 5 file 1 at 19"),
    ("candidates_32", HEAD + clear_win(32, 1) + OPEN, OK),
    ("candidates_33", HEAD + clear_win(33, 1) + OPEN, "refused 5 file 1 at 19"),
    ("share_candidates_1", HEAD + share(1, 2, 60) + OPEN, "refused 5 file 1 at 19"),
    ("share_candidates_32", HEAD + share(1, 2, *([1] + [0] * 31)) + OPEN, OK),
    ("share_candidates_33", HEAD + share(1, 2, *([1] + [0] * 32)) + OPEN, "refused 5 file 1 at 19"),
    ("seats_0", HEAD + race(50, 30, 20, seats=0) + OPEN, "refused 5 file 1 at 19"),
    ("seats_c_less_1", HEAD + race(50, 30, 20, seats=2) + OPEN, OK),
    ("seats_c", HEAD + race(50, 30, 20, seats=3) + OPEN, "refused 5 file 1 at 19"),
    ("approval_seats_0", HEAD + race(50, 30, 20, kind=2, seats=0) + OPEN, "refused 5 file 1 at 19"),
    ("approval_seats_c_less_1", HEAD + race(50, 30, 20, kind=2, seats=2) + OPEN, OK),
    ("approval_seats_c", HEAD + race(50, 30, 20, kind=2, seats=3) + OPEN, "refused 5 file 1 at 19"),
    ("plurality_with_p", HEAD + race(60, 40, p=1) + OPEN, "refused 5 file 1 at 19"),
    ("plurality_with_q", HEAD + race(60, 40, q=1) + OPEN, "refused 5 file 1 at 19"),
    ("plurality_with_half", HEAD + race(60, 40, p=1, q=2) + OPEN, "refused 5 file 1 at 19"),
    ("approval_with_p", HEAD + race(60, 40, kind=2, p=256) + OPEN, "refused 5 file 1 at 19"),
    ("approval_with_q", HEAD + race(60, 40, kind=2, q=256) + OPEN, "refused 5 file 1 at 19"),
    ("share_0_0", HEAD + share(0, 0, 60, 40) + OPEN, "refused 5 file 1 at 19"),
    ("share_p_equals_q", HEAD + share(3, 3, 60, 40) + OPEN, "refused 5 file 1 at 19"),
    ("share_p_above_q", HEAD + share(3, 2, 60, 40) + OPEN, "refused 5 file 1 at 19"),
    ("share_a_half", HEAD + share(1, 2, 60, 40) + OPEN, OK),
    ("share_below_a_half", HEAD + share(2, 5, 60, 40) + OPEN, "refused 5 file 1 at 19"),
    ("share_2p_one_below_q", HEAD + share(1, 3, 60, 40) + OPEN, "refused 5 file 1 at 19"),
    ("share_q_1000", HEAD + share(500, 1000, 60, 40) + OPEN, OK),
    ("share_q_1001", HEAD + share(501, 1001, 60, 40) + OPEN, "refused 5 file 1 at 19"),
    ("share_999_of_1000", HEAD + share(999, 1000, 100, 0) + OPEN, OK),
    ("share_not_in_lowest_terms", HEAD + share(4, 6, 72, 18) + OPEN, OK),
    ("share_2_seats", HEAD + race(60, 30, 10, kind=3, seats=2, p=1, q=2) + OPEN, "refused 5 file 1 at 19"),
    ("share_0_seats", HEAD + race(60, 40, kind=3, seats=0, p=1, q=2) + OPEN, "refused 5 file 1 at 19"),
    ("contests_8", HEAD + race(60, 40) * 8 + OPEN, OK),
    ("contests_9", HEAD + race(60, 40) * 9 + OPEN, "refused 5 file 1 at 259"),
    ("contests_of_each_kind", HEAD + race(60, 40) + race(60, 40, kind=2) + share(1, 2, 60, 40) + OPEN, OK),
    ("second_contest_bad", HEAD + race(60, 40) + contest(seats=2) + ADAMS + BAKER + OPEN, "refused 5 file 1 at 49"),
    # --- assertions
    ("assertions_256_in_one", HEAD + clear_win(32, 16) + OPEN, OK),
    ("assertions_256_in_eight", HEAD + clear_win(12, 4) * 8 + OPEN, OK),
    ("assertions_257", HEAD + clear_win(32, 16) + race(60, 40) + OPEN, "refused 6 file 1 at 379"),
    ("assertions_257_by_share", HEAD + clear_win(32, 16) + share(1, 2, 60, 40) + OPEN, "refused 6 file 1 at 379"),
    ("assertions_257_by_approval", HEAD + clear_win(32, 16) + race(60, 40, kind=2) + OPEN, "refused 6 file 1 at 379"),
    ("assertions_512", HEAD + clear_win(32, 16) * 2 + OPEN, "refused 6 file 1 at 379"),
    ("bad_operand_before_257", HEAD + clear_win(32, 16) + contest(c=33, seats=16), "refused 5 file 1 at 379"),
    ("ninth_before_257", HEAD + clear_win(12, 4) * 8 + race(60, 40) + OPEN, "refused 5 file 1 at 1139"),
    # --- votes above what the cards can give
    ("votes_n", HEAD + race(100, 0) + OPEN, OK),
    ("votes_n_plus_1_first", HEAD + race(101, 0) + OPEN, "refused 7 file 1 at 27"),
    ("votes_n_plus_1_last", HEAD + race(0, 101) + OPEN, "refused 7 file 1 at 38"),
    ("votes_n_plus_1_middle", HEAD + race(50, 101, 0, seats=2) + OPEN, "refused 7 file 1 at 38"),
    ("votes_n_plus_1_approval", HEAD + race(101, 0, kind=2) + OPEN, "refused 7 file 1 at 27"),
    ("votes_n_plus_1_share", HEAD + share(1, 2, 101, 0) + OPEN, "refused 7 file 1 at 27"),
    ("votes_n_plus_1_at_the_end_of_the_file", HEAD + C + candidate(101), "refused 7 file 1 at 27"),
    ("votes_high_byte", batch(256) + T + race(257, 0) + OPEN, "refused 7 file 1 at 27"),
    ("sum_n_plus_1_plurality", HEAD + race(61, 40) + OPEN, "refused 7 file 1 at 38"),
    ("sum_2n_plurality", HEAD + race(90, 80, 30, seats=2) + OPEN, OK),
    ("sum_2n_plus_1_plurality", HEAD + race(90, 80, 31, seats=2) + OPEN, "refused 7 file 1 at 49"),
    ("sum_n_share", HEAD + share(2, 3, 72, 28) + OPEN, OK),
    ("sum_n_plus_1_share", HEAD + share(2, 3, 72, 29) + OPEN, "refused 7 file 1 at 38"),
    ("sum_above_n_approval", HEAD + race(90, 80, kind=2) + OPEN, OK),
    ("sum_above_2n_approval", HEAD + race(100, 100, 99, kind=2, seats=2) + OPEN, OK),
    ("sum_65536", batch(65535) + T + race(65535, 1) + OPEN, "refused 7 file 1 at 38"),
    ("sum_31_times_65535", batch(65535) + T + race(*([65535] * 31 + [0]), seats=31) + OPEN, OK),
    ("sum_31_times_65535_plus_1", batch(65535) + T + race(*([65535] * 31 + [1]), seats=31) + OPEN,
     "refused 7 file 1 at 368"),
    ("sum_approval_largest", batch(65535) + T + race(*([65535] * 31 + [65534]), kind=2, seats=31) + OPEN, OK),
    ("second_contest_sum", HEAD + race(60, 40) + race(61, 40) + OPEN, "refused 7 file 1 at 68"),
    ("sums_start_anew", HEAD + race(100, 0) + race(0, 100) + OPEN, OK),
    # --- no reported winners
    ("tie", HEAD + race(50, 50) + OPEN, "refused 8 file 1 at 38"),
    ("tie_for_the_last_seat", HEAD + race(50, 30, 30, seats=2) + OPEN, "refused 8 file 1 at 49"),
    ("tie_of_three_for_two_seats", HEAD + race(40, 40, 40, 10, seats=2) + OPEN, "refused 8 file 1 at 60"),
    ("tie_for_the_last_seat_approval", HEAD + race(90, 80, 80, kind=2, seats=2) + OPEN, "refused 8 file 1 at 49"),
    ("tie_among_winners", HEAD + race(50, 50, 10, seats=2) + OPEN, OK),
    ("tie_among_losers", HEAD + race(50, 20, 20) + OPEN, OK),
    ("winner_last", HEAD + race(20, 30, 50) + OPEN, OK),
    ("no_votes_plurality", HEAD + race(0, 0) + OPEN, "refused 8 file 1 at 38"),
    ("no_votes_approval", HEAD + race(0, 0, 0, kind=2, seats=2) + OPEN, "refused 8 file 1 at 49"),
    ("no_votes_share", HEAD + share(1, 2, 0, 0) + OPEN, "refused 8 file 1 at 38"),
    ("share_60_of_90", HEAD + share(2, 3, 60, 30) + OPEN, "refused 8 file 1 at 38"),
    ("share_61_of_90", HEAD + share(2, 3, 61, 29) + OPEN, OK),
    ("share_61_of_90_last", HEAD + share(2, 3, 29, 61) + OPEN, OK),
    ("share_half_of_100", HEAD + share(1, 2, 50, 50) + OPEN, "refused 8 file 1 at 38"),
    ("share_51_of_100", HEAD + share(1, 2, 51, 49) + OPEN, OK),
    ("share_nobody_above", HEAD + share(1, 2, 40, 35, 25) + OPEN, "refused 8 file 1 at 49"),
    ("share_99_of_100_at_999", HEAD + share(999, 1000, 99, 1) + OPEN, "refused 8 file 1 at 38"),
    ("share_large_above", batch(65535) + T + share(501, 1000, 32834, 32701) + OPEN, OK),
    ("share_large_below", batch(65535) + T + share(501, 1000, 32833, 32702) + OPEN, "refused 8 file 1 at 38"),
    ("second_contest_tie", HEAD + race(60, 40) + race(50, 50) + OPEN, "refused 8 file 1 at 68"),
    ("tie_at_the_end_of_the_file", HEAD + race(50, 50), "refused 8 file 1 at 38"),
    # --- 7 before 8 at the last candidate
    ("votes_before_winners", HEAD + race(0, 0, 101) + OPEN, "refused 7 file 1 at 49"),
    ("sum_before_winners", HEAD + race(51, 51) + OPEN, "refused 7 file 1 at 38"),
    ("sum_before_share", HEAD + share(2, 3, 60, 41) + OPEN, "refused 7 file 1 at 38"),
    # --- bytes after 0x05
    ("trailing_00", EXAMPLE + b"\x00", "refused 9 file 1 at 50"),
    ("trailing_open", EXAMPLE + OPEN, "refused 9 file 1 at 50"),
    ("trailing_batch", EXAMPLE + B, "refused 9 file 1 at 50"),
    ("trailing_contest", EXAMPLE + race(60, 40) + OPEN, "refused 9 file 1 at 50"),
    ("trailing_contest_byte", EXAMPLE + b"\x03", "refused 9 file 1 at 50"),
    ("trailing_draws_verdict", EXAMPLE + b"\x12", "refused 9 file 1 at 50"),
    ("trailing_newline", EXAMPLE + b"\n", "refused 9 file 1 at 50"),
    ("trailing_second_setup", EXAMPLE + EXAMPLE, "refused 9 file 1 at 50"),
    ("trailing_1000", EXAMPLE + bytes(1000), "refused 9 file 1 at 50"),
    ("trailing_up_to_65536", EXAMPLE + b"\xff" * 65486, "refused 9 file 1 at 50"),
    # --- the longest setup: 200 batches, 8 contests of 32 candidates
    ("longest", batch(1) * 200 + T + clear_win(32, 1) * 8 + OPEN, OK),
    ("longest_and_a_byte", batch(1) * 200 + T + clear_win(32, 1) * 8 + OPEN + OPEN, "refused 9 file 1 at 5089"),
    # --- no file, which is as an empty one, and one that is too long
    ("missing", None, "refused 1 file 1 at 0"),
    ("longer_than_65536", bytes(LIMIT + 1), "file too long"),
]

# What the program prints of the example, in lists with few places.
PLACES = [
    ("just enough", OK),
    ("no place for the batch", "refused 10 file 1 at 0"),
    ("no place for the contest", "refused 10 file 1 at 19"),
    ("no place for the second candidate", "refused 10 file 1 at 38"),
]

# ---------------------------------------------------------------- pairs of files

VERDICT, ESCALATE, CLOSE = b"\x12", b"\x13", b"\x15"

DRAWS = {
    "verdict": VERDICT,
    "verdict_then_count": VERDICT + b"\x14",
    "count_first": b"\x14",
    "entry_then_count": entry(1) + b"\x14",
    "second_entry_cut": entry(1) + b"\x11",
    "entries_18": entry(1) * 18,
    "entry_then_verdict": entry(1) + VERDICT,
    "entry_twice": entry(1) * 2,
    "escalate_twice": ESCALATE + ESCALATE,
    "close_uncounted": ESCALATE + CLOSE,
    "count_of_place_2": ESCALATE + count(2),
    "place_0": entry(0, found=2),
    "verdict_then_place_101": VERDICT + entry(101, found=0),
    "found_2": entry(1, found=2, marks=4),
    "mark_for_nobody": entry(1, marks=4),
    "mark_on_a_missing_card": entry(1, found=0),
}

TOO_LONG = "file too long"
AT_THE_START = ["contest 1 risk 1000", "draws 0", "continue"]

AUDITS = [
    # --- a file that is missing, too long, or just not too long
    ("example", "missing", []),
    ("missing", "missing", ["refused 1 file 1 at 0"]),
    ("missing", "verdict", ["refused 1 file 1 at 0"]),
    ("example", "longer_than_65536", [TOO_LONG]),
    ("longer_than_65536", "verdict", [TOO_LONG]),
    ("longer_than_65536", "missing", [TOO_LONG]),
    ("longer_than_65536", "longer_than_65536", [TOO_LONG]),
    ("tie", "longer_than_65536", [TOO_LONG]),
    ("missing", "longer_than_65536", [TOO_LONG]),
    ("example", "trailing_up_to_65536", ["refused 2 file 2 at 0"]),
    ("trailing_up_to_65536", "verdict", ["refused 9 file 1 at 50"]),
    # --- as many records as there can be assertions
    ("assertions_256_in_one", "missing", []),
    # --- a refused setup, whatever the draws are
    ("tie", "verdict", ["refused 8 file 1 at 38"]),
    ("tie", "count_first", ["refused 8 file 1 at 38"]),
    # --- answers, and then the fault
    ("example", "verdict", AT_THE_START),
    ("example", "verdict_then_count", AT_THE_START + ["refused 2 file 2 at 1"]),
    ("example", "verdict_then_place_101", AT_THE_START + ["refused 11 file 2 at 1"]),
    ("example", "count_first", ["refused 2 file 2 at 0"]),
    ("example", "entry_then_count", ["refused 2 file 2 at 36"]),
    ("example", "second_entry_cut", ["refused 1 file 2 at 36"]),
    ("example", "entries_18", ["refused 14 file 2 at 612"]),
    ("draws_1", "entry_then_verdict", ["contest 1 risk 834", "draws 1", "full hand count"]),
    ("draws_1", "entry_twice", ["refused 14 file 2 at 36"]),
    ("example", "escalate_twice", ["refused 2 file 2 at 1"]),
    ("example", "close_uncounted", ["refused 16 file 2 at 1"]),
    ("example", "count_of_place_2", ["refused 15 file 2 at 1"]),
    ("example", "place_0", ["refused 11 file 2 at 0"]),
    ("example", "found_2", ["refused 12 file 2 at 0"]),
    ("example", "mark_for_nobody", ["refused 13 file 2 at 0"]),
    ("example", "mark_on_a_missing_card", ["refused 13 file 2 at 0"]),
]

# Both files of a folder of examples/, and what their audit prints.
EXAMPLES = [
    (
        "by-hand",
        ["contest 1 risk 625", "contest 2 risk 834", "draws 1", "continue"]
        + ["contest 1 risk 625", "contest 2 risk 834", "draws 3", "full hand count"]
        + ["contest 1 upheld", "contest 2 not upheld"],
    ),
]

# What the program says of a folder, and of a path that leads through a file.
PATHS = [".: cannot be read\n", "example.bin/setup.bin: cannot be read\n"]


def write(path, file):
    with open(path, "wb") as out:
        out.write(file)


def example(name, file):
    top = os.path.dirname(os.path.dirname(os.path.abspath(__file__)))
    with open(os.path.join(top, "examples", name, file + ".bin"), "rb") as found:
        return found.read()


def main(folder):
    data = os.path.join(folder, "data")
    os.makedirs(data, exist_ok=True)
    names = set()
    lines = []
    for name, file, expected in CASES:
        assert name not in names, name
        names.add(name)
        here = answer(file or b"")
        assert here == expected, (name, here, expected)
        if file is not None:
            write(os.path.join(data, name + ".bin"), file)
        lines.append(f"{name}\t{expected}\n")
    pairs = []
    audits = []
    for name, file in DRAWS.items():
        assert name not in names, name
        names.add(name)
        write(os.path.join(data, name + ".bin"), file)
    audited = list(AUDITS)
    for name, printed in EXAMPLES:
        here = [f"{name}-{file}" for file in ("setup", "draws")]
        for file, file_name in zip(("setup", "draws"), here):
            assert file_name not in names, file_name
            names.add(file_name)
            write(os.path.join(data, file_name + ".bin"), example(name, file))
        audited.append((*here, printed))
    for setup, draws, printed in audited:
        assert setup in names and draws in names, (setup, draws)
        pairs.append(f"{setup}\t{draws}\n")
        audits.append(f"{setup} with {draws}\n" + "".join(line + "\n" for line in printed))
    places = [f"{name}\t{expected}\n" for name, expected in PLACES]
    write(os.path.join(data, "cases.txt"), "".join(lines).encode())
    write(os.path.join(data, "audits.txt"), "".join(pairs).encode())
    write(os.path.join(folder, "stdout"), "".join(lines + places + audits + PATHS).encode())
    accepted = sum(1 for case in CASES if case[2] == OK)
    print(f"{len(CASES)} cases, {accepted} accepted, {len(CASES) - accepted} not; {len(audited)} audits")


if __name__ == "__main__":
    if len(sys.argv) != 2:
        sys.exit("usage: make_cases.py FOLDER")
    main(sys.argv[1])
