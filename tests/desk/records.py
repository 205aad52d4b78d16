#!/usr/bin/env python3
"""Writes record files for the printing program, and what it is to print of them.

    records.py example         the records of RULES 13.7
    records.py every           every form accepted, and every refusal from 2 to 24
    records.py example printed what the program prints of them
    records.py every printed

Each entry is a record, with the answer and the rows that the rules give it.
"""
import sys

WIDTHS = {
    "form": 5, "minute": 11, "security": 14, "currency": 2,
    "debited_member": 10, "debited_type": 8, "credited_member": 10, "credited_type": 8,
    "debited_shareholder": 30, "credited_shareholder": 30, "quantity": 40, "amount": 40,
    "trade_day": 16, "settlement_day": 16, "reference": 32,
    "operation": 3, "original": 32, "edition": 1, "zero": 12,
}
MOST = 2**40 - 1
USD = 1
LBP = 2


def record(**fields):
    """The 40 bytes of a record; a field that is not named is 0."""
    bits = 0
    for name, width in WIDTHS.items():
        bits = bits << width | fields.pop(name, 0)
    assert not fields, fields
    return bits.to_bytes(40, "big")


def side(name, party):
    """The debited or the credited member, type and shareholder."""
    return {f"{name}_{part}": value for part, value in zip(("member", "type", "shareholder"), party)}


def open_day(minute, kind):
    return record(form=1, minute=minute, quantity=kind)


def admit(minute, security, quantity):
    return record(form=2, minute=minute, security=security, quantity=quantity)


def deposit(minute, security, quantity, to, **more):
    return record(form=3, minute=minute, security=security, quantity=quantity, **side("credited", to), **more)


def withdraw(minute, security, quantity, of):
    return record(form=4, minute=minute, security=security, quantity=quantity, **side("debited", of))


def move(form, minute, quantity, of, to, settlement_day=1):
    """Transfer 5, pledge 6, release 7, block 8, unblock 9, in security 101."""
    return record(form=form, minute=minute, security=101, quantity=quantity, settlement_day=settlement_day,
                  **side("debited", of), **side("credited", to))


def pay_in(minute, member, amount):
    return record(form=10, minute=minute, currency=USD, credited_member=member, amount=amount)


def pay_out(minute, member, amount):
    return record(form=11, minute=minute, currency=USD, debited_member=member, amount=amount)


def trade(form, minute, of, to, quantity, amount, days, reference, currency=USD):
    """Deliver 12, receive 13, exchange trade 14, in security 101; a type that a form does not use is 0."""
    return record(form=form, minute=minute, security=101, currency=currency, quantity=quantity, amount=amount,
                  trade_day=days[0], settlement_day=days[1], reference=reference,
                  **side("debited", of), **side("credited", to))


def deliver(minute, quantity, amount, reference, days=(1, 1), of=(7, 20, 5), to=(8, 0, 5), currency=USD):
    return trade(12, minute, of, to, quantity, amount, days, reference, currency)


def receive(minute, quantity, amount, reference, days=(1, 1), of=(7, 0, 5), to=(8, 20, 5), currency=USD):
    return trade(13, minute, of, to, quantity, amount, days, reference, currency)


def exchange(minute, quantity, amount, reference, days=(1, 4), of=(7, 20, 5), to=(8, 20, 6)):
    return trade(14, minute, of, to, quantity, amount, days, reference)


def cancel(minute, sender, reference):
    return record(form=15, minute=minute, debited_member=sender, reference=reference)


def cycle(minute):
    return record(form=16, minute=minute)


def answer(minute, quantity, **more):
    """Confirms the cycle that is sent (1), or declines it (2)."""
    return record(form=21, minute=minute, quantity=quantity, **more)


def close(minute):
    return record(form=17, minute=minute)


def set_rate(minute, rate, **more):
    return record(form=18, minute=minute, quantity=rate, **more)


def request(minute, quantity, of, reference, security=101, **more):
    return record(form=19, minute=minute, security=security, quantity=quantity, reference=reference, **side("debited", of), **more)


def end_request(minute, sender, into, reference, **more):
    return record(form=20, minute=minute, debited_member=sender, credited_type=into, reference=reference, **more)


def example_records():
    holder = (7, 20, 5)
    return [
        (open_day(470, 1), 0, 0),
        (admit(500, 101, 1000), 0, 2),
        (deposit(540, 101, 400, holder), 0, 2),
        (withdraw(541, 101, 401, holder), 16, 0),
    ]


def day_and_reading():
    holder = (7, 20, 5)
    return [
        (admit(500, 101, 1000), 6, 0),  # no day is open
        (set_rate(480, 150_000), 6, 0),
        (request(540, 1, holder, 1), 6, 0),
        (end_request(540, 7, 120, 1), 6, 0),
        (answer(590, 1), 6, 0),
        (open_day(481, 1), 9, 0),  # form 1 has until 480
        (open_day(470, 3), 5, 0),  # there is no day kind 3
        (open_day(470, 1), 0, 0),
        (open_day(471, 1), 6, 0),  # a day is open
        (record(form=0, minute=480), 3, 0),
        (record(form=22, minute=480), 3, 0),
        (deposit(540, 101, 400, holder, reference=1), 4, 0),  # a deposit has no reference
        (request(540, 0, holder, 1, credited_type=50), 4, 0),  # where requests lead is not said
        (end_request(540, 7, 120, 0, quantity=1), 4, 0),  # nor how much an ending moves
        (record(form=16, minute=540, zero=1), 4, 0),  # the last 12 bits are no field
        (deposit(540, 101, 0, holder), 5, 0),
        (request(540, 0, holder, 1), 5, 0),
        (end_request(540, 7, 120, 0), 5, 0),
        (cycle(1440), 5, 0),  # the day has 1,440 minutes
        (answer(590, 0), 5, 0),
        (answer(590, 3), 5, 0),  # 1 confirms, 2 declines
        (answer(590, 3, security=101), 4, 0),
        (set_rate(480, 0), 5, 0),
        (set_rate(480, 0, amount=1), 4, 0),  # a rate has no amount
        (set_rate(469, 150_000), 8, 0),  # the day was opened at 470
        (set_rate(479, 150_000), 9, 0),  # rates from 480
        (request(469, 1, holder, 1), 8, 0),
        (end_request(469, 7, 120, 1), 8, 0),
        (request(509, 1, holder, 1), 9, 0),  # requests and endings from 510
        (end_request(509, 7, 120, 1), 9, 0),
        (close(500), 7, 0),  # no cycle has run
        (answer(400, 1), 23, 0),  # and none is sent
    ]


def holdings():
    holder, other = (7, 20, 5), (8, 20, 5)
    pledged, blocked = (7, 21, 5), (7, 22, 5)
    return [
        (admit(500, 101, 1000), 0, 2),
        (admit(499, 102, 1000), 8, 0),  # before the last accepted call
        (deposit(505, 101, 400, holder), 9, 0),  # deposits start at 510
        (admit(505, 101, 1000), 10, 0),  # admitted already
        (deposit(540, 999, 400, holder), 10, 0),  # never admitted
        (deposit(540, 101, 400, (7, 21, 5)), 11, 0),  # 21 is no free type
        (deposit(540, 101, 400, holder), 0, 2),
        (deposit(541, 101, 601, holder), 16, 0),  # 600 are outside
        (withdraw(541, 101, 401, holder), 16, 0),
        (withdraw(542, 101, 50, holder), 0, 2),
        (move(5, 543, 100, holder, other), 0, 2),
        (move(5, 543, 100, holder, holder), 12, 0),  # both sides are one account
        (move(5, 543, 100, holder, (8, 20, 6)), 12, 0),  # the shareholders differ
        (move(5, 543, 100, holder, other, settlement_day=2), 13, 0),  # not today
        (move(6, 544, 50, holder, pledged), 0, 2),
        (move(6, 544, 50, (7, 110, 5), (7, 121, 5)), 11, 0),
        (move(6, 544, 50, holder, (8, 21, 5)), 12, 0),  # the members differ
        (move(7, 545, 20, pledged, holder), 0, 2),
        (move(8, 546, 10, holder, blocked), 0, 2),
        (move(9, 547, 10, blocked, holder), 0, 2),
        (pay_in(548, 8, 500_000), 0, 2),
        (pay_out(549, 8, 500_001), 16, 0),
        (pay_out(549, 8, 1), 0, 2),
    ]


def trades():
    return [
        (deliver(560, 60, 60_000, 31), 0, 0),
        (deliver(560, 10, 10_000, 31), 14, 0),  # 7 has 31 waiting
        (deliver(560, 10, 10_000, 35, to=(7, 0, 5)), 12, 0),  # the members are equal
        (deliver(560, 10, 10_000, 35, days=(1, 22)), 13, 0),  # more than 20 days on
        (cancel(560, 7, 31), 15, 0),  # a single
        (cancel(560, 7, 99), 14, 0),  # none such
        (receive(561, 60, 61_000, 32), 0, 0),  # pairs with 31
        (cancel(562, 7, 31), 0, 0),  # the first half
        (cancel(562, 7, 31), 15, 0),  # marked already
        (cancel(563, 8, 32), 0, 1),  # the second half
        (deliver(564, 60, 60_000, 33), 0, 0),
        (receive(565, 60, 61_000, 34), 0, 0),
        (deliver(566, 10, 10_000, 35), 0, 0),  # waits for its close
        (exchange(567, 5, 5_000, 41), 0, 0),
        (exchange(567, 5, 5_000, 42, days=(1, 5)), 13, 0),  # not trade day + 3
        (cycle(584), 9, 0),
        (cycle(585), 0, 0),  # 33 and 34 are sent
        *between_cycle_and_answer(),
        (answer(590, 2), 0, 0),  # declined, 33 and 34 wait
        (answer(590, 1), 23, 0),
        (cycle(705), 0, 0),  # sent again
        (answer(706, 1), 0, 4),  # 33 and 34 settle
        (cycle(825), 0, 0),  # nothing is due, and it is sent too
        (cycle(826), 7, 0),  # three have run
        (close(960), 22, 0),
        (answer(825, 1), 0, 0),
        (deliver(826, 10, 10_000, 36), 9, 0),  # to settle today: until 825
        (cycle(826), 7, 0),
    ]


def between_cycle_and_answer():
    """Member 7 has 220 shares in 7/20/5 and gives 60: it offers 160."""
    holder, other = (7, 20, 5), (7, 10, 5)
    return [
        (pay_in(100, 8, 1), 22, 0),  # at any minute
        (pay_out(586, 8, 1), 22, 0),
        (cycle(705), 22, 0),
        (close(960), 7, 0),  # two are still to run
        (withdraw(586, 101, 161, holder), 16, 0),
        (move(5, 586, 160, holder, other), 0, 2),
        (request(586, 1, holder, 1), 16, 0),  # 60 are left, and go
        (move(5, 587, 160, other, holder), 0, 2),
        (cancel(587, 7, 33), 24, 0),  # sent
        (cancel(587, 8, 34), 24, 0),
        (cancel(587, 7, 35), 15, 0),  # a single
        (deliver(587, 1, 1_000, 33), 14, 0),  # 33 still waits
        (answer(586, 1), 8, 0),
        (answer(961, 1), 9, 0),  # two are still to run
    ]


def pounds():
    """LBP instructions at both ends of 20 times the rate. A cancel shows whether they have paired: of a single it is refused."""
    terms = {"days": (1, 2), "currency": LBP}
    return [
        (deliver(826, 10, 100_000, 51, **terms), 0, 0),
        (set_rate(826, 150_000), 0, 0),
        (receive(826, 10, 3_100_001, 52, **terms), 0, 0),  # 3,000,001 above 51: waits
        (cancel(826, 7, 51), 15, 0),
        (set_rate(827, 150_001), 0, 0),  # 3,000,020 are allowed now
        (cancel(827, 7, 51), 15, 0),  # a rate pairs nothing that waits
        (receive(827, 10, 3_100_021, 53, **terms), 0, 0),  # 3,000,021 above 51: waits
        (cancel(827, 7, 51), 15, 0),
        (receive(827, 10, 3_100_020, 54, **terms), 0, 0),  # 3,000,020 above 51: pairs
        (cancel(827, 7, 51), 0, 0),
        (cancel(827, 8, 54), 0, 1),
        (deliver(828, 10, 3_100_022, 55, **terms), 0, 0),  # 53 offers 1 less: waits
        (cancel(828, 7, 55), 15, 0),
        (deliver(828, 10, 3_100_021, 56, **terms), 0, 0),  # 53 offers as much: pairs
        (cancel(828, 8, 53), 0, 0),
        (cancel(828, 7, 56), 0, 1),
        (deliver(829, 10, 99_981, 57, **terms), 0, 0),  # 52 offers 3,000,020 more: pairs
        (cancel(829, 8, 52), 0, 0),
        (cancel(829, 7, 57), 0, 1),
        (receive(829, 10, 3_100_022, 58, **terms), 0, 0),  # as much as 55: pairs
        (cancel(829, 7, 55), 0, 0),
        (cancel(829, 8, 58), 0, 1),
    ]


def paper():
    """Sixteen requests, one of another member, one from type 10, one under a reference that waits."""
    holder, other, third = (7, 20, 5), (8, 20, 5), (7, 10, 5)
    return [
        (request(829, 1, holder, 1, security=999), 10, 0),
        (request(829, 1, (7, 21, 5), 1), 11, 0),  # pledged
        (request(829, 161, holder, 1), 16, 0),  # 160 are there
        (end_request(829, 7, 91, 1), 19, 0),  # none such
        (request(829, 10, holder, 1), 0, 2),
        (request(829, 161, holder, 1), 19, 0),  # 7 has 1 open
        (request(829, 5, other, 1), 0, 2),  # 8 has not
        (request(829, 1, holder, 35), 0, 2),  # 35 waits besides
        (cancel(829, 8, 1), 14, 0),  # a request cannot be cancelled
        (deposit(829, 101, 20, third), 0, 2),
        (request(829, 4, third, 36), 0, 2),
        (request(829, 1, (7, 50, 5), 37), 11, 0),
        (withdraw(829, 101, 1, (7, 50, 5)), 11, 0),
        (end_request(829, 7, 120, 1), 20, 0),  # of today
        (end_request(829, 7, 110, 1), 19, 0),  # it came from 20
        (end_request(829, 7, 120, 36), 19, 0),  # it came from 10
        (end_request(829, 8, 110, 36), 19, 0),  # it is 7's
        (end_request(829, 8, 20, 36), 11, 0),  # no request leads to 20
        *[(request(829, 1, holder, 300 + n), 0, 2) for n in range(12)],
        (request(829, 161, other, 2), 21, 0),  # sixteen are open
        (request(829, 1, other, 1), 19, 0),
    ]


def full_tables():
    securities = [(admit(830, code, 1), 0, 2) for code in range(102, 133)]
    items = [(deliver(840, 1, 1_000, 100 + n, days=(1, 21)), 0, 0) for n in range(62)]
    accounts = [(deposit(841, 101, 2, (1 + n % 64, 10, 1_000 + n)), 0, 2) for n in range(186)]
    cash = [(pay_in(900, 1 + n % 64, MOST), 0, 2) for n in range(909)]
    return [
        *securities,
        (admit(830, 133, 1), 18, 0),  # 32 are admitted
        *items,
        (deliver(840, 1, 1_000, 200, days=(1, 21)), 18, 0),  # 64 wait
        *accounts,
        (deposit(841, 101, 2, (9, 10, 9)), 18, 0),  # 192 accounts besides, and 16 requests that do not count
        (request(871, 1, (7, 20, 5), 2), 9, 0),  # until 870
        (end_request(871, 7, 120, 1), 9, 0),
        *cash,
        (pay_in(900, 1, MOST), 17, 0),  # the ceiling of the currency's total
    ]


def paper_in_full_book():
    """The day after: what empties an account may open another, and the last request under a reference counts."""
    small, other = (1, 10, 1_000), (2, 10, 1_001)
    return [
        (end_request(510, 7, 120, 1), 18, 0),  # a rest stays in type 50
        (end_request(510, 7, 91, 35), 0, 2),  # to the outside there is always room
        (request(510, 1, small, 7), 18, 0),  # a rest stays in type 10
        (request(510, 2, small, 7), 0, 2),
        (request(510, 2, other, 8), 21, 0),  # sixteen again
        (end_request(510, 1, 110, 7), 20, 0),
        (end_request(510, 8, 120, 1), 0, 2),  # nothing stays in 8's type 50
        (end_request(510, 7, 110, 36), 18, 0),
        (withdraw(511, 101, 2, other), 0, 2),
        (end_request(511, 7, 110, 36), 0, 2),
        (request(511, 3, (7, 10, 5), 36), 0, 2),  # 36 is free again
        (end_request(511, 7, 91, 36), 20, 0),
        (end_request(751, 7, 91, 35), 9, 0),  # on a Friday until 750
    ]


def last_days():
    tail = b"\x08" * 17
    terms = {"days": (2, 3), "currency": LBP}
    return [
        (set_rate(961, 150_000), 9, 0),  # rates until 960
        (close(959), 9, 0),
        (close(960), 0, 1),  # 35 is deleted
        (open_day(400, 2), 0, 0),
        (deliver(480, 1, 1_000, 61, **terms), 0, 0),
        (receive(480, 1, 3_001_021, 62, **terms), 18, 0),  # 64 wait, and at 150,001 it is 1 too much
        (receive(480, 1, 3_001_020, 62, **terms), 0, 0),  # pairs, as the rate outlasts the night
        *paper_in_full_book(),
        (cycle(585), 0, 0),
        (answer(901, 1), 9, 0),  # on a Friday until 900
        (answer(585, 1), 0, 0),
        (cycle(705), 0, 0),
        (set_rate(901, 150_000), 9, 0),  # on a Friday until 900
        (set_rate(900, MOST), 0, 0),
        (close(900), 22, 0),
        (answer(1_200, 2), 0, 0),  # both have run
        (set_rate(1_199, 1), 8, 0),
        (close(1_200), 0, 0),
        (open_day(470, 1), 0, 0),
        (end_request(510, 7, 91, 36), 0, 2),  # 3 leave, as its second request says
        (end_request(510, 7, 91, 36), 19, 0),
        (end_request(510, 7, 91, 311), 0, 2),  # two days after its request
        (tail, 2, 0),  # 17 bytes are left
    ]


def every():
    return day_and_reading() + holdings() + trades() + pounds() + paper() + full_tables() + last_days()


# code, issued, held, outside of each security
CUSTODY = {
    example_records: [(101, 1000, 400, 600)],
    every: [(101, 1000, 735, 265)] + [(code, 1, 0, 1) for code in range(102, 133)],
}


def main(which, what="records"):
    example = {"example": example_records, "every": every}[which]
    if what == "printed":
        for number, (_, answer, rows) in enumerate(example(), 1):
            print(number, answer, rows)
        for line in CUSTODY[example]:
            print("CUSTODY %d ISSUED %d HELD %d OUTSIDE %d" % line)
    else:
        sys.stdout.buffer.write(b"".join(octets for octets, _, _ in example()))


main(*sys.argv[1:])
