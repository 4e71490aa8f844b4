"""An exhaustive search for an order of writes, on a hart whose configuration bytes are all in one register.

A move is one write: of an address that ends a block or a range of grains, of mseccfg, or of all configuration bytes at
once, each of them kept, off, without rights, or with a rule that the registers at first or the plan have. The
registers after each move have to be safe, and the last ones meet the plan."""
import heapq
import itertools

from plan_model import (LOCKED, MML, MMWP, NA4, NAPOT, OFF, RLB, TOR, Registers, default_rights, rule_rights, rules,
                        starts_of, unmet)


def packed(pair):
    machine, others = pair
    return machine | others << 3


class Orders:
    def __init__(self, start, plan, keep, while_m, most):
        self.start, self.plan, self.hart, self.most = start, plan, start.hart, most
        self.addresses = self.all_addresses()
        ways = (TOR, NAPOT) if self.hart.grain > 4 else (TOR, NA4, NAPOT)
        self.choices = self.all_bytes(ways)
        self.cells = starts_of(plan, [self.registers((address,), (how << 3,), 0)
                                      for address in self.addresses for how in ways])
        self.everything = (1 << len(self.cells)) - 1
        self.masks = {}
        self.spread = {pair: sum(1 << place * len(self.cells) for place in range(6) if pair >> place & 1)
                       for pair in range(64)}
        before = [packed(pair) for pair, _ in start.gives(self.cells)]
        after = [packed(plan.cell_of(byte)[0]) for byte in self.cells]
        watched = 7 if while_m else 63
        self.goal = self.joined(after)
        self.closed = self.joined([~(one | other) & watched for one, other in zip(before, after)])
        self.open = self.joined([one & other & watched if keep else 0 for one, other in zip(before, after)])

    def joined(self, rights):
        """Rights of each cell, in one number: all cells of a right side by side."""
        return sum((1 << cell) * self.spread[it] for cell, it in enumerate(rights))

    def all_addresses(self):
        """The addresses that the registers hold, and one for each block or range that begins and ends with grains."""
        unit = max(self.hart.grain // 8, 1)
        most = 2 * self.plan.grains if self.hart.grain > 4 else self.plan.grains
        found = {}
        for address in (*self.start.addresses, *(it * unit for it in range(most + 1)), (1 << self.hart.bits - 2) - 1):
            block = self.registers((address,), (NAPOT << 3,), 0).span(0)
            found.setdefault((block, address // (self.hart.grain // 4)), address)
        return sorted({*found.values(), *self.start.addresses})

    def all_bytes(self, ways):
        before = {pair for pair, _ in self.start.gives(starts_of(self.plan, [self.start]))}
        pairs = before | {pair for pair, _ in self.plan.cells()}
        chosen = {(False, 0), (True, 0)}
        for mml in {self.start.mseccfg & MML, self.plan.mml}:
            chosen |= {(locks, bits) for locks, bits, pair in rules(mml) if pair in pairs}
        found = {OFF} | {locks << 7 | how << 3 | bits for locks, bits in chosen for how in ways}
        return [sorted(found | {byte}) for byte in self.start.bytes]

    def registers(self, addresses, configurations, mseccfg):
        it = Registers(self.hart)
        it.addresses[:len(addresses)], it.bytes[:len(configurations)] = addresses, configurations
        it.mseccfg = mseccfg
        return it

    def mask(self, low, address, how):
        """The cells that an entry matches."""
        key = low if how == TOR else 0, address, how
        if key not in self.masks:
            first, end = self.registers((address,), (how << 3,), 0).span(0)
            if how == TOR:
                first = low // (self.hart.grain // 4) * self.hart.grain
            self.masks[key] = sum(1 << cell for cell, byte in enumerate(self.cells) if first <= byte < end)
        return self.masks[key]

    def is_safe(self, cells, given):
        """Whether these cells may have these rights."""
        rights = cells * given
        return not rights & self.closed and not self.open & cells * self.spread[63] & ~rights

    def parts(self, addresses, configurations, mseccfg):
        """The cells of each owner with what it gives them, and at the end the other cells."""
        taken, low = 0, 0
        for address, byte in zip(addresses, configurations):
            fresh = self.mask(low, address, byte >> 3 & 3) & ~taken
            yield fresh, self.rule(byte, mseccfg)
            taken, low = taken | fresh, address
        yield self.everything & ~taken, self.rest(mseccfg)

    def are_safe(self, state):
        return all(self.is_safe(*it) for it in self.parts(*state))

    def options(self, entry, byte, mseccfg):
        """What a write can leave in an entry that has this byte."""
        if byte & 128 and not mseccfg & RLB:
            return [byte]
        if not mseccfg & MML:
            return [it for it in self.choices[entry] if it & 3 != 2]
        if mseccfg & RLB:
            return self.choices[entry]
        return [it for it in self.choices[entry] if not (it & 128 and LOCKED[it & 7][0] & 4)]

    def rule(self, byte, mseccfg):
        """What a byte gives a cell."""
        return self.spread[packed(rule_rights(mseccfg & MML, byte >= 128, byte & 7))]

    def rest(self, mseccfg):
        return self.spread[packed(default_rights(mseccfg & MML, mseccfg & MMWP))]

    def chosen(self, lists, addresses, mseccfg, allows):
        """Each choice of configuration bytes of these lists whose parts are all allowed."""
        lists = [[(it, self.rule(it, mseccfg)) for it in options] for options in lists]

        def go(entry, taken, low, chosen):
            if entry == len(lists):
                if allows(self.everything & ~taken, self.rest(mseccfg)):
                    yield chosen
                return
            for byte, rule in lists[entry]:
                fresh = self.mask(low, addresses[entry], byte >> 3 & 3) & ~taken
                if allows(fresh, rule):
                    yield from go(entry + 1, taken | fresh, addresses[entry], (*chosen, byte))

        return go(0, 0, 0, ())

    def has_goal(self):
        """Whether any registers with what is frozen at first meet the plan."""
        start, plan = self.start, self.plan
        if any(it & 128 for it in start.bytes) and plan.mseccfg & ~start.mseccfg & RLB:
            return False
        lists = [self.options(entry, byte, start.mseccfg & RLB | plan.mseccfg & MML if byte & 128 else 7)
                 for entry, byte in enumerate(start.bytes)]
        addresses = [[start.addresses[entry]] if start.holds_address(entry) else self.addresses
                     for entry in range(self.hart.entries)]
        return any(self.is_goal((kept, bytes_, plan.mseccfg)) for kept in itertools.product(*addresses)
                   for bytes_ in self.chosen(lists, kept, plan.mseccfg, self.is_wanted))

    def is_wanted(self, cells, given):
        return cells * given == self.goal & cells * self.spread[63]

    def moves(self, state, seen):
        addresses, configurations, mseccfg = state
        it = self.registers(addresses, configurations, mseccfg)
        frozen = tuple(byte if byte & 128 and not mseccfg & RLB else None for byte in configurations)
        if (addresses, frozen, mseccfg) not in seen:
            seen.add((addresses, frozen, mseccfg))
            lists = [self.options(entry, byte, mseccfg) for entry, byte in enumerate(configurations)]
            for bytes_ in self.chosen(lists, addresses, mseccfg, self.is_safe):
                yield addresses, bytes_, mseccfg
        others = [(addresses[:entry] + (address,) + addresses[entry + 1:], configurations, mseccfg)
                  for entry in range(len(addresses)) if not it.holds_address(entry) for address in self.addresses]
        for value in range(8 if self.hart.smepmp else 0):
            one = it.copy()
            one.write("mseccfg", value)
            if not one.mseccfg & ~self.plan.mseccfg & (MML | MMWP):
                others.append((addresses, configurations, one.mseccfg))
        yield from filter(self.are_safe, others)

    def is_goal(self, state):
        return not self.lacks(state) and not unmet(self.plan, self.registers(*state))

    def lacks(self, state):
        """How many rights of cells and bits of mseccfg aren't yet as the plan says."""
        rights = sum(cells * given for cells, given in self.parts(*state))
        return (rights ^ self.goal).bit_count() + (state[2] ^ self.plan.mseccfg).bit_count()

    def shortest(self):
        return self.search(lambda depth, _: depth)

    def any(self):
        return self.search(lambda _, state: self.lacks(state))

    def search(self, cost):
        """The registers after each write, the cheapest next; none if there is no order, and False beyond the most."""
        start = self.start.key()
        came, seen = {start: None}, set()
        waiting = [(0, 0, 0, start)] if self.has_goal() else []
        while waiting:
            _, _, depth, state = heapq.heappop(waiting)
            if self.is_goal(state):
                return self.path(came, state)
            if len(came) > self.most:
                return False
            for it in self.moves(state, seen):
                if it not in came:
                    came[it] = state
                    heapq.heappush(waiting, (cost(depth + 1, it), len(came), depth + 1, it))
        return None

    @staticmethod
    def path(came, state):
        states = []
        while state:
            states.append(state)
            state = came[state]
        return states[::-1]
