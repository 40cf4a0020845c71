#!/usr/bin/env python3
"""The report of a setup of the simulator, once more: written from the model's definitions and none of its code. Of programs it knows a few
instructions, and of seeds one; other setups are refused with status 3. python3 tests/model.py < examples/four-sockets.sim"""
import heapq
import struct
import sys

TOP = 2**64 - 1
HELD, CLOSED, READER = 1, 256, 2**32
READY, SHUFFLER, PARKED, SPIN, BATCH = 1, 2, 4, 8, 65536


class Pass:
    def __init__(self, me):
        self.me, self.phase, self.nap, self.read = me, 'Idle', 'Awake', False
        self.batch = self.before = self.prev = self.last = self.first = self.cand = 0
        self.after = self.count = self.heir = self.saw = self.whom = 0
        self.flag = self.headed = False
        self.seen = None


class Lock:
    """The words of a lock and its passes; a step is one operation on one word."""

    def __init__(self, form, limit, attrs):
        self.parks, self.shares, self.limit = form in ('park', 'rw-park'), form in ('rw', 'rw-park'), limit
        self.words = {('attr', p): attr for p, attr in enumerate(attrs)}
        self.passes = [Pass(p) for p in range(len(attrs))]

    def plan(self, q):
        """The word, what becomes of it (None where it is only read), and what kind of operation that is."""
        p, lock, tail = q.me, ('lock',), ('tail',)
        if q.nap == 'Doze':
            return ('state', p), lambda n: n | PARKED
        if q.nap == 'Hear':
            return ('bell', p), lambda n: 0
        if q.nap == 'Rouse':
            return ('state', p), lambda n: n & (TOP - PARKED)
        if q.nap == 'Ring':
            return ('bell', q.whom), lambda n: 1
        return {
            'Steal': lambda: (lock, lambda n: HELD if n == 0 else n),
            'Init': lambda: (('state', p), lambda n: 0),
            'Swap': lambda: (tail, lambda n: p + 1),
            'Link': lambda: (('next', q.before), lambda n: p + 1),
            'Close': lambda: (lock, lambda n: n | CLOSED),
            'Look': lambda: (('state', p), None),
            'Begin': lambda: (('state', p), lambda n: n ^ ((BATCH if q.batch == 0 else 0) + (SHUFFLER if q.flag else 0))),
            'Next': lambda: (('next', q.prev), None),
            'Tail': lambda: (tail, None),
            'Attr': lambda: (('attr', q.cand), None),
            'Decide': lambda: (lock if q.headed else ('state', p), None),
            'After': lambda: (('next', q.cand), None),
            'Pick': lambda: (('next', q.prev), lambda n: q.after + 1),
            'Aim': lambda: (('next', q.cand), lambda n: q.first + 1),
            'Place': lambda: (('next', q.last), lambda n: q.cand + 1),
            'Mark': lambda: (('state', q.cand), lambda n: n | (BATCH * (q.count + 1) + (SPIN if self.parks else 0))),
            'Give': lambda: (('state', q.last), lambda n: n | SHUFFLER),
            'Peek': lambda: (lock, None),
            'Grab': lambda: (lock, lambda n: n | HELD),
            'WriteGrab': lambda: (lock, lambda n: (q.saw + 1) & TOP if n == q.saw else n),
            'Take': lambda: (('next', p), lambda n: 0),
            'Cut': lambda: (tail, lambda n: 0 if n == p + 1 else n),
            'Late': lambda: (('next', p), lambda n: 0),
            'Ready': lambda: (('state', q.heir), lambda n: n | READY),
            'Open': lambda: (lock, lambda n: n & (TOP - CLOSED)),
            'Release': lambda: (lock, lambda n: n & (TOP - HELD)),
            'Count': lambda: (lock, lambda n: (n + READER) & TOP),
            'Uncount': lambda: (lock, lambda n: (n - READER) & TOP),
            'HeadCount': lambda: (lock, lambda n: (n + READER) & TOP),
            'HeadLook': lambda: (lock, None),
            'ReadRelease': lambda: (lock, lambda n: (n - READER) & TOP),
        }[q.phase]()

    def ask(self, q):
        if q.nap == 'Awake' and q.phase == 'Begin':
            return ('skip', (0, 0, 0, 0), max(1, q.batch)) if max(1, q.batch) < self.limit else None
        if q.nap == 'Awake' and q.phase == 'Decide':
            return 'should', q.seen, q.count
        return None

    def top(self, q):
        if q.batch == 0 or q.flag:
            q.headed, q.phase = True, 'Begin'
        else:
            self.seek(q)

    def seek(self, q):
        q.phase = 'HeadCount' if q.read else 'Peek'

    def done(self, q):
        self.seek(q) if q.headed else setattr(q, 'phase', 'Look')

    def sleeps(self, n):
        return self.parks and n & PARKED and not n & READY and not n & SPIN

    def take(self, q, n, choice):
        p = q.me
        if q.nap != 'Awake':
            if q.nap == 'Doze':
                q.nap = 'Rouse' if n & (READY | SPIN) else 'Hear'
            elif q.nap == 'Hear':
                q.nap = 'Rouse' if n == 1 else 'Hear'
            else:
                q.nap = 'Awake'
            return
        f = q.phase
        if f == 'Steal':
            q.phase = 'Held' if n == 0 else 'Init'
        elif f == 'Init':
            q.batch, q.flag, q.phase = 0, False, 'Swap'
        elif f == 'Swap':
            q.phase = 'Close' if n == 0 else 'Link'
            q.before = n - 1 if n else q.before
        elif f == 'Link':
            q.phase = 'Look'
        elif f == 'Close':
            self.top(q)
        elif f == 'Look':
            q.batch, q.flag = n // BATCH % 65536, bool(n & SHUFFLER)
            if n & READY:
                self.top(q)
            elif q.flag:
                q.headed, q.phase = False, 'Begin'
            elif self.parks and q.batch == 0:
                q.nap = 'Doze'
        elif f == 'Begin':
            q.batch, q.flag = max(1, q.batch), False
            if q.batch < self.limit:
                q.prev = q.last = p
                q.count, q.phase = q.batch, 'Give' if choice else 'Next'
            else:
                self.done(q)
        elif f == 'Next':
            if n == 0:
                q.phase = 'Give'
            else:
                q.cand, q.phase = n - 1, 'Tail'
                if q.prev == q.last:
                    q.first = q.cand
        elif f == 'Tail':
            q.phase = 'Give' if n == q.cand + 1 else 'Attr'
        elif f == 'Attr':
            q.seen, q.phase = n, 'Decide'
        elif f == 'Decide':
            if q.headed:
                stop = not n & HELD and (q.read or n // READER == 0)
            else:
                stop = n & READY
            if stop:
                q.phase = 'Give'
            elif choice:
                q.phase = 'Mark' if q.prev == q.last else 'After'
            else:
                q.prev, q.phase = q.cand, 'Next'
        elif f == 'After':
            q.phase = 'Pick' if n else 'Give'
            q.after = n - 1 if n else q.after
        elif f in ('Pick', 'Aim', 'Place'):
            q.phase = {'Pick': 'Aim', 'Aim': 'Place', 'Place': 'Mark'}[f]
        elif f == 'Mark':
            q.phase = 'Next' if q.count + 1 < self.limit else 'Give'
            if q.prev == q.last:
                q.prev = q.cand
            q.last, q.count = q.cand, (q.count + 1) % 65536
            if self.sleeps(n):
                q.nap, q.whom = 'Ring', q.cand
        elif f == 'Give':
            q.flag = q.flag or q.last == p
            self.done(q)
        elif f == 'Peek':
            if not n & HELD and n // READER == 0:
                q.saw, q.phase = n, 'WriteGrab' if self.shares else 'Grab'
        elif f == 'Grab':
            self.top(q) if n & HELD else setattr(q, 'phase', 'Take')
        elif f == 'WriteGrab':
            setattr(q, 'phase', 'Take') if n == q.saw else self.top(q)
        elif f in ('Take', 'Late'):
            if n:
                q.heir, q.phase = n - 1, 'Ready'
            else:
                q.phase = 'Cut' if f == 'Take' else 'Late'
        elif f == 'Cut':
            q.phase = 'Open' if n == p + 1 else 'Late'
        elif f == 'Ready':
            q.phase = 'Held'
            if self.sleeps(n):
                q.nap, q.whom = 'Ring', q.heir
        elif f == 'Open':
            q.phase = 'Held'
        elif f in ('Release', 'ReadRelease'):
            q.phase = 'Idle'
        elif f == 'Count':
            q.phase = 'Uncount' if n & (HELD | CLOSED) else 'Held'
        elif f == 'Uncount':
            q.phase = 'Init'
        elif f in ('HeadCount', 'HeadLook'):
            q.phase = 'HeadLook' if n & HELD else 'Take'
        else:
            raise AssertionError(f)


def run_program(code, own, waiter, batch):
    """What a program answers, and how many instructions that took."""
    fields = [n for pair in zip(own, waiter) for n in pair] + [batch, 0]
    context, registers, at, count = struct.pack('<10I', *fields), [0] * 10, 0, 0
    while True:
        op, regs, offset, value = code[at]
        to, source = regs & 15, regs >> 4
        at, count = at + 1, count + 1
        if op == 0x95:
            return registers[0] != 0, count
        if op == 0x61 and source == 1:
            registers[to] = struct.unpack_from('<I', context, offset)[0]
        elif op == 0xB7:
            registers[to] = value & TOP
        elif op == 0x1D:
            at += offset if registers[to] == registers[source] else 0
        elif op == 0x3D:
            at += offset if registers[to] >= registers[source] else 0
        else:
            sys.exit(3)


def answer(rule, own, question):
    kind, waiter, batch = question
    if rule[0] == 'program':
        code = rule[1 if kind == 'should' else 2]
        if code == '-':
            return False, 0
        return run_program([struct.unpack_from('<BBhi', bytes.fromhex(code), at) for at in range(0, len(code) // 2, 8)], own, waiter, batch)
    return kind == 'should' and (rule[0] == 'always' or rule[0] == 'socket' and own[0] == waiter[0]), 0


def tries_before(tries, rule):
    """How many attempts a call makes at most before it queues, and the pause after the first."""
    if not tries:
        return 0, 0
    often, pause = tries
    if often != 'by-policy':
        return int(often), int(pause)
    moves_nobody = rule[0] == 'never' or rule[0] == 'program' and rule[1] == '-'
    return 32 if moves_nobody else 0, int(pause)


class Draws:
    def __init__(self, seed, p):
        self.state = (64 * seed + p) & TOP
        self.next()

    def next(self):
        self.state = (self.state + 0x9E3779B97F4A7C15) & TOP
        z = self.state
        z = ((z ^ (z >> 30)) * 0xBF58476D1CE4E5B9) & TOP
        z = ((z ^ (z >> 27)) * 0x94D049BB133111EB) & TOP
        return z ^ (z >> 31)


LOADS = ('Look', 'Next', 'Tail', 'Attr', 'Decide', 'After', 'Peek', 'HeadLook')
KEYS = ('socket', 'prio', 'class')


class Run:
    def __init__(self, s, rule):
        self.s, self.rule, self.attrs = s, rule, s['passes']
        count = len(self.attrs)
        self.lock = Lock(s['form'], s['limit'], self.attrs)
        self.has, self.free = {}, {}
        self.draws = [Draws(s['seed'], p) for p in range(count)]
        self.queue, self.stand = [], [None] * count
        self.figures = dict.fromkeys(('steps', 'rounds', 'asked', 'yes', 'insns', 'relinks', 'parks', 'rings', 'reads', 'stolen', 'same'), 0)
        self.reach = {k: [0, 0, 0] for k in ('lock', 'tail', 'node', 'data', 'tried')}
        self.tries, self.tried = tries_before(s['tries'], rule), [0] * count
        self.called, self.overtook = [None] * count, [0] * count
        self.gained, self.waited = [0] * count, [0] * count
        self.longest, self.overtaken = [0] * count, [0] * count
        self.waits, self.order, self.turns = [], [], 0
        for p in range(count):
            self.due(p, self.think(p), 'call')

    def due(self, p, at, turn):
        self.stand[p] = ('due', at, turn)
        heapq.heappush(self.queue, (at, p))

    def think(self, p):
        t = self.s['work'][2]
        return 0 if t == 0 else t // 2 + self.draws[p].next() % (t + 1)

    def line_of(self, word):
        """The line of a word, and the core that has it first."""
        if word[0] == 'data':
            return word, 0
        layout = self.s['layout']
        if layout == 'packed':
            place = {'lock': 0, 'tail': 1}.get(word[0])
            if place is None:
                place = 4 * word[1] + 2 + ('next', 'state', 'attr', 'bell').index(word[0])
            return place // 8, 0
        if word[0] in ('lock', 'tail'):
            return ('lock' if layout == 'joined' else word[0],), 0
        return ('node', word[1]), word[1]

    def touch(self, p, word, load, at, kind):
        hit, near, far, port, atomic = self.s['costs'][:5]
        line, first = self.line_of(word)
        has = self.has.setdefault(line, {first})
        extra = 0 if load else atomic
        if has == {p} or (load and p in has):
            self.reach[kind][0] += 1
            return at + hit + extra
        socket = self.attrs[p][0]
        others = [self.attrs[c][0] == socket for c in has if c != p]
        close = any(others) if load else all(others)
        self.reach[kind][1 if close else 2] += 1
        begins = max(at, self.free.get(line, 0))
        ends = begins + (near if close else far) + extra
        if load:
            has.add(p)
            self.free[line] = begins + port
        else:
            self.has[line] = {p}
            self.free[line] = ends
        return ends

    def step(self, p, at):
        local, ask, insn, park, wake, rise = self.s['costs'][5:]
        lock, q = self.lock, self.lock.passes[p]
        word, change = lock.plan(q)
        question = lock.ask(q)
        choice, insns = answer(self.rule, self.attrs[p], question) if question else (False, 0)
        nap, phase, whom = q.nap, q.phase, q.whom
        load = nap == 'Awake' and phase in LOADS
        found = lock.words.get(word, 0)
        if change:
            lock.words[word] = change(found)
        lock.take(q, found, choice)
        f = self.figures
        f['steps'] += 1
        f['rounds'] += bool(question) and question[0] == 'skip'
        f['asked'] += bool(question)
        f['yes'] += choice
        f['insns'] += insns
        f['relinks'] += nap == 'Awake' and phase == 'Place'
        f['parks'] += nap == 'Doze' and q.nap == 'Hear'
        f['rings'] += nap == 'Ring'
        ends = self.touch(p, word, load, at, word[0] if word[0] in ('lock', 'tail') else 'node')
        line = self.line_of(word)[0]
        if not load:
            self.seen(line, ends)
        ends += local + (ask if question else 0) + insn * insns
        if nap == 'Ring' and self.stand[whom][0] == 'sleeps':
            ends += wake
            self.due(whom, max(ends, self.stand[whom][1]) + rise, 'step')
        if nap == 'Hear' and q.nap == 'Hear':
            self.stand[p] = ('sleeps', ends + park)
        elif nap == 'Awake' and q.nap == 'Awake' and q.phase == phase and phase in ('Look', 'Peek', 'HeadLook', 'Late'):
            self.stand[p] = ('spins', line, ends)
        elif q.phase == 'Held' and q.nap == 'Awake':
            self.due(p, ends, 'stolen' if phase in ('Steal', 'Count') else 'gain')
        elif q.phase == 'Idle':
            self.due(p, ends + self.think(p), 'call')
        else:
            self.due(p, ends, 'step')

    def seen(self, line, at):
        """A line was taken away from those who spin on it: they look again."""
        for k, stand in enumerate(self.stand):
            if stand[0] == 'spins' and stand[1] == line:
                self.due(k, max(at, stand[2]), 'step')

    def tries_in_vain(self, p, at):
        """Whether the call makes one more attempt, and in vain; a reader has its count to take back."""
        found, read, most = self.lock.words.get(('lock',), 0), self.lock.passes[p].read, self.tries[0]
        if self.tried[p] >= most or not (found & (HELD | CLOSED) if read else found):
            self.tried[p] = 0
            return False
        for _ in range(1 + read):
            at = self.touch(p, ('lock',), False, at, 'tried')
        self.seen(self.line_of(('lock',))[0], at)
        pause = self.tries[1] * min(8, 2 ** self.tried[p])
        self.tried[p] += 1
        self.due(p, at + self.s['costs'][5] + pause, 'call')
        return True

    def gain(self, p, at, stolen):
        hold, lines = self.s['work'][:2]
        call, read = self.called[p], self.lock.passes[p].read
        for k, other in enumerate(self.called):
            if other is not None and other < call:
                self.overtook[k] += 1
                self.overtaken[k] = max(self.overtaken[k], self.overtook[k])
        self.called[p] = None
        self.gained[p] += 1
        self.waited[p] += at - call
        self.longest[p] = max(self.longest[p], at - call)
        self.waits.append(at - call)
        self.figures['reads'] += read
        self.figures['stolen'] += stolen
        self.figures['same'] += bool(self.order) and self.attrs[self.order[-1]][0] == self.attrs[p][0]
        self.order.append(p)
        for datum in range(lines):
            at = self.touch(p, ('data', datum), read, at, 'data')
        self.due(p, at + hold, 'free')

    def run(self):
        self.end = self.s['until']
        self.cut = False
        while True:
            while self.queue and self.stand[self.queue[0][1]][:2] != ('due', self.queue[0][0]):
                heapq.heappop(self.queue)
            if not self.queue or self.queue[0][0] > self.s['until']:
                return self
            if self.turns == self.s['turns']:
                self.end, self.cut = self.queue[0][0], True
                return self
            self.turns += 1
            at, p = heapq.heappop(self.queue)
            turn, q = self.stand[p][2], self.lock.passes[p]
            self.stand[p] = ('none',)
            if turn in ('gain', 'stolen'):
                self.gain(p, at, turn == 'stolen')
                continue
            if turn == 'call':
                if self.tried[p] == 0:
                    q.read = self.lock.shares and self.draws[p].next() % 1000 < self.s['work'][3]
                    self.called[p], self.overtook[p] = at, 0
                if self.tries_in_vain(p, at):
                    continue
                q.phase = 'Count' if q.read else 'Steal'
            elif turn == 'free':
                q.phase = 'ReadRelease' if q.read else 'Release'
            self.step(p, at)

    def told(self, passes):
        longest = max((max(self.longest[p], self.end - self.called[p] if self.called[p] is not None else 0) for p in passes), default=0)
        return sum(self.gained[p] for p in passes), sum(self.waited[p] for p in passes), longest, max(self.overtaken[p] for p in passes)

    def report(self, name):
        f, every = self.figures, range(len(self.attrs))
        yield f'policy {name}'
        if self.cut:
            yield f"cut after {self.s['turns']} turns at {self.end}"
        yield f"gained {len(self.order)} reads {f['reads']} stolen {f['stolen']} same {f['same']}"
        yield ' '.join(f'{k} {f[k]}' for k in ('steps', 'rounds', 'asked', 'yes', 'insns', 'relinks', 'parks', 'rings'))
        for kind, (hits, near, far) in self.reach.items():
            if kind == 'tried' and not self.s['tries']:
                continue
            yield f'{kind} hits {hits} near {near} far {far}'
        waits, n = sorted(self.waits), len(self.waits)
        half, most = (waits[(n - 1) // 2], waits[(n - 1) * 99 // 100]) if n else (0, 0)
        _, waited, longest, _ = self.told(every)
        yield f'waited {waited} half {half} most {most} longest {longest}'
        for at, key in enumerate(KEYS):
            for value in sorted({a[at] for a in self.attrs}):
                gained, waited, longest, overtaken = self.told([p for p in every if self.attrs[p][at] == value])
                yield f'{key} {value} gained {gained} waited {waited} longest {longest} overtaken {overtaken}'
        digest = 0xCBF29CE484222325
        for p in self.order:
            digest = ((digest ^ p) * 0x100000001B3) & TOP
        yield f"order {digest:016x} {','.join(map(str, self.order[:16])) or '-'}"


def main():
    s = {'passes': [], 'policies': [], 'turns': 100_000_000}
    for line in sys.stdin:
        name, *words = line.split()
        if name in ('form', 'layout'):
            s[name] = words[0]
        elif name in ('limit', 'seed'):
            s[name] = int(words[0])
        elif name == 'costs':
            s[name] = [1, 45, 130, 10, 6, 2, 5, 3, 1500, 1000, 4000] if words == ['usual'] else list(map(int, words))
        elif name == 'work':
            s[name], s['tries'] = list(map(int, words[:4])), words[5:]
        elif name == 'until':
            s['until'] = int(words[0])
            if len(words) == 3:
                s['turns'] = int(words[2])
        elif name == 'policy':
            s['policies'].append(words)
        elif name == 'pass':
            s['passes'].append(tuple(map(int, words)))
    if 'seed' not in s:
        sys.exit(3)
    print(f"syncord-sim 1 form {s['form']} limit {s['limit']} passes {len(s['passes'])} until {s['until']} seed {s['seed']}")
    for name, *rule in s['policies']:
        for line in Run(s, rule).run().report(name):
            print(line)
    print('end')


main()
