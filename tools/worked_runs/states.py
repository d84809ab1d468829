import sys, copy
import shards
from rules import *
U = {('a', 1): 'a_1', ('b', 1): 'b_1', ('c', 1): 'c_1'}

def u(x):
    return U[x]

def lst0(xs):
    return '[]' if not xs else ' ∷ '.join(xs) + ' ∷ []'

def lst(xs):
    return '[]' if not xs else '(' + lst0(xs) + ')'

def counts(v):
    return lst(['(%s, %d)' % (u(k), c) for k, c in v.items()])

def standing(v):
    return 'Member %s %d' % (v[1], v[2]) if v[0] == 'M' else 'Buried %s' % ('true' if v[1] else 'false')

def standings(st):
    return lst(['(%s, %s)' % (u(k), standing(v)) for k, v in st.items()])

def procs(s):
    return lst([u(k) for k in s])

def ballot(b):
    return 'ballot %d %s' % (b[0], u(b[1]))

def some(x, f):
    return 'None' if x is None else 'Some (%s)' % f(x)

def par(x):
    return x if x.startswith('(') or ' ' not in x else '(%s)' % x
MESSAGES = set()

class Gen:

    def __init__(s, settings, quorum, nodes, many_shards=10, buffer=2, weakly=0):
        s.settings = settings
        s.q = quorum
        s.nodes = nodes
        s.known = {}
        s.out = []
        s.world = []
        s.st = [Sim(quorum, [], many_shards, buffer, weakly).started(x) for x in nodes]
        s.nm = ['started %s %s' % (u(x), settings) for x in nodes]
        s.packets = []
        s.pnames = {}

    def key(s, g):
        return (tuple(g['version'].items()), tuple(g['standings'].items()))

    def gossip(s, g):
        return '%s %s' % (s.known[s.key(g)], procs(g['seen']))

    def name_known(s, g, k):
        kk = s.key(g)
        if kk not in s.known and g['version']:
            n = 'known_%d' % k
            s.known[kk] = n
            s.out.append('abbrev %s : List UniqueModel → GossipState\n%s = gossip_of %s %s\n' % (n, n, counts(g['version']), standings(g['standings'])))

    def settled(s, sv):
        if sv is None:
            return 'unsettled'
        return 'settled_as (%s [])' % s.known[tuple(sv['version'].items()), tuple(sv['standings'].items())]

    def msg(s, m):
        k = m[0]
        if k in ('Welcome', 'Gossip'):
            return 'message.%s (%s)' % (k, s.gossip(m[1]))
        if k == 'Ask':
            return 'message.Ask (%s)' % ballot(m[1])
        if k == 'Granted':
            return 'message.Granted (%s) (table %s) []' % (ballot(m[1]), counts(m[2]))
        if k == 'Release':
            return 'message.Release (%s) (table %s)' % (ballot(m[1]), counts(m[2]))
        if k == 'Home':
            return 'message.Home (%s) %d %s' % (ballot(m[1]), m[2], u(m[3]))
        if k == 'GetHome' or k in shards.RULES or k == 'ShardStarted':
            return 'message.%s (%s) %s' % (k, ballot(m[1]), ' '.join(str(number) for number in m[2:]))
        return 'message.' + k

    def env(s, p):
        if p['uid']:
            return 'packet %s %s %s' % (u(p['frm']), u((p['to'], 1)), par(s.msg(p['msg'])))
        return 'record { from = %s; to = at_%s; uid = 0; message = %s }' % (u(p['frm']), p['to'], s.msg(p['msg']))

    def effect(s, e):
        if e[0] == 'Joined':
            return 'Joined %s' % u(e[1])
        if e[0] == 'Rise':
            return 'Rise %s %s %d' % (u(e[1]), e[2], e[3])
        return 'Removed %s true' % u(e[1])

    def act(s, a):
        if a[0] == 'Send':
            i = id(a[1])
            if i in s.pnames:
                return 'Send %s' % s.pnames[i]
            return 'Send (%s)' % s.env(a[1])
        if a[0] == 'Update':
            return 'Update %d %s' % (a[1], lst([s.effect(e) for e in a[2]]))
        if a[0] in ('Active', 'Ended'):
            return '%s %d' % (a[0], a[1])
        return ' '.join(str(part) for part in a)
    MEM = [('gossip', lambda s, n: s.gossip(n['gossip'])), ('shown', lambda s, n: 'table ' + counts(n['shown'])), ('founder', lambda s, n: str(n['founder']).lower()), ('target', lambda s, n: 'Some at_%s' % n['target'] if n['target'] else 'None'), ('ticks', lambda s, n: str(n['ticks'])), ('stable', lambda s, n: str(n['stable'])), ('weak', lambda s, n: str(n['weak'])), ('moved', lambda s, n: str(n['moved']).lower()), ('detector', lambda s, n: 'table ' + counts(n['detector'])), ('confirmed', lambda s, n: 'set ' + procs(n['confirmed'])), ('settled', lambda s, n: s.settled(n['settled']))]
    SIN = [('phase', lambda s, n: 'phase.' + n['phase']), ('live', lambda s, n: some(n['live'], ballot)), ('granted', lambda s, n: 'set ' + procs(n['granted'])), ('floor', lambda s, n: 'table ' + counts(n['floor']))]

    def mem(s, old, new):
        return ['%s = %s' % (k, fn(s, new)) for k, fn in s.MEM if old[k] != new[k]]

    def sin(s, old, new):
        f = []
        if old['promise'] != new['promise']:
            p = new['promise']
            f.append('promise = record { last = %s; released = %s; floor = table %s }' % (some(p['last'], ballot), str(p['released']).lower(), counts(p['floor'])))
        return f + ['%s = %s' % (k, fn(s, new)) for k, fn in s.SIN if old[k] != new[k]]

    def slot(s, known):
        """what a region knows of a shard"""
        if known == shards.slot():
            return 'untold'
        hosted = 'None' if known['hosted'] is None else '(Some %d)' % known['hosted']
        home = 'None' if known['home'] is None else '(Some %s)' % u(known['home'])
        return 'slot %s %d %s %s' % (hosted, known['mark'], str(known['held']).lower(), home)

    def entry(s, entry):
        """what a coordinator knows of a shard"""
        if entry == shards.unplaced():
            return 'unplaced'
        owner, number = entry['home']
        assert number == entry['last'] and not entry['started']
        if entry['stage'] == 'Still':
            return 'placed %d %s' % (number, u(owner))
        return 'leaves %d %s stages.%s %s' % (number, u(owner), entry['stage'], procs(entry['waits']))

    def sharding(s, old, new, base):
        """what is kept of shards: the region, the entities, and the table, where they changed"""
        f = []
        if old['table'] is None and new['table'] is not None:
            return ['sharding = begins_table %s %s.sharding' % (u(new['me']), base)]
        if old['table'] is not None and new['table'] is None:
            return ['sharding = ends_table %s.sharding' % base]
        region = []
        if old['slots'] != new['slots']:
            region.append('slots = %s' % lst0([s.slot(known) for known in new['slots']]))
        if old['messages'] != new['messages']:
            region.append('messages = %s' % lst0(['message_for %s %d' % message for message in new['messages']]))
        if region:
            f.append('region = record %s.sharding.region { %s }' % (base, '; '.join(region)))
        entities = base + '.sharding.entities'
        for rule, shard, *delivery in new['entities'][len(old['entities']):]:
            entities = ' '.join([rule, par(entities), str(shard)] + [str(part) for part in delivery])
        if old['entities'] != new['entities']:
            f.append('entities = %s' % entities)
        if old['table'] != new['table']:
            f.append('table = Some %s' % lst([s.entry(entry) for entry in new['table']]))
        return ['sharding = record %s.sharding { %s }' % (base, '; '.join(f))] if f else []

    def diff(s, old, new, base, membership=None):
        f = []
        m = s.mem(old, new)
        if membership:
            f.append('membership = ' + membership)
        elif m:
            f.append('membership = record %s.membership { %s }' % (base, '; '.join(m)))
        t = s.sin(old, new)
        if t:
            f.append('singleton = record %s.singleton { %s }' % (base, '; '.join(t)))
        f += s.sharding(old, new, base)
        if old['runs'] != new['runs']:
            f.append('runs = ' + str(new['runs']).lower())
        if old['steps'] != new['steps']:
            f.append('steps = %d' % new['steps'])
        return base if not f else 'record %s { %s }' % (base, '; '.join(f))

    def event(s, k, e, delivered):
        packet = None
        if e[0] == 'D':
            p = s.packets[e[1] - 1]
            i = [j for j, x in enumerate(s.nodes) if x[0] == p['to']][0]
            packet = s.pnames[id(p)]
            ev = '(event.Packet %s)' % packet
        else:
            i = e[1]
            ev = 'event.' + e[2]
            if e[3] is not None:
                ev = '(%s %s)' % (ev, e[3])
        old = s.st[i]
        base = par(s.nm[i])
        n = copy.deepcopy(old)
        n['steps'] += 1
        me = u(n['me'])[0]
        now = '%s_%d' % (me, k)
        istick = e[0] == 'N' and e[2] == 'Tick'
        if istick:
            ch = mtick(n, s.q)
            m = copy.deepcopy(n)
            beats = [to(n, w, ('Heartbeat',)) for w in n['detector']]
            upd = [('Update', ch[0], ch[1])] if ch[0] else []
            middle, asked, ordered, homes, told = goes_on(n, int(e[3]), s.q)
            first = beats + upd + asked + ordered + homes + told
        elif e[0] == 'N':
            if e[2] == 'Found':
                n['founder'] = True
                c = update(n, [('Joined', n['me'])])
                first = [('Update', c, [('Joined', n['me'])])]
            elif e[2] == 'Join':
                n['target'] = e[3][-1]
                first = [to_addr(n, e[3][-1], ('Join',))]
            elif e[2] == 'Leave':
                c = update(n, [('Rise', n['me'], 'Leaving', 0)])
                first = [('Update', c, [('Rise', n['me'], 'Leaving', 0)])]
            elif e[2] == 'Offer':
                entity, payload = e[3].split()
                first = shards.routes(n, entity, int(payload))
        else:
            first = on_packet(n, p)
        ruled = copy.deepcopy(n)
        second = closes(n, s.q)
        closed = copy.deepcopy(n)
        third = activates(n)
        base_count = len(s.packets)
        for a in first:
            if a[0] == 'Send':
                s.packets.append(a[1])
        L = s.out
        L.append('-- ---- %d' % k)
        s.name_known(ruled['gossip'], k)
        num = base_count
        for a in first:
            if a[0] == 'Send':
                num += 1
                if num in delivered:
                    s.pnames[id(a[1])] = 'packet_%d' % num
                    L.append('abbrev pub packet_%d : Envelope\npacket_%d = %s\n' % (num, num, s.env(a[1])))
        if istick:
            L.append('abbrev ticked_%d : MembershipState\nticked_%d = record %s.membership { %s }\n' % (k, k, base, '; '.join(s.mem(old, m))))
            change = '(record { number = %s; effects = %s; reply = Nothing })' % ('Some %d' % ch[0] if ch[0] else 'None', lst0([s.effect(x) for x in ch[1]]))
        changed = s.mem(ruled, closed) or ruled['runs'] != closed['runs'] or third
        rb = s.diff(old, ruled, base, 'ticked_%d' % k if istick else None)
        if changed:
            L.append('abbrev ruled_%d : State\nruled_%d = %s\n' % (k, k, rb))
            rn = 'ruled_%d' % k
        else:
            rn = now
            L.append('abbrev pub %s : State\n%s = %s\n' % (now, now, rb))
        cl = s.diff(ruled, closed, rn)
        cn = now
        if third:
            if cl != rn:
                L.append('abbrev closed_%d : State\nclosed_%d = %s\n' % (k, k, cl))
                cn = 'closed_%d' % k
            else:
                cn = rn
            L.append('abbrev pub %s : State\n%s = %s\n' % (now, now, s.diff(closed, n, cn)))
        elif changed:
            L.append('abbrev pub %s : State\n%s = %s\n' % (now, now, cl))
        f, se, th = [lst([s.act(a) for a in x]) for x in (first, second, third)]
        L.append('abbrev pub does_%d : List Action\ndoes_%d = %s\n' % (k, k, lst0([s.act(a) for a in first + second + third])))
        L.append('pub step_%d : step %s %s ≡ (%s, does_%d)' % (k, ev, base, now, k))
        L.append('unfolding covers merged_tables union')
        if istick:
            after = '(record %s { membership = ticked_%d; steps = %d })' % (base, k, n['steps'])
            asked_list, told_list = lst([s.act(a) for a in asked]), lst([s.act(a) for a in told])
            if ordered or homes:
                # the state before the node's part as the coordinator has a name where that part changes it
                before = rn
                if middle['table'] != ruled['table']:
                    L.insert(-2, 'abbrev asked_%d : State\nasked_%d = %s\n' % (k, k, s.diff(old, middle, base, 'ticked_%d' % k)))
                    before = 'asked_%d' % k
                ordered_list, homes_list = lst([s.act(a) for a in ordered]), lst([s.act(a) for a in homes])
                going = '(in_coordinating %s %s %s %s %s %s %s %s (simp listed) (simp listed) (simp listed) (simp listed) (simp listed) (simp listed))' % (e[3], after, before, rn, asked_list, ordered_list, homes_list, told_list)
            elif n['runs']:
                coordinates = '(simp listed)' if ruled['phase'] == 'Active' else 'refl'
                going = '(in_going %s %s %s %s %s (simp listed) (simp listed) (simp listed) %s refl (simp listed))' % (e[3], after, rn, asked_list, told_list, coordinates)
            else:
                L.insert(-2, 'abbrev ended_%d : State\nended_%d = %s\n' % (k, k, s.diff(old, middle, base, 'ticked_%d' % k)))
                going = '(in_leaving %s %s ended_%d %s %s %s (simp listed) (simp listed) (simp listed) refl (simp listed))' % (e[3], after, k, rn, asked_list, told_list)
            rule = '(in_ticks %s (record %s { steps = %d }) %s ticked_%d %s %s %s (simp listed) (simp listed) (simp listed)\n    %s)' % (e[3], base, n['steps'], rn, k, change, lst([s.act(a) for a in beats]), lst([s.act(a) for a in asked + ordered + homes + told]), going)
        elif e[0] == 'D' and ('Entity' in [a[0] for a in first]):
            # a message that waited starts an entity
            place = [a[0] for a in first].index('Entity')
            before, (entity, payload), after = first[:place], first[place + 1][1:], first[place + 2:]
            assert not any(a[0] == 'Entity' for a in after)
            counted = '(record %s { steps = %d })' % (base, n['steps'])
            rule = '(in_starting %s %s %s %s %s %s %s %d (simp listed) refl)' % (u(p['frm']), par(s.msg(p['msg'])), counted, rn, lst([s.act(a) for a in before]), lst([s.act(a) for a in after]), entity, payload)
        else:
            shares = e[2] == 'Offer' if e[0] == 'N' else p['msg'][0] == 'BeginHandOffAck'
            rule = '(simp shared)' if shares else '(simp listed)'
        act = 'refl' if closed['phase'] != 'Asking' or not closed['runs'] else '(simp listed)'
        # homes that are no members are forgotten: by computation where no home is known
        forgets = '(simp listed)' if any(known['home'] for known in closed['slots']) else 'refl'
        L.append('step_%d =\n    in_stages %s %s %s %s %s %s %s %s refl refl\n    %s\n    (simp listed)\n    %s\n    %s\n' % (k, ev, base, rn, cn, now, f, se, th, rule, forgets, act))
        s.st[i] = n
        s.nm[i] = now
        return (i, now, first + second + third)
