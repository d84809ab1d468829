"""A small model of the rules that the worked runs need: nobody is unreachable, and nobody decides about a partition."""

import copy
import shards
RANK = {'Joining': 1, 'WeaklyUp': 2, 'Up': 3, 'Leaving': 4, 'Exiting': 5, 'Down': 6}
COUNTS = {'Up', 'Leaving'}

def addr(u):
    return u[0]

class Sim:

    def __init__(s, quorum, listed, many_shards=10, buffer=2, weakly=0):
        s.q = quorum
        s.listed = listed
        s.many_shards = many_shards
        s.buffer = buffer
        s.weakly = weakly

    def started(s, me):
        return dict(me=me, gossip=dict(version={}, standings={}, seen=[]), shown={}, founder=False, target=None, ticks=0, stable=0, weak=0, weakly=s.weakly, moved=False, detector={}, confirmed=[], settled=None, promise=dict(last=None, released=False, floor={}), phase='Younger', live=None, granted=[], floor={}, table=None, slots=[shards.slot() for _ in range(s.many_shards)], messages=[], most=s.buffer, entities=[], active_entities=frozenset(), runs=True, steps=0)

def members(st):
    return {u: v for u, v in sorted(st.items()) if v[0] == 'M'}

def is_member(n, who=None):
    v = n['gossip']['standings'].get(who or n['me'])
    return v is not None and v[0] == 'M'

def sight(st):
    return {u: v[1] for u, v in st.items() if v[0] == 'M'}

def settled_now(n, q):
    st = n['gossip']['standings']
    seen = n['gossip']['seen']
    ms = members(st)
    return all((v[1] not in COUNTS or u in seen for u, v in ms.items())) and len({addr(u) for u, v in ms.items() if v[1] in COUNTS}) >= q

def merged_standing(a, b):
    if a is None:
        return b
    if a[0] == 'B' or b[0] == 'B':
        return ('B', a[0] == 'B' and a[1] or (b[0] == 'B' and b[1]))
    st = b[1] if RANK[a[1]] < RANK[b[1]] else a[1]
    x, y = (a[2], b[2])
    num = y if x == 0 else x if y == 0 else min(x, y)
    return ('M', st, num)

def update(n, effects):
    g = n['gossip']
    st = dict(g['standings'])
    for e in effects:
        if e[0] == 'Joined':
            st[e[1]] = merged_standing(st.get(e[1]), ('M', 'Joining', 0))
        if e[0] == 'Rise':
            st[e[1]] = merged_standing(st.get(e[1]), ('M', e[2], e[3]))
        if e[0] == 'Removed':
            st[e[1]] = merged_standing(st.get(e[1]), ('B', e[2]))
    v = dict(g['version'])
    v[n['me']] = v.get(n['me'], 0) + 1
    n['moved'] = n['moved'] or sight(g['standings']) != sight(st)
    n['gossip'] = dict(version=dict(sorted(v.items())), standings=dict(sorted(st.items())), seen=[n['me']])
    return v[n['me']]

def oldest(st):
    c = [(v[2], u) for u, v in members(st).items() if v[1] in COUNTS]
    return min(c)[1] if c else None

def finished(sv, who):
    v = sv['standings'].get(who) if sv else None
    return v is not None and v[0] == 'B' and v[1]

def needed(sv):
    if not sv:
        return []
    return [u for u, v in sorted(sv['standings'].items()) if v[0] == 'M' and v[1] != 'Joining' or (v[0] == 'B' and (not v[1]))]

def vmerge(a, b):
    return {u: max(a.get(u, 0), b.get(u, 0)) for u in sorted(set(a) | set(b))}

def version_of(sv):
    return sv['version'] if sv else {}

def to(n, who, msg):
    return ('Send', dict(frm=n['me'], to=addr(who), uid=1, msg=msg))

def to_addr(n, a, msg):
    return ('Send', dict(frm=n['me'], to=a, uid=0, msg=msg))

def gcopy(g):
    return copy.deepcopy(g)

def mtick(n, q):
    """what the membership makes of a tick: the change"""
    ch = (None, [])
    st = n['gossip']['standings']
    eff = None
    joining = [u for u, v in members(st).items() if v[1] == 'Joining']
    leads = [u for u, v in members(st).items() if v[1] in COUNTS][:1] == [n['me']]
    waited = 0 if settled_now(n, q) else min(n['weak'] + 1, n['weakly'])
    if n['founder'] and st[n['me']][:2] == ('M', 'Joining') and all((v[1] not in COUNTS or u in n['gossip']['seen'] for u, v in members(st).items())) and (len({addr(u) for u in joining}) >= q):
        eff = []
        k = 0
        for u in joining:
            k += 1
            eff.append(('Rise', u, 'Up', k))
    elif settled_now(n, q) and leads:
        num = max((v[2] for v in members(st).values()))
        eff = []
        for u, v in members(st).items():
            if v[1] in ('Joining', 'WeaklyUp'):
                eff.append(('Rise', u, 'Up', num + 1))
                num += 1
            elif v[1] == 'Leaving':
                eff.append(('Rise', u, 'Exiting', 0))
            elif v[1] in ('Exiting', 'Down') and u in n['confirmed']:
                eff.append(('Removed', u, True))
    elif leads and n['weakly'] and waited == n['weakly']:
        eff = [('Rise', u, 'WeaklyUp', 0) for u in joining]
    if eff:
        k = update(n, eff)
        ch = (k, eff)
    n['ticks'] += 1
    n['stable'] = min(n['stable'] + 1, 9)
    n['weak'] = waited
    n['detector'] = {u: min(c + 1, 10) for u, c in n['detector'].items()}
    return ch

def tick_rule(n):
    sv = n['settled']
    status = n['gossip']['standings'][n['me']][1]
    if not sv or status not in COUNTS:
        return 'Rests'
    cand = oldest(sv['standings']) == n['me']
    last = n['promise']['last']
    free = last is None or n['promise']['released'] or last[1] == n['me'] or finished(sv, last[1])
    return {'Younger': 'Opens' if cand and free else 'HandsOver' if cand else 'Rests', 'Asking': 'Asks' if cand else 'Closes', 'Active': 'Asks', 'Ended': 'Rests'}[n['phase']]

def goes_on(n, word, q, threshold=1, limit=1):
    """what follows the update of a tick: the state between two parts of it, where there is one, and what each part does"""
    acts = []
    sv = n['settled']
    st = n['gossip']['standings']
    if st[n['me']][1] == 'Exiting':
        if n['phase'] == 'Active':
            acts.append(('Ended', n['live'][0]))
        if n['phase'] in ('Active', 'Asking'):
            last = n['promise']['last']
            for u in needed(sv):
                if u != n['me']:
                    acts.append(to(n, u, ('Release', last, dict(version_of(sv)))))
            n['promise'] = dict(last=last, released=True, floor=vmerge(n['promise']['floor'], version_of(sv)))
            n['phase'] = 'Ended'
            n['table'] = None
            n['live'] = None
            n['granted'] = []
            n['floor'] = {}
        else:
            raise Exception('not built')
        middle = copy.deepcopy(n)
        ended, acts = acts, []
        n['runs'] = False
        for u, v in members(st).items():
            if v[1] in COUNTS:
                acts.append(to(n, u, ('ExitingConfirmed',)))
        return (middle, ended, [], [], acts)
    r = tick_rule(n)
    if r == 'Opens':
        last = n['promise']['last']
        b = ((last[0] if last else 0) + 1, n['me'])
        n['floor'] = vmerge(n['promise']['floor'], version_of(sv))
        n['promise'] = dict(last=b, released=False, floor=n['promise']['floor'])
        n['phase'] = 'Asking'
        n['table'] = [shards.unplaced() for _ in n['slots']]
        n['live'] = b
        n['granted'] = [n['me']]
        for u in needed(sv):
            if u != n['me']:
                acts.append(to(n, u, ('Ask', b)))
    elif r == 'Asks':
        for u in needed(sv):
            if u not in n['granted']:
                acts.append(to(n, u, ('Ask', n['live'])))
    elif r != 'Rests':
        raise Exception(r)
    asked, acts = acts, []
    middle = copy.deepcopy(n)
    ordered = shards.coordinates(n, threshold, limit, to)
    homes = shards.asks_homes(n, to)
    g = n['gossip']
    ms = members(st)
    if n['ticks'] % 3 == 0 or 2 * len(g['seen']) < len(ms):
        others = [u for u in ms if u != n['me']]
        c = [u for u in others if u not in g['seen']] or others
        if c:
            acts.append(to(n, c[word % len(c)], ('Gossip', gcopy(g))))
    return (middle, asked, ordered, homes, acts)

def covers(v, w):
    return all((v.get(u, 0) >= c for u, c in w.items()))

def on_packet(n, p):
    m = p['msg']
    k = m[0]
    frm = p['frm']
    acts = []
    st = n['gossip']['standings']
    if k == 'Join':
        assert is_member(n)
        if frm not in st:
            c = update(n, [('Joined', frm)])
            acts.append(('Update', c, [('Joined', frm)]))
        acts.append(to(n, frm, ('Welcome', gcopy(n['gossip']))))
    elif k in ('Welcome', 'Gossip'):
        inc = m[1]
        assert n['me'] in inc['standings']
        own = n['gossip']
        a = covers(own['version'], inc['version'])
        b = covers(inc['version'], own['version'])
        known = n['me'] in inc['seen']
        if a and b:
            r = 'Same'
            new = dict(own, seen=sorted(set(own['seen']) | {u for u in inc['seen'] if is_member(n, u)}))
        elif b:
            r = 'Newer'
            new = gcopy(inc)
        elif a:
            r = 'Older'
            new = own
        else:
            raise Exception('merge')
        n['moved'] = n['moved'] or sight(own['standings']) != sight(new['standings'])
        new = dict(new)
        if r != 'Older' and new['standings'].get(n['me'], ('B',))[0] == 'M':
            new['seen'] = sorted(set(new['seen']) | {n['me']})
        n['gossip'] = new
        if not known if r == 'Same' else True:
            acts.append(to(n, frm, ('Gossip', gcopy(n['gossip']))))
    elif k == 'ExitingConfirmed':
        n['confirmed'] = sorted(set(n['confirmed']) | {frm})
    elif k == 'Ask':
        b = m[1]
        pr = n['promise']
        sv = n['settled']
        assert pr['last'] is None or pr['released'] or finished(sv, pr['last'][1]), pr
        assert pr['last'] is None or pr['last'] < b
        n['promise'] = dict(last=b, released=False, floor=pr['floor'])
        acts.append(to(n, frm, ('Granted', b, vmerge(pr['floor'], version_of(sv)))))
    elif k == 'Granted':
        assert n['live'] == m[1] and frm not in n['granted']
        n['granted'] = sorted(n['granted'] + [frm])
        n['floor'] = vmerge(n['floor'], m[2])
    elif k in shards.RULES:
        acts += shards.RULES[k](n, frm, *m[1:], to)
    else:
        raise Exception(k)
    return acts

def closes(n, q):
    stopping = not n['runs']
    g = n['gossip']
    viewed = n['shown'] != g['version']
    notes = not stopping and settled_now(n, q) and (not n['settled'] or n['settled']['version'] != g['version'])
    n['shown'] = dict(g['version'])
    n['stable'] = 0 if n['moved'] else n['stable']
    n['moved'] = False
    others = [u for u in members(g['standings']) if u != n['me']] if True else []
    n['detector'] = {u: n['detector'].get(u, 0) for u in others}
    if notes:
        n['settled'] = dict(version=dict(g['version']), standings=dict(g['standings']), counters={})
    return ([('View',)] if viewed else []) + ([('Stopped',)] if stopping else []) + ([('Settled',)] if notes else [])

def activates(n):
    sv = n['settled']
    if n['runs'] and n['phase'] == 'Asking' and (oldest(sv['standings']) == n['me']) and all((u in n['granted'] for u in needed(sv))) and covers(version_of(sv), n['floor']):
        n['phase'] = 'Active'
        return [('Active', n['live'][0])]
    return []
