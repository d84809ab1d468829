"""The rules of shards that a worked run needs: nobody is finished or Exiting, and an entity gets one message alone at each node."""

def slot(hosted=None, mark=0, held=False, home=None):
    return dict(hosted=hosted, mark=mark, held=held, home=home)

def unplaced():
    return dict(last=0, home=None, started=False, stage='Still', waits=[])

def shard_of(entity, shards):
    """Java's hash of the name, and the rest of that by the number of shards"""
    total = 0
    for byte in entity.encode():
        total = (total * 31 + byte) % 2 ** 32
    return abs(total - 2 ** 32 if total >= 2 ** 31 else total) % shards

# ---- what a node does as a region

def receives(known):
    return known['hosted'] is not None and not known['held']

def other_home(node, known):
    return known['home'] if not known['held'] and known['home'] != node['me'] else None

def routes(node, entity, payload):
    """a message is delivered, or waits; the changes of the entities are kept in their order"""
    shard = shard_of(entity, len(node['slots']))
    known = node['slots'][shard]
    if not receives(known):
        assert other_home(node, known) is None and len(node['messages']) < node['most']
        node['messages'] = node['messages'] + [(entity, payload)]
        return [('Buffer', entity, payload)]
    assert entity not in node['active_entities']
    node['active_entities'] = node['active_entities'] | {entity}
    node['entities'] = node['entities'] + [('after_delivery', shard, entity, payload)]
    return [('Entity', entity), ('Deliver', entity, payload)]

def wanted(node):
    """the shards for which messages wait, each once, and which do not receive here"""
    shards = [shard_of(entity, len(node['slots'])) for entity, _ in node['messages']]
    return [shard for shard in dict.fromkeys(shards) if not receives(node['slots'][shard])]

def flushes(node, shard):
    """the messages of a shard that receives leave the buffer, and are routed"""
    assert receives(node['slots'][shard])
    gone = [message for message in node['messages'] if shard_of(message[0], len(node['slots'])) == shard]
    node['messages'] = [message for message in node['messages'] if message not in gone]
    return [action for entity, payload in gone for action in routes(node, entity, payload)]

def asks_homes(node, to):
    ballot = node['promise']['last']
    return [] if ballot is None else [to(node, ballot[1], ('GetHome', ballot, shard)) for shard in wanted(node)]

# ---- what a node does as the coordinator

def loads(node):
    """the numbers of shards of the Up members of the settled view that have granted, each with its process"""
    may_host = [who for who, standing in sorted(node['settled']['standings'].items()) if standing[:2] == ('M', 'Up') and who in node['granted']]
    return [(sum(entry['home'] is not None and entry['home'][0] == who for entry in node['table']), who) for who in may_host]

def placed(entry, among):
    """the entry with its home at the least load"""
    number = entry['last'] + 1
    return dict(unplaced(), last=number, home=(min(among)[1], number))

def with_entry(node, shard, entry):
    node['table'] = node['table'][:shard] + [entry] + node['table'][shard + 1:]

def coordinates(node, threshold, limit, to):
    """in a tick of an active node: a shard begins to move where one has to, and the orders are given (again)"""
    if node['phase'] != 'Active':
        return []
    moving = [entry for entry in node['table'] if entry['stage'] != 'Still']
    among = loads(node)
    most, giver = min(among, key=lambda load: (-load[0], load[1]))
    if len(moving) < limit and most > min(among)[0] + threshold:
        shard = [i for i, entry in enumerate(node['table']) if entry['stage'] == 'Still' and entry['home'] is not None and entry['home'][0] == giver][0]
        with_entry(node, shard, dict(node['table'][shard], stage='Holding', waits=list(node['granted'])))
    orders = []
    for shard, entry in enumerate(node['table']):
        if entry['home'] is None:
            continue
        owner, number = entry['home']
        if entry['stage'] == 'Holding':
            orders += [to(node, who, ('BeginHandOff', node['live'], shard, number)) for who in entry['waits']]
        elif entry['stage'] == 'Leaving':
            orders.append(to(node, owner, ('HandOff', node['live'], shard, number)))
        elif not entry['started']:
            orders.append(to(node, owner, ('HostShard', node['live'], shard, number)))
    return orders

# ---- the messages of shards

def on_get_home(node, sender, ballot, shard, to):
    assert node['phase'] == 'Active' and node['live'] == ballot and node['table'][shard]['home'] is None
    entry = placed(node['table'][shard], loads(node))
    with_entry(node, shard, entry)
    owner, number = entry['home']
    return [to(node, owner, ('HostShard', ballot, shard, number)), to(node, sender, ('Home', ballot, shard, owner))]

def on_host_shard(node, sender, ballot, shard, number, to):
    known = node['slots'][shard]
    assert node['promise']['last'] == ballot and known['hosted'] is None and known['mark'] < number
    node['slots'][shard] = slot(number, number, False, node['me'])
    return [('Host', shard, number)] + flushes(node, shard) + [to(node, sender, ('ShardStarted', ballot, shard, number))]

def on_begin_hand_off(node, sender, ballot, shard, number, to):
    assert node['promise']['last'] == ballot
    node['slots'][shard] = dict(node['slots'][shard], held=True, home=None)
    return [to(node, sender, ('BeginHandOffAck', ballot, shard, number))]

def on_begin_hand_off_ack(node, sender, ballot, shard, number, to):
    entry = node['table'][shard]
    assert node['live'] == ballot and entry['home'][1] == number and entry['stage'] == 'Holding' and sender in entry['waits']
    waits = [who for who in entry['waits'] if who != sender]
    with_entry(node, shard, dict(entry, stage='Holding' if waits else 'Leaving', waits=waits))
    return [] if waits else [to(node, entry['home'][0], ('HandOff', ballot, shard, number))]

def on_hand_off(node, sender, ballot, shard, number, to):
    known = node['slots'][shard]
    assert node['promise']['last'] == ballot and known['hosted'] is not None and known['hosted'] <= number
    node['slots'][shard] = dict(known, hosted=None, mark=max(known['mark'], number))
    node['active_entities'] = {entity for entity in node['active_entities'] if shard_of(entity, len(node['slots'])) != shard}
    node['entities'] = node['entities'] + [('without_shard', shard)]
    return [('Gone', shard), to(node, sender, ('ShardStopped', ballot, shard, number))]

def on_shard_stopped(node, sender, ballot, shard, number, to):
    entry = node['table'][shard]
    assert node['live'] == ballot and entry['stage'] != 'Still' and entry['home'] == (sender, number)
    entry = placed(entry, [(count - (who == sender), who) for count, who in loads(node)])
    with_entry(node, shard, entry)
    return [to(node, entry['home'][0], ('HostShard', ballot, shard, entry['home'][1]))]

RULES = {
    'GetHome': on_get_home,
    'HostShard': on_host_shard,
    'BeginHandOff': on_begin_hand_off,
    'BeginHandOffAck': on_begin_hand_off_ack,
    'HandOff': on_hand_off,
    'ShardStopped': on_shard_stopped,
}
